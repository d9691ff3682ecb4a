"""Wrong models, by subject: each is a copy of this model with one rule broken, and the model's own tests have to find it.

A subject's `WRONG` has for each file the texts that are changed there, and what each is changed to.
"""
from wrong import answers, beside, calls, checks, cycles, disks, drives, histories, hunts, motions, profiles, races, tables, timelines, values, words

SUBJECTS = {"drives": drives, "tables": tables, "disks": disks, "calls": calls, "histories": histories, "beside": beside, "races": races, "cycles": cycles, "checks": checks, "values": values, "timelines": timelines,
            "profiles": profiles, "hunts": hunts, "answers": answers, "motions": motions, "words": words}


def wrong_models(*subjects):
    """The wrong models of these subjects, or of all: file, text, and what the text is changed to."""
    return [(name, text, changed) for subject in subjects or SUBJECTS
            for name, changes in SUBJECTS[subject].WRONG.items() for text, changed in changes]
