"""Tries the model's own tests on wrong models.

    python3 -B -m wrong [SUBJECT ..] [--at-once N]

Prints those that no test finds; the status is then 1.
"""
import argparse
import shutil
import subprocess
import sys
import tempfile
from concurrent.futures import ThreadPoolExecutor
from pathlib import Path

from wrong import SUBJECTS, wrong_models

MODEL = Path(__file__).resolve().parents[1]
TIME_LIMIT = 900  # seconds of a test
# The test of each file, which is tried first; then all others, the quick ones first.
FIRST = {
    "lives": "lives", "foreseen": "lives", "ledger": "fates", "devices": "fates", "key_calls": "keys", "events": "long_runs", "plans": "plans",
    **dict.fromkeys(["feeding", "driven"], "feeding"), **dict.fromkeys(["call_lines", "recorded", "compare"], "call_lines"),
    **dict.fromkeys(["clocks", "accesses", "orders", "races", "other_rules"], "races"), **dict.fromkeys(["stretches", "timelines", "pictures"], "timelines"),
    "hunts": "hunts", **dict.fromkeys(["raced", "race_rows"], "raced"), "stubs": "stubs",
    **dict.fromkeys(["begun", "debugged", "damage", "histories", "older_areas"], "begun"), "beside": "beside", "kept": "kept", "snapshots": "snapshots",
    **dict.fromkeys(["motions", "moved", "stepped"], "motions"), **dict.fromkeys(["profiles", "profiled"], "profiles"),
    **dict.fromkeys(["columns", "crowded"], "columns"), **dict.fromkeys(["stories", "lived"], "stories"), "timed": "timed",
    **dict.fromkeys(["mistyped", "mistakes"], "mistyped"), "words": "words", "glances": "races",
    **dict.fromkeys(["lock_orders", "lock_steps", "cycle_texts", "lockers"], "cycles"), **dict.fromkeys(["beneath", "callers"], "beneath"),
    **dict.fromkeys(["heap", "checks"], "checks"), "checked": "checked", **dict.fromkeys(["bits", "values", "heaped"], "values"), "many": "many", "images": "images", "schedules": "schedules",
    **dict.fromkeys(["layout", "listing", "switches", "formats"], "programs"),
}
TESTS = ["plans", "schedules", "rounds", "feeding", "checked", "calls", "call_lines", "beside", "kept", "snapshots", "races", "timelines", "hunts", "stubs", "mistyped", "begun", "motions", "profiles",
         "columns", "programs", "beneath", "cycles", "checks", "values", "many", "images", "stories", "timed", "raced", "keys", "words", "long_runs", "listings", "rows", "tables", "texts", "fates", "lives", "stops"]


def fails(folder, test):
    """Whether a test fails on a model; one that doesn't end fails, too."""
    words = [sys.executable, "-B", "-m", "unittest", "--failfast", f"unit.test_{test}"]
    try:
        return subprocess.run(words, cwd=folder, capture_output=True, timeout=TIME_LIMIT, check=False).returncode != 0
    except subprocess.TimeoutExpired:
        return True


def is_found(model):
    """Whether some test fails on a wrong model."""
    name, text, changed = model
    with tempfile.TemporaryDirectory() as folder:
        copy = Path(folder) / "model"
        shutil.copytree(MODEL, copy)
        source = (copy / name).read_text("utf-8")
        if source.count(text) != 1:
            raise SystemExit(f"{name}: {text!r} is there {source.count(text)} times")
        (copy / name).write_text(source.replace(text, changed), "utf-8")
        first = FIRST.get(Path(name).stem)
        return any(fails(copy, test) for test in sorted(TESTS, key=lambda test: test != first))


def main():
    parser = argparse.ArgumentParser(description="Tries the model's own tests on wrong models.")
    parser.add_argument("subjects", nargs="*", metavar="SUBJECT", help=f"{', '.join(SUBJECTS)} (all)")
    parser.add_argument("--at-once", type=int, default=2, metavar="N", help="how many at once (2)")
    words = parser.parse_args()
    unknown = set(words.subjects) - set(SUBJECTS)
    if unknown:
        parser.error(f"no such subject: {', '.join(sorted(unknown))}")
    models, missed = wrong_models(*words.subjects), 0
    with ThreadPoolExecutor(words.at_once) as pool:
        for (name, text, changed), found in zip(models, pool.map(is_found, models)):
            if not found:
                missed += 1
                print(f"not found: {name}: {changed!r} for {text!r}", flush=True)
    print(f"{len(models)} wrong models, {missed} not found")
    return 1 if missed else 0


if __name__ == "__main__":
    sys.exit(main())
