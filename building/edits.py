"""The must-fail edits of a crate, many of them tried in one check.

`rt` tries each edit by a check of its own. But what a function proves rests on its own body, and on the contracts of those that it calls, not
on their bodies. So an edit within a body can only break goals of this function, and one check can try edits of many functions.

By such a check an edit is refused only where a goal of a function that it changes isn't proved. All other edits are tried by `rt` as ever.
"""
import contextlib
import functools
import inspect
import os
import re
import shutil
from dataclasses import dataclass

from building.sources import say

# What is called of `rt`, with the parameters that it has to have; and what is put in place of its own, which toolchains have in one of two forms.
CALLED = {"checked": "crate texts flags kept", "read_edit": "edit folder", "unread": "line changed"}
ALL_AT_A_TIME = {"must_fail_all": "crate edits flags"}
ONE_AT_A_TIME = {"seeded": "crate flags start", "must_fail": "crate edit flags kept", "edits_of": "crate", "linked": "folder to"}
FUNCTION = re.compile(r"(?P<indent>(?: {4})?)(?:pub(?:\(\w+\))? )?fn (?P<name>\w+)")
METHODS = re.compile(r"impl(?:<.*>)? (?:(?P<trait>(?!Drop\b)\w+) for )?(?P<type>\w+)(?:<'?\w(?:, '?\w)*>)?(?: \{)?")
# What a check says of goals: that one isn't proved, that the answer that is written down for one is wrong, and the same of any proof.
GOAL = re.compile(r"note: (?:\./)?(?P<file>src/\S+?):(?P<line>\d+):\d+: it is not proved that ")
ANSWER = re.compile(r"(?:\./)?proofs/(?P<folder>\S+)/(?:Answers|Invariants|Proof)\.antt:\d+:\d+: error: ")
PROOF = re.compile(r"(?:\./)?proofs/\S+\.antt:\d+:\d+: error: ")
# A proof names what an edit took away. That says little of a contract, so `rt` tells it apart.
GONE = re.compile(r"(?:\./)?proofs/.*(?:has no field|is not in scope|has no `|was not admitted)")


@dataclass(frozen=True)
class Function:
    """A function with a body. Its path below the crate is of a method only the end, and "" where it isn't known. Its lines are counted from 0.

    It begins in the line `first` with its attributes. Its body is from the line `begin` on up to `end`, that of the brace which closes it.
    """

    file: str
    path: str
    name: str
    first: int
    begin: int
    end: int

    def has(self, line):
        """Whether a line of a check is on a goal of the function: it stands at one of its lines, or at an answer in the folder of its proof."""
        goal, answer = GOAL.match(line), ANSWER.match(line)
        if goal:
            return goal["file"] == self.file and self.first < int(goal["line"]) <= self.end + 1
        folder = re.sub(r"(^|/)\+", r"\1", answer["folder"]).replace("/", "::") if answer else ""  # (a plus is for a function that calls itself)
        return folder == self.path != "" or self.path[:1].isupper() and folder.endswith(f"::{self.path}")

    def may_have(self, line):
        """Whether a line may be on a goal of the function, as one on a closure in it: the folder of the proof has its name."""
        return bool(re.match(rf"(?:\./)?proofs/(?:\S+/)?\+?{self.name}/", line))


def module_of(file):
    """The module of a source, "" for the root of the crate."""
    module = file.removeprefix("src/").removesuffix(".rt").replace("/", "::")
    return "" if module in ("lib", "main") else module


def path_of(file, block, name):
    """The path of a function below its crate, of a method the end of it, and "" where an `impl` is for some of a type's parameters alone."""
    if block.startswith("impl"):
        methods = METHODS.fullmatch(block)
        return f"{methods['type']}{methods['trait'] or ''}::{name}" if methods else ""
    return f"{module_of(file)}::{name}".removeprefix("::")


def first_of(lines, named):
    """The first line of a function, which may be one of its attributes, by the line with its name."""
    while named > 0 and lines[named - 1].lstrip().startswith("#["):
        named -= 1
    return named


def begin_of(lines, named, indent):
    """The first line of a function's body, by the line with its name, or None where it has no body of lines.

    Up to the brace that opens the body, its parameters and its clauses stand further in than its name.
    """
    for at in range(named, len(lines)):
        line = lines[at].removeprefix(indent)
        if at > named and not re.match(r"[ )>{]|where$", line):
            return None
        if line.endswith(("{", "}", ";")) and not line.startswith(" "):
            return at + 1 if line.endswith("{") else None
    return None


def functions_of(text, file=""):
    """The functions with a body in a source that is laid out as `rt fmt` does: free ones, and methods in `impl` blocks."""
    lines, found, block = text.split("\n"), [], ""
    for named, line in enumerate(lines):
        if found and named <= found[-1].end:
            continue
        if line[:1].isalpha() and line != "where":
            block = line
        is_one = FUNCTION.match(line)
        if is_one and (not is_one["indent"] or block.startswith("impl")):
            name, begin, closing = is_one["name"], begin_of(lines, named, is_one["indent"]), is_one["indent"] + "}"
            if begin and closing in lines[begin:]:
                found.append(Function(file, path_of(file, block, name), name, first_of(lines, named), begin, lines.index(closing, begin)))
    return found


def outside(text):
    """What stands outside of the bodies: the lines before the first one, those up to the next, and so on."""
    lines, found = text.split("\n"), functions_of(text)
    begins, ends = [0, *(it.end for it in found)], [*(it.begin for it in found), len(lines)]
    return [lines[begin:end] for begin, end in zip(begins, ends)]


def bodies_of(text):
    lines = text.split("\n")
    return [lines[it.begin:it.end] for it in functions_of(text)]


def bodies_changed(before, after):
    """The bodies that a text has otherwise than another, by their places among its functions. None is, where it differs in anything else.

    Functions of a cycle share one proof, so that each counts as something else.
    """
    if outside(before) != outside(after) or "#[cycle(" in before:
        return {}
    pairs = enumerate(zip(bodies_of(before), bodies_of(after)))
    return {place: new for place, (old, new) in pairs if old != new}


def with_bodies(text, bodies):
    """A text with these bodies in place of its own."""
    lines = text.split("\n")
    for place, it in reversed([*enumerate(functions_of(text))]):
        lines[it.begin:it.end] = bodies.get(place, lines[it.begin:it.end])
    return "\n".join(lines)


def text_of(crate, file):
    with open(f"{crate.folder}/{file}", encoding="utf-8") as it:
        return it.read()


def changes_of(rt, crate, edit):
    """The bodies that an edit changes, each by its file and its place there. None is, where the edit changes anything else."""
    changes = {}
    for file, text in (rt.read_edit(edit, crate.folder)[0] or {}).items():
        bodies = bodies_changed(text_of(crate, file), text) if re.fullmatch(r"src/.+\.rt", file) else {}
        if not bodies:
            return {}
        changes.update({(file, place): body for place, body in bodies.items()})
    return changes


def rounds_of(changes):
    """Deals out the edits that change bodies alone to rounds. In none of them two edits change the same function."""
    rounds = []
    for edit in filter(changes.get, changes):
        free = [others for others in rounds if not any(changes[edit].keys() & changes[other].keys() for other in others)]
        if free:
            free[0].append(edit)
        else:
            rounds.append([edit])
    return rounds


def lines_on_goals(rt, ran, texts):
    """The lines of a check on goals that aren't proved. There is none where the check told nothing certain."""
    lines = ran.stdout.rstrip("\n").split("\n")
    of_some = re.fullmatch(r"only=(\d+) proved=(\d+)", lines[-1])
    is_refused = int(of_some[2]) < int(of_some[1]) if of_some else lines[-1].startswith("logic=not-proved")
    if ran.returncode != 1 or not is_refused or rt.rtlib.STALE.search(ran.stdout) or any(rt.unread(it, texts) for it in lines):
        return []
    return [it for it in lines if GOAL.match(it) or PROOF.match(it)]


def refusals(lines, changed):
    """The first line by which each edit is refused, by the functions that the edits change.

    A line on another function would be on a goal that an edit broke elsewhere, which can't be. Where there is one, no edit is refused.
    """
    notes = {}
    for line in lines:
        edits = [edit for edit, its in changed.items() if any(it.has(line) for it in its)]
        if not edits and not any(it.may_have(line) for its in changed.values() for it in its):
            return {}
        if len(edits) == 1 and not GONE.match(line):
            notes.setdefault(edits[0], line)
    return notes


def check_together(rt, crate, changes, flags, kept=None):
    """Checks a crate with all edits of a round, over what a folder keeps, where one is given. Returns the lines by which edits are refused.

    Where none is, only those functions are checked that the edits change, and all that they call, as far as that can be said.
    """
    bodies, texts, found = {}, {}, {}
    for (file, place), body in (it for changed in changes.values() for it in changed.items()):
        bodies.setdefault(file, {})[place] = body
    for file, its in bodies.items():
        texts[file] = with_bodies(text_of(crate, file), its)
        found[file] = functions_of(texts[file], file)
    changed = {edit: [found[file][place] for file, place in its] for edit, its in changes.items()}
    paths = sorted({it.path or module_of(it.file) for its in changed.values() for it in its})
    only = [word for path in paths for word in ("--only", path)] if all(paths) and not kept else []
    ran = rt.checked(crate, texts, [*flags, *only], kept)
    if only and ran.returncode == 2:  # (a path fits no function, or several)
        ran = rt.checked(crate, texts, flags, None)
    return refusals(lines_on_goals(rt, ran, texts), changed)


def refused_together(rt, crate, edits, flags, over=None):
    """The edits that are refused by checks of many, each with what to say of it. Each check is over a folder that `over` gives, if it is given."""
    changes, notes = {edit: changes_of(rt, crate, edit) for edit in edits}, {}
    rounds = rounds_of(changes)
    for together in rounds:
        with over() if over else contextlib.nullcontext() as kept:
            notes |= check_together(rt, crate, {edit: changes[edit] for edit in together}, flags, kept)
    say(f"{crate.name}: edits refused in {len(rounds)} checks of many: {len(notes)}; tried alone: {len(edits) - len(notes)}")
    return {edit: f"must-fail {crate.name}/{os.path.basename(edit)}: refused, as it must be: {note[:160]}" for edit, note in notes.items()}


def try_edits(rt, try_each, crate, edits, flags):
    """Is `must_fail_all` of `rt`, whose own is `try_each`: whether each edit is refused, and what to say.

    That the crate is proved without an edit isn't looked at here: under the gate the same run has proved it just before.
    """
    refused = refused_together(rt, crate, edits, flags)
    left = [edit for edit in edits if edit not in refused]
    tried = dict(zip(left, try_each(crate, left, flags)))
    return [(True, refused[edit]) if edit in refused else tried[edit] for edit in edits]


class TriedTogether:
    """What takes the places of `seeded` and `must_fail` of an `rt` that tries one edit at a time, over a check of the crate as it stands.

    Where all edits but one at most change bodies alone, many are tried without that check, which is made only if two or more are left.
    Else all stand on it.
    """

    def __init__(self, rt):
        self.rt, self.seeded_by_rt, self.must_fail_by_rt, self.refused = rt, rt.seeded, rt.must_fail, {}

    def look(self, crate, over=None):
        """Tries all edits of a crate together. Returns how many are left."""
        edits = self.rt.edits_of(crate)[0]
        self.refused |= refused_together(self.rt, crate, edits, ["--jobs", "1"], over)
        return len([edit for edit in edits if edit not in self.refused])

    @contextlib.contextmanager
    def copy_of(self, room):
        """A copy of what a check of a crate as it stands has kept."""
        try:
            self.rt.linked(f"{room}/seed", f"{room}/many")
            yield f"{room}/many"
        finally:
            shutil.rmtree(f"{room}/many", ignore_errors=True)

    def seeded(self, crate, flags, start=None):
        """The folder with a check of the crate as it stands, or "" where there is no need of one."""
        changes = [changes_of(self.rt, crate, edit) for edit in self.rt.edits_of(crate)[0]]
        if changes.count({}) < 2:
            return self.seeded_by_rt(crate, flags, start) if self.look(crate) > 1 else ""
        room = self.seeded_by_rt(crate, flags, start)
        self.look(crate, functools.partial(self.copy_of, room) if room else None)
        return room

    def must_fail(self, crate, edit, flags, kept=None):
        """What a try of an edit comes to, and what to say. Of a crate with one edit alone, `seeded` isn't called before."""
        if len(self.rt.edits_of(crate)[0]) == 1:
            self.look(crate)
        return (self.rt.REFUSED, self.refused[edit]) if edit in self.refused else self.must_fail_by_rt(crate, edit, flags, kept)


def has(rt, called):
    """Whether a toolchain has all that is called of it."""
    its = {name: getattr(rt, name, None) for name in called}
    return all(it and [*inspect.signature(it).parameters] == called[name].split() for name, it in its.items())


def try_edits_at_once(rt):
    """Has `rt` try many edits in one check, where this toolchain has all that is called of it."""
    if has(rt, CALLED | ALL_AT_A_TIME):
        rt.must_fail_all = functools.partial(try_edits, rt, rt.must_fail_all)
    elif has(rt, CALLED | ONE_AT_A_TIME) and hasattr(rt, "REFUSED"):
        together = TriedTogether(rt)
        rt.seeded, rt.must_fail = together.seeded, together.must_fail
