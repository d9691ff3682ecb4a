"""The model's side of cases under trace, and where the program differs from it."""
from cases.formats import MAKING, NAME
from cases.life_lists import commands_of
from cases.tracing import Plan, traced_run
from model.devices import DeviceFault, FailingDisk, MemoryDisk, StoppingDisk, filled
from model.foreseen import SYNC, Course, image_of_stop
from model.layout import format_onto
from model.lines import reply_lines, serve
from model.lives import lives
from model.recovery import Unrecovered, recover
from model.session import Session


def text_of_replies(replies):
    return b"".join(reply.encode() + b"\n" for reply in replies)


def fed(lines):
    """Each with its end."""
    return [line + b"\n" for line in lines]


def replies_until_stop(contents, life, lines):
    """What was replied to before the first line, and then up to each line; nothing of the line at which the disk stops."""
    try:
        session = Session(StoppingDisk(contents, life.stop_at, filled(life.fill)))
    except DeviceFault:
        return []
    so_far = [text_of_replies(session.take_output())]
    for line in lines:
        more = reply_lines(session, line)
        if more is None or session.has_failed:
            break
        so_far.append(so_far[-1] + text_of_replies(more))
    return so_far


def difference_of_calls(calls, traced):
    """Writes and syncs of the disk, of which the last may be one at which it stopped."""
    wanted = [SYNC if call is SYNC else (call[0], len(call[1])) for call in calls]
    for number, pair in enumerate(zip(wanted, traced.calls), 1):
        if pair[0] != pair[1]:
            return f"call {number} of the disk: model {pair[0]}, program {pair[1]}"
    return None if len(wanted) == len(traced.calls) else f"{len(wanted)} calls of the model, {len(traced.calls)} of the program"


def difference_of_life(ckrt, contents, life, lines, report, path, tally, count_life):
    """Runs the program up to the life's stop, and lays the fill over what was pending."""
    traced = traced_run(ckrt, path, fed(lines), Plan(kill_at=life.stop_at))
    count_life(traced.replies.count(b"\n"))
    calls = Course(contents, commands_of(lines)).calls
    made = calls[:life.stop_at] if life.stop_at else calls
    so_far = replies_until_stop(contents, life, lines)
    tally["life", "killed" if traced.status is None else "whole"] += 1
    difference = difference_of_calls(made, traced)
    if difference:
        return difference
    expected = (so_far[-1] if so_far else b"", b"", None if 0 < life.stop_at <= len(calls) else 0)
    if (traced.replies, traced.errors, traced.status) != expected:
        return f"model {expected}, program {(traced.replies, traced.errors, traced.status)}"
    if traced.printed != [len(text) for text in so_far[:len(traced.printed)]]:
        return f"a line was read before all was answered: {traced.printed}, not {[len(text) for text in so_far]}"
    if path.read_bytes() != image_of_stop(contents, made, life.stop_at, b""):
        return "the disk's bytes before the fill"
    if life.stop_at:
        path.write_bytes(report.left)
    return None if path.read_bytes() == report.left else "the disk's bytes"


def difference_of_lists(ckrt, case, path, tally, count_life, look):
    """`look` compares what the program shows of the disk that a life left."""
    contents = bytes(case.disk())
    path.write_bytes(contents)
    for number, (life, lines, report) in enumerate(zip(case.listed, case.texts, lives(case.image, case.geometry, case.listed)), 1):
        difference = difference_of_life(ckrt, contents, life, lines, report, path, tally, count_life)
        difference = difference or look(bytearray(report.left))
        if difference:
            return f"life {number}: {difference}"
        contents = report.left
    return None


def outcome_of_failure(disk, lines):
    """Status, replies and standard error of a life whose disk fails a call."""
    try:
        return 0, text_of_replies(serve(Session(disk), b"".join(fed(lines)))), b""
    except DeviceFault:
        return 1, b"", b"ckrt: Device\n"
    except Unrecovered as fault:
        return 1, b"", f"ckrt: {fault}\n".encode()


def difference_of_traced(ckrt, case, path, tally, count_life):
    """A life whose disk fails a call, or whose transfers go in parts; the bytes that it leaves are the model's."""
    contents, plan = case.disk(), case.plan
    path.write_bytes(contents)
    traced = traced_run(ckrt, path, fed(case.lines), plan)
    count_life(traced.replies.count(b"\n"))
    if plan.fail_read_at and traced.has_failed:
        expected = 1, b"", b"ckrt: Device\n"
    else:
        disk = FailingDisk(contents, plan.fail_at, plan.kept) if plan.fail_at else MemoryDisk(contents)
        expected = outcome_of_failure(disk, case.lines)
    tally["fate", "a call failed" if traced.has_failed else "none failed"] += 1
    shown = traced.status, traced.replies, traced.errors
    if shown != expected:
        return f"model {expected}, program {shown}"
    return None if path.read_bytes() == contents else "the disk's bytes"


def bytes_at_sync(case, number):
    """What the file holds when `format` makes its sync of that number. The first one is that of the mark of a making."""
    class Counting(MemoryDisk):
        syncs = 0

        def sync(self):
            self.syncs += 1
            if self.syncs == number:
                raise DeviceFault

    disk = Counting(bytearray(case.before))
    disk.bytes[NAME] = MAKING
    if number == 1:
        return disk.bytes
    number -= 1
    try:
        format_onto(disk, case.geometry, case.image)
    except DeviceFault:
        pass
    return disk.bytes


def with_fill(contents, calls, fill):
    """Laid over what was written since the last sync but one that is the last call."""
    syncs = [number for number, call in enumerate(calls[:-1]) if call is SYNC]
    writes = [call for call in calls[syncs[-1] + 1 if syncs else 0:] if call is not SYNC]
    places = sorted(set().union(*(range(at, at + length) for at, length in writes)))
    for index, place in enumerate(places):
        contents[place] = fill[index % len(fill)] if fill else contents[place]
    return contents


def difference_of_cut(ckrt, case, path, tally):
    """`format`, stopped at a call; then its disk is none, or has no events. The order of the writes between two syncs is open."""
    path.write_bytes(case.before)
    image = path.with_name("image")
    image.write_bytes(case.image)
    geometry = case.geometry
    sizes = ["--pages", geometry.pages, "--harts", geometry.harts, "--journal", geometry.journal]
    traced = traced_run(ckrt, path, [], Plan(kill_at=case.stop_at), ["format", path, image, *sizes])
    contents, syncs = bytearray(path.read_bytes()), traced.calls.count(SYNC)
    if traced.status is None:
        tally["format", "stopped"] += 1
        at_sync = traced.calls[-1] is SYNC
        contents_wanted = bytes_at_sync(case, syncs) if at_sync else contents
        path.write_bytes(with_fill(bytearray(contents), traced.calls, case.fill))
    else:
        contents_wanted = bytes_at_sync(case, 5)
    if contents != contents_wanted:
        return f"the disk's bytes at sync {syncs}"
    if (traced.status, syncs) not in ((None, 0), (None, 1), (None, 2), (None, 3), (None, 4), (0, 4)):
        return f"status {traced.status} behind {syncs} syncs"
    return difference_of_first_recovery(path.read_bytes(), traced, tally)


def difference_of_first_recovery(contents, traced, tally):
    try:
        found = recover(MemoryDisk(bytearray(contents)))
        outcome = found.events, found.generation
    except Unrecovered as fault:
        outcome = str(fault)
    tally["format", "then recovers" if outcome == (0, 1) else str(outcome)] += 1
    allowed = [(0, 1)] if traced.status == 0 else [(0, 1), "NotFormatted"]
    return None if outcome in allowed else f"a stopped format leaves {outcome}"
