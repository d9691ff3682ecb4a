"""The lines of `ckrt calls`: examples written down by hand, and what each history has to be."""
import unittest
from copy import deepcopy

from cases.damage import batch
from cases.kinds import case_of
from cases.record_guest import LABELS, STEPS_TO_CALL, STEPS_TO_TOP, image_with
from compare import Life, kind_of_calls, with_told_before
from model.abi import KEY_CALLS, RETURN_GATE, Call
from model.call_lines import FORMS, SECOND_ANSWERS, History, kind_of_line, lines_before_refused
from model.calls import CALLS
from model.devices import MemoryDisk, StoppingDisk, filled
from model.events import Eof, Input, Place, Run, Tick
from model.layout import HEADER_AT, Geometry, Header, format_disk, header_of
from model.lines import serve_disk
from model.listing import OutOfRange
from model.recovery import Unrecovered, saved_in
from model.session import Session
from model.switches import switched
from model.tables import encode_tables
from unit.test_rows import GETS, JOINS, PUTS_A, SMALL, image

TOP, HANDLER, BEHIND_CALL = LABELS["top"], LABELS["handler 1"], LABELS["behind the call"]
MUTEX, CONDITION, BARRIER, LOCK = 0x2000, 0x3000, 0x4000, 0x5000
CREATE = (Call.CREATE, TOP, 0, 0, 0)
TWO_MORE = [(1, *CREATE), (1, *CREATE)]


def history_of(words, *lines):
    disk = format_disk(SMALL, words)
    serve_disk(disk, "\n".join([*lines, "commit", ""]).encode())
    return History(disk)


def lead(session, step):
    """An event, or a thread and the call that it makes on hart 0."""
    if not isinstance(step, tuple):
        return session.submit(step)
    session.submit(Place(0, step[0]))
    if session.machine.threads[step[0]].pc == BEHIND_CALL:
        session.submit(Run(0, STEPS_TO_TOP))
    session.submit(Run(0, STEPS_TO_CALL))


def told(*steps, version=None):
    """The lines of what threads are led to do, without positions and places; each event of `steps` stands there as it is."""
    calls = [step[1:] for step in steps if isinstance(step, tuple)]
    records = [tuple(call) + (0,) * (6 - len(call)) for call in calls]
    session = Session(MemoryDisk(format_disk(Geometry(16, 1, 1 << 16), image_with(records), version)))
    for step in steps:
        lead(session, step)
    session.commit()
    lines = [line.partition(" ")[2] for line in History(session.disk.bytes).lines()]
    return [line for line in lines if not line.startswith("place ")]


class WithKeys(unittest.TestCase):
    def setUp(self):
        switch = switched(keys=True, long_runs=True)
        switch.__enter__()
        self.addCleanup(switch.__exit__, None, None, None)

    def tells(self, steps, *lines):
        """What is told behind the two creates."""
        self.assertEqual(told(*TWO_MORE, *steps)[2:], list(lines))


class Positions(WithKeys):
    def test_first_run(self):
        self.assertEqual(history_of(PUTS_A, "place 0 1", "run 0 6").lines(),
                         ["0+0 place 0 1", "1+2 thread 1 putc(65) = 0", "1+5 thread 1 exit(0) = ?"])
        self.assertEqual(history_of(PUTS_A, "place 0 1", "run 0 2", "tick 7", "runlong 0 1", "run 0 2").lines(),
                         ["0+0 place 0 1", "2+0 tick 7", "3+0 thread 1 putc(65) = 0"])

    def test_joining(self):
        """The gate at which a thread ends is no call, and ends a wait."""
        self.assertEqual(history_of(JOINS, "place 0 1", "run 0 99", "place 0 2", "run 0 9").lines(), [
            "0+0 place 0 1", "1+4 thread 1 create(00001028, 00000042, 00000000, 0) = 0, 2", "1+7 thread 1 join(2) waits join 2",
            "2+0 place 0 2", "3+1 thread 2 putc(66) = 0", "3+3 thread 1 join 2 is over = 0, 00000000"])

    def test_input(self):
        self.assertEqual(history_of(GETS, "place 0 1", "run 0 9", "in 5AfF", "auto 0 2").lines(), [
            "0+0 place 0 1", "1+1 thread 1 getc() waits input", "2+0 input 5aff", "2+0 thread 1 input is over = 90",
            "3+0 place 0 1", "4+1 thread 1 putc(90) = 0"])
        self.assertEqual(history_of(GETS, "place 0 1", "run 0 9", "eof").lines()[2:],
                         ["2+0 eof", "2+0 thread 1 input is over = 4294967295"])

    def test_faults(self):
        self.assertEqual(history_of(b"", "place 0 1", "run 0 9").lines(), ["0+0 place 0 1", "1+0 fault 1 00001000 Illegal"])
        loads = image("00300293 0002a303")
        self.assertEqual(history_of(loads, "place 0 1", "run 0 9").lines()[1:], ["1+1 fault 1 00001004 LoadMisaligned"])

    def test_end_of_a_run(self):
        """A run ends behind 1,024 bytes, and the next event is the next number."""
        lines = history_of(image("00200893 00000073 ffdff06f"), "place 0 1", "run 0 65535", "tick 1", "run 0 1").lines()
        self.assertEqual((len(lines), lines[1024:]), (1026, ["1+2047 thread 1 putc(0) = 0", "2+0 tick 1"]))


class Stretches(WithKeys):
    def test_parts(self):
        history = history_of(JOINS, "place 0 1", "run 0 5", "run 0 99", "tick 1", "place 0 2", "run 0 9")
        for cut in range(7):
            self.assertEqual(history.lines(0, cut) + history.lines(cut), history.lines())
        self.assertEqual(history.lines(3, 4), ["3+0 tick 1"])
        self.assertEqual((history.lines(1, 1), history.lines(6)), ([], []))

    def test_out_of_range(self):
        history = history_of(PUTS_A, "place 0 1", "run 0 1")
        for stretch in ((3, None), (None, 3), (2, 1), (0, 2 ** 64 - 1)):
            with self.assertRaises(OutOfRange):
                history.lines(*stretch)

    def test_behind_a_checkpoint(self):
        """Without a commit before it a wait from before has its end alone, and events from before are gone."""
        history = history_of(GETS, "place 0 1", "run 0 9", "checkpoint", "in 41")
        self.assertEqual(history.lines(), ["2+0 input 41", "2+0 thread 1 input is over = 65"])
        self.assertEqual(history.lines(2), history.lines())
        for stretch in ((1, None), (0, 2)):
            with self.assertRaises(OutOfRange):
                history.lines(*stretch)

    def test_unrecovered(self):
        with self.assertRaises(Unrecovered):
            History(bytearray(5000))

    def test_random(self):
        """Positions rise, and are of the journal's events; nothing comes behind a fault."""
        for seed in range(2, 10):
            try:
                history = History(case_of("histories", seed).disk())
            except Unrecovered:
                continue
            lines = history.lines()
            places = [tuple(map(int, line.split()[0].split("+"))) for line in lines]
            self.assertEqual(places, sorted(places))
            self.assertTrue(all(history.first <= events < history.whole for events, _ in places))
            self.assertFalse([line for line in lines[:-1] if kind_of_line(line) == "fault"])


LED = ["place 0 1", "run 0 9", "commit", "checkpoint", "in 41", "commit"]
LED_LINES = ["0+0 place 0 1", "1+1 thread 1 getc() waits input", "2+0 input 41", "2+0 thread 1 input is over = 65"]


class TwoAreas:
    """A disk whose area 0, with 2 events in its journal, leads to area 1, with one event in its own; and changes of it."""

    def __init__(self, *lines, version=None):
        self.disk = MemoryDisk(format_disk(SMALL, GETS, version))
        serve_disk(self.disk.bytes, "\n".join([*(lines or LED), ""]).encode())

    def put(self, at, data):
        self.disk.write(at, bytes(data))
        return self

    def header(self, area, **fields):
        values = {**vars(header_of(self.disk, SMALL, area)), **fields}
        return self.put(SMALL.area_at(area) + HEADER_AT, Header(**values).encoding())

    def tables(self, area, held=b"", version=2):
        """The same state with other output, or in tables of another version."""
        tables = encode_tables(saved_in(self.disk, SMALL, area).machine, held, version)
        return self.put(SMALL.tables_at(area), tables).header(area, tables_length=len(tables), version=version)

    def flip(self, at):
        return self.put(at, [self.disk.read(at, 1)[0] ^ 1])


class HowFarBack(WithKeys):
    def begins(self, areas, first, lines=None):
        history = History(areas.disk.bytes)
        self.assertEqual((history.first, history.whole, history.lines()), (first, 3, LED_LINES[first:] if lines is None else lines))

    def test_leads(self):
        self.begins(TwoAreas(), 0)
        history = History(TwoAreas().disk.bytes)
        self.assertEqual((history.lines(1, 2), history.lines(3)), (LED_LINES[1:2], []))
        for stretch in ((4, None), (None, 4), (2, 1)):
            with self.assertRaises(OutOfRange):
                history.lines(*stretch)

    def test_begin_of_the_newer_area(self):
        """Nothing before it is there where a checkpoint came in place of a commit, or for some of the events."""
        self.begins(TwoAreas(*LED[:2], *LED[3:]), 2)
        self.begins(TwoAreas(LED[0], "commit", LED[1], *LED[3:]), 2)

    def test_several_checkpoints(self):
        self.begins(TwoAreas(LED[0], "commit", "checkpoint", *LED[1:]), 1)
        self.begins(TwoAreas(*LED, "checkpoint"), 2)
        self.begins(TwoAreas(*LED, "checkpoint", "checkpoint"), 3, [])
        self.begins(TwoAreas(*LED[:4], "checkpoint", *LED[4:]), 2)

    def test_versions(self):
        """Tables of either version say the same of a program whose keys are off."""
        self.begins(TwoAreas(version=1), 0)
        self.begins(TwoAreas(version=1).tables(1, version=1).tables(0, version=2), 0)
        self.begins(TwoAreas().tables(1, version=1), 2)

    def test_generations(self):
        for older, newer, first in ((0, 1, 2), (1, 2, 0), (1, 3, 2), (6, 7, 0), (2 ** 64 - 2, 2 ** 64 - 1, 0)):
            self.begins(TwoAreas().header(0, generation=older).header(1, generation=newer), first)
        with self.assertRaises(Unrecovered):
            History(TwoAreas().header(0, generation=2).disk.bytes)
        history = History(TwoAreas().header(0, generation=3).disk.bytes)
        self.assertEqual((history.first, history.lines()), (0, LED_LINES[:2]))

    def test_counts(self):
        self.begins(TwoAreas().header(0, events=1), 2)
        areas = TwoAreas().header(0, events=5).header(1, events=7)
        self.assertEqual(History(areas.disk.bytes).lines()[::3], ["5+0 place 0 1", "7+0 thread 1 input is over = 65"])

    def test_output(self):
        """It isn't compared; but what the older tables hold has to end below 2^62, as for a recovery."""
        for area in (0, 1):
            self.begins(TwoAreas().tables(area, b"output"), 0)
            self.begins(TwoAreas().header(area, offset=7), 0)
        for offset, held, first in ((2 ** 62 - 1, b"", 0), (2 ** 62, b"", 2), (2 ** 62 - 2, b"x", 0), (2 ** 62 - 1, b"x", 2)):
            self.begins(TwoAreas().tables(0, held).header(0, offset=offset), first)

    def test_changed_bytes(self):
        """Another byte of the older area, or of its journal, is no fault; those that nobody reads change nothing."""
        area, tables, journal = SMALL.area_at(0), SMALL.tables_at(0), SMALL.journal_at(0)
        for at in (area, area + 8, area + 16, area + 32, area + 36, tables, tables + 175, SMALL.page_at(0, 1), SMALL.page_at(0, 16) - 1,
                   journal, journal + 1, journal + 3, journal + 5):
            self.begins(TwoAreas().flip(at), 2)
        for at in (area + 1, area + 40, tables + 176, SMALL.page_at(0, 0), SMALL.page_at(0, 1) - 1, journal + 3 + 3 + 4, journal + 12):
            self.begins(TwoAreas().flip(at), 0)
        for at in (SMALL.tables_at(1), SMALL.page_at(1, 1) + 900, SMALL.page_at(1, 16) - 1):
            self.begins(TwoAreas().flip(at), 2)

    def test_gate(self):
        self.begins(TwoAreas().put(SMALL.area_at(0), [0]), 2)

    def test_journals(self):
        """The same events in other batches lead to the same; fewer, more, others, and a chain that isn't whole don't."""
        place, run, more = (event.encoding() for event in (Place(0, 1), Run(0, 9), Tick(1)))
        for batches, first in (([place + run], 0), ([place, run], 0), ([place], 2), ([], 2), ([place + run, more], 2), ([run + place], 2),
                               ([place, Run(0, 8).encoding()], 0), ([place, Run(0, 1).encoding()], 2), ([place + run[:-1]], 2)):
            chain = b"".join(batch(events, b"") for events in batches) + b"\0"
            self.begins(TwoAreas().put(SMALL.journal_at(0), chain), first)
        self.begins(TwoAreas().put(SMALL.journal_at(0), batch(place + run, b"\xa5\0\0")), 2)

    def test_refused_event(self):
        """The count and the state would fit, but the last event of the older journal comes behind the end."""
        disk = format_disk(SMALL, PUTS_A)
        serve_disk(disk, b"place 0 1\nrun 0 6\ncommit\ncheckpoint\n")
        self.assertEqual(History(disk).first, 0)
        areas = TwoAreas()
        areas.disk = MemoryDisk(disk)
        events = Place(0, 1).encoding() + Run(0, 6).encoding() + Run(0, 1).encoding()
        areas.header(1, events=3).put(SMALL.journal_at(0), batch(events))
        self.assertEqual((History(disk).first, History(disk).lines()), (3, []))

    def test_refused_in_use(self):
        """The lines of the calls before it may come before the fault; of a disk that is damaged otherwise none are known."""
        events = Input(b"A").encoding() + Place(7, 1).encoding() + Tick(1).encoding()
        areas = TwoAreas().put(SMALL.journal_at(1), batch(events))
        lines = ["0+0 place 0 1", "1+1 thread 1 getc() waits input", "2+0 input 41", "2+0 thread 1 input is over = 65"]
        for first, told in ((None, lines), (0, lines), (1, lines[1:]), (2, lines[2:]), (3, []), (9, [])):
            self.assertEqual(lines_before_refused(areas.disk.bytes, first), told)
        behind = deepcopy(areas).flip(SMALL.page_at(0, 1))
        for first, told in ((None, lines[2:]), (2, lines[2:]), (3, [])):
            self.assertEqual(lines_before_refused(behind.disk.bytes, first), told)
        self.assertEqual(lines_before_refused(areas.put(SMALL.journal_at(1), batch(events, b"\xa5\0\0")).disk.bytes), [])

    def test_told_before_a_fault(self):
        """Whole lines, from the first one on, and the fault."""
        disk = TwoAreas().put(SMALL.journal_at(1), batch(Input(b"A").encoding() + Place(7, 1).encoding())).disk.bytes
        fault = Life(1, b"", b"ckrt: Damaged\n")
        told = [line.encode() + b"\n" for line in lines_before_refused(disk)]
        for count in range(len(told) + 1):
            shown = Life(1, b"".join(told[:count]), b"ckrt: Damaged\n")
            self.assertEqual(with_told_before(fault, shown, disk, None), shown)
        for shown in [Life(1, b"".join(told[1:]), fault.errors), Life(1, told[0][:-1], fault.errors), Life(1, b"".join([*told, told[0]]), fault.errors),
                      Life(0, told[0], fault.errors), Life(1, told[0], b"ckrt: Refused\n")]:
            self.assertNotEqual(with_told_before(fault, shown, disk, None), shown)
        self.assertEqual([kind_of_calls(life) for life in (fault, Life(1, told[0], fault.errors), Life(0, b"x", b""))],
                         ["Damaged", "Damaged behind lines", "shown"])

    def test_half_overwritten(self):
        """A stop at each call of a further checkpoint. Only while its gate is written may the older area still be open, and whole."""
        for call in range(1, 24):
            for fill in (b"\0", b"\xa5"):
                stopping = StoppingDisk(TwoAreas().disk.bytes, 1 + call, filled(fill))
                self.assertEqual(Session(stopping).checkpoint(), "no 25 Device")
                areas = TwoAreas()
                areas.disk = MemoryDisk(stopping.bytes)
                self.begins(areas, 0 if call <= 2 and fill == b"\xa5" else 2)

    def test_half_copied(self):
        """An area with an open gate whose tables, or some of whose pages, are those of another state."""
        for at, data in ((SMALL.tables_at(0), TwoAreas().disk.read(SMALL.tables_at(1), 176)), (SMALL.page_at(0, 9), b"\1" * 4096)):
            self.begins(TwoAreas().put(at, data), 2)


class Waits(WithKeys):
    def test_mutex(self):
        self.tells([(1, Call.MUTEX_LOCK, MUTEX), (2, Call.MUTEX_LOCK, MUTEX), (3, Call.MUTEX_TIMEDLOCK, MUTEX, 9, 1),
                    (1, Call.MUTEX_TRYLOCK, MUTEX), (1, Call.MUTEX_UNLOCK, MUTEX), (2, Call.MUTEX_UNLOCK, MUTEX)],
                   "thread 1 mutex_lock(00002000) = 0", "thread 2 mutex_lock(00002000) waits mutex 00002000",
                   "thread 3 mutex_timedlock(00002000, 4294967305) waits mutex 00002000 until 4294967305",
                   "thread 1 mutex_trylock(00002000) = 16", "thread 1 mutex_unlock(00002000) = 0",
                   "thread 2 mutex 00002000 is over = 0", "thread 2 mutex_unlock(00002000) = 0",
                   "thread 3 mutex 00002000 is over = 0")

    def test_condition(self):
        """A signalled thread that doesn't get its mutex at once waits again."""
        waits = [(2, Call.MUTEX_LOCK, MUTEX), (2, Call.COND_WAIT, CONDITION, MUTEX)]
        begin = ["thread 2 mutex_lock(00002000) = 0", "thread 2 cond_wait(00003000, 00002000) waits cond 00003000 00002000"]
        self.tells([*waits, (1, Call.COND_SIGNAL, CONDITION)], *begin,
                   "thread 1 cond_signal(00003000) = 0", "thread 2 cond 00003000 00002000 is over = 0")
        self.tells([*waits, (1, Call.MUTEX_LOCK, MUTEX), (1, Call.COND_BROADCAST, CONDITION), (1, Call.MUTEX_UNLOCK, MUTEX)],
                   *begin, "thread 1 mutex_lock(00002000) = 0", "thread 1 cond_broadcast(00003000) = 0",
                   "thread 2 cond 00003000 00002000 is over waits retake 00002000 0", "thread 1 mutex_unlock(00002000) = 0",
                   "thread 2 retake 00002000 0 is over = 0")

    def test_deadlines(self):
        """What is due is told in the order in which it began, whichever ends first."""
        self.tells([(3, Call.SLEEP_UNTIL, 5, 0), (1, Call.SLEEP_UNTIL, 7, 0), (2, Call.MUTEX_LOCK, MUTEX),
                    (2, Call.COND_TIMEDWAIT, CONDITION, MUTEX, 5, 0), Tick(9)],
                   "thread 3 sleep_until(5) waits sleep until 5", "thread 1 sleep_until(7) waits sleep until 7",
                   "thread 2 mutex_lock(00002000) = 0",
                   "thread 2 cond_timedwait(00003000, 00002000, 5) waits cond 00003000 00002000 until 5", "tick 9",
                   "thread 3 sleep is over = 0", "thread 1 sleep is over = 0", "thread 2 cond 00003000 00002000 is over = 110")

    def test_moment_that_has_come(self):
        self.tells([Tick(5), (2, Call.MUTEX_LOCK, MUTEX), (3, Call.MUTEX_LOCK, MUTEX),
                    (2, Call.COND_TIMEDWAIT, CONDITION, MUTEX, 5, 0), (1, Call.CLOCK)],
                   "tick 5", "thread 2 mutex_lock(00002000) = 0", "thread 3 mutex_lock(00002000) waits mutex 00002000",
                   "thread 2 cond_timedwait(00003000, 00002000, 5) waits retake 00002000 110",
                   "thread 3 mutex 00002000 is over = 0", "thread 1 clock() = 5")

    def test_barrier(self):
        self.tells([(1, Call.BARRIER_INIT, BARRIER, 3), (3, Call.BARRIER_WAIT, BARRIER), (1, Call.BARRIER_WAIT, BARRIER),
                    (2, Call.BARRIER_WAIT, BARRIER)],
                   "thread 1 barrier_init(00004000, 3) = 0", "thread 3 barrier_wait(00004000) waits barrier 00004000",
                   "thread 1 barrier_wait(00004000) waits barrier 00004000", "thread 2 barrier_wait(00004000) = 4294967295",
                   "thread 3 barrier 00004000 is over = 0", "thread 1 barrier 00004000 is over = 0")

    def test_lock(self):
        self.tells([(1, Call.RWLOCK_WRLOCK, LOCK), (2, Call.RWLOCK_RDLOCK, LOCK), (3, Call.RWLOCK_WRLOCK, LOCK),
                    (1, Call.RWLOCK_UNLOCK, LOCK), (2, Call.RWLOCK_UNLOCK, LOCK)],
                   "thread 1 rwlock_wrlock(00005000) = 0", "thread 2 rwlock_rdlock(00005000) waits read 00005000",
                   "thread 3 rwlock_wrlock(00005000) waits write 00005000", "thread 1 rwlock_unlock(00005000) = 0",
                   "thread 2 read 00005000 is over = 0", "thread 2 rwlock_unlock(00005000) = 0",
                   "thread 3 write 00005000 is over = 0")

    def test_readers_of_input(self):
        self.tells([(2, Call.GETC), (3, Call.GETC), Input(b"\x41"), Eof()],
                   "thread 2 getc() waits input", "thread 3 getc() waits input", "input 41", "thread 2 input is over = 65", "eof",
                   "thread 3 input is over = 4294967295")


class Ends(WithKeys):
    def test_exit_of_a_thread(self):
        self.tells([(1, Call.JOIN, 2), (2, Call.THREAD_EXIT, 0xABC), (3, Call.THREAD_EXIT, 1), (1, Call.JOIN, 3)],
                   "thread 1 join(2) waits join 2", "thread 2 thread_exit(00000abc) = ?",
                   "thread 1 join 2 is over = 0, 00000abc", "thread 3 thread_exit(00000001) = ?",
                   "thread 1 join(3) = 0, 00000001")

    def test_cancelled_waits(self):
        """A thread without a handler ends, one with a handler goes there, and one without its mutex waits for that."""
        self.tells([(2, Call.JOIN, 3), (3, Call.GETC), (1, Call.CANCEL, 3)],
                   "thread 2 join(3) waits join 3", "thread 3 getc() waits input", "thread 1 cancel(3) = 0",
                   "thread 2 join 3 is over = 0, ffffffff", "thread 3 input is over = ?")
        pushed = (2, Call.CLEANUP_PUSH, HANDLER, 9)
        self.tells([pushed, (2, Call.MUTEX_LOCK, MUTEX), (2, Call.COND_WAIT, CONDITION, MUTEX), (1, Call.MUTEX_LOCK, MUTEX),
                    (1, Call.CANCEL, 2), (1, Call.MUTEX_UNLOCK, MUTEX)],
                   f"thread 2 cleanup_push({HANDLER:08x}, 00000009) = 0", "thread 2 mutex_lock(00002000) = 0",
                   "thread 2 cond_wait(00003000, 00002000) waits cond 00003000 00002000", "thread 1 mutex_lock(00002000) = 0",
                   "thread 1 cancel(2) = 0", "thread 2 cond 00003000 00002000 is over waits retake 00002000 unwind",
                   "thread 1 mutex_unlock(00002000) = 0", "thread 2 retake 00002000 unwind is over = ?")

    def test_requests(self):
        """At a point the call is told, though it isn't made; an asynchronous thread makes none."""
        self.tells([(1, Call.CANCEL, 2), (2, Call.PUTC, 65), (3, Call.SETCANCELTYPE, 1), (1, Call.CANCEL, 3), (3, Call.SELF)],
                   "thread 1 cancel(2) = 0", "thread 2 putc(65) = ?", "thread 3 setcanceltype(1) = 0, 0",
                   "thread 1 cancel(3) = 0")
        self.tells([(3, Call.SETCANCELSTATE, 1), (3, Call.SETCANCELTYPE, 1), (1, Call.CANCEL, 3), (3, Call.SELF)],
                   "thread 3 setcancelstate(1) = 0, 0", "thread 3 setcanceltype(1) = 0, 0", "thread 1 cancel(3) = 0",
                   "thread 3 self() = 3")

    def test_asynchronous_before_a_call(self):
        words = image("00100513 03f00893 00000073 00e00893 00100513 03c00893 00000073 00000073")
        self.assertEqual(history_of(words, "place 0 1", "run 0 99").lines(), [
            "0+0 place 0 1", "1+2 thread 1 setcanceltype(1) = 0, 0", "1+6 thread 1 cancel(1) = 0"])

    def test_popped_handler(self):
        self.tells([(2, Call.CLEANUP_PUSH, HANDLER, 9), (2, Call.CLEANUP_POP, 0), (2, Call.CLEANUP_PUSH, HANDLER, 9),
                    (2, Call.CLEANUP_POP, 1), (1, Call.CLEANUP_POP, 1)],
                   f"thread 2 cleanup_push({HANDLER:08x}, 00000009) = 0", "thread 2 cleanup_pop(0) = 0",
                   f"thread 2 cleanup_push({HANDLER:08x}, 00000009) = 0", "thread 2 cleanup_pop(1) = ?",
                   "thread 1 cleanup_pop(1) = 22")

    def test_last_thread(self):
        self.tells([(2, Call.THREAD_EXIT, 5), (3, Call.THREAD_EXIT, 5), (1, Call.THREAD_EXIT, 5)],
                   *[f"thread {number} thread_exit(00000005) = ?" for number in (2, 3, 1)])


class Answers(WithKeys):
    def test_second_answers(self):
        self.tells([(1, Call.SETCANCELSTATE, 1), (1, Call.SETCANCELSTATE, 2), (1, Call.KEY_CREATE, TOP),
                    (1, Call.SETSPECIFIC, 0, 77), (1, Call.GETSPECIFIC, 0), (1, Call.GETSPECIFIC, 1), (1, Call.SELF),
                    (1, Call.CREATE, RETURN_GATE, 1, 2, 1), (1, Call.CREATE, 2, 1, 2, 1), Tick(0xFFFFFFFF), Tick(3), (1, Call.CLOCK)],
                   "thread 1 setcancelstate(1) = 0, 0", "thread 1 setcancelstate(2) = 22",
                   f"thread 1 key_create({TOP:08x}) = 0, 0", "thread 1 setspecific(0, 0000004d) = 0",
                   "thread 1 getspecific(0) = 0, 0000004d", "thread 1 getspecific(1) = 22", "thread 1 self() = 1",
                   "thread 1 create(fffffff0, 00000001, 00000002, 1) = 0, 4", "thread 1 create(00000002, 00000001, 00000002, 1) = 22",
                   "tick 4294967295", "tick 3", "thread 1 clock() = 4294967298")

    def test_no_such_call(self):
        self.tells([(1, 9, 1, 2)], "thread 1 call 9 = 38")

    def test_keys_off(self):
        """The calls have their names, as the program made them."""
        self.assertEqual(told((1, Call.KEY_CREATE, TOP), (1, Call.GETSPECIFIC, 1), version=1),
                         [f"thread 1 key_create({TOP:08x}) = 38", "thread 1 getspecific(1) = 38"])

    def test_each_call(self):
        """Each has its form, of as many arguments as it takes."""
        self.assertEqual({call: len(form) + form.count("m") for call, form in FORMS.items()},
                         {Call(number): row.arguments for number, row in CALLS.items()})
        self.assertTrue(set(KEY_CALLS) <= set(FORMS) and set(SECOND_ANSWERS) <= set(FORMS))
