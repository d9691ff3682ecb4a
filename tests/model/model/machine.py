"""The machine: which events it refuses, and what the others do."""
from enum import IntEnum

from model import key_calls  # noqa: F401 (enters its calls into the table)
from model import object_calls  # noqa: F401
from model.abi import ALL_ONES, MOMENTS, RETURN_GATE, UNWIND_GATE, Error
from model.calls import perform
from model.events import Eof, Input, Place, Run, Tick
from model.objects import retake_mutex
from model.processor import Cause, Fault, Memory, execute
from model.threads import State, Status, WaitKind

INPUT_QUEUE = 4096
OUTPUT_OF_RUN = 1024
OUTPUT_HELD = 16384
SAVED = ["threads", "harts", "waits", "mutexes", "barriers", "locks", "keys", "has_keys", "clock", "input",
         "is_input_closed", "status", "status_word", "fault_thread", "fault_cause"]


class Refusal(IntEnum):
    """Why an event isn't taken; a refused event changes nothing. Tested in this order."""
    Ended = 1
    NoSuchHart = 2
    NoSuchThread = 3
    NotReady = 4
    HartIdle = 5
    InputClosed = 6
    InputFull = 7
    ClockEnd = 8
    OutputFull = 9


class Machine(State):
    def __init__(self, pages, harts, contents, tally=None):
        super().__init__(tally)
        self.add_initial_thread(pages)
        self.hart_count = harts
        self.memory = Memory(pages, contents)

    def resume(self, state):
        """Goes on from a saved state, with the memory as it is."""
        for name in SAVED:
            setattr(self, name, getattr(state, name))

    @property
    def is_running(self):
        return self.status is Status.RUNNING

    def refusal_of(self, event, held):
        """`held` counts the bytes of output that are not yet confirmed."""
        if not self.is_running:
            return Refusal.Ended
        match event:
            case Place(hart, thread):
                return self.refusal_of_place(hart, thread)
            case Run(hart):
                return self.refusal_of_run(hart, held)
            case Input(data):
                if self.is_input_closed:
                    return Refusal.InputClosed
                return Refusal.InputFull if len(self.input) + len(data) > INPUT_QUEUE else None
            case Eof():
                return Refusal.InputClosed if self.is_input_closed else None
            case Tick(count):
                return Refusal.ClockEnd if self.clock + count >= MOMENTS else None

    def refusal_of_place(self, hart, thread):
        if hart >= self.hart_count:
            return Refusal.NoSuchHart
        if thread not in self.threads:
            return Refusal.NoSuchThread
        return Refusal.NotReady if not self.is_ready(thread) or thread in self.harts else None

    def refusal_of_run(self, hart, held):
        if hart >= self.hart_count:
            return Refusal.NoSuchHart
        if self.harts[hart] == 0:
            return Refusal.HartIdle
        return Refusal.OutputFull if held + OUTPUT_OF_RUN > OUTPUT_HELD else None

    def step(self, event):
        """Takes an event; answers its reply and the bytes that it put."""
        self.begin_step()
        match event:
            case Place(hart, thread):
                self.harts[hart] = thread
                return "placed", b""
            case Run(hart, steps):
                return self.run(hart, steps)
            case Input(data):
                self.feed(data)
                return f"taken {len(data)}", b""
            case Eof():
                self.close_input()
                return "closed", b""
            case Tick(count):
                return f"ticked {self.tick(count)}", b""

    def run(self, hart, steps):
        """Ends early where the program ends, the thread leaves its hart, or the last byte that a run may put is put."""
        thread_id, put = self.harts[hart], bytearray()
        for done in range(1, steps + 1):
            self.begin_step()
            self.step_thread(thread_id)
            if self.byte_put is not None:
                put.append(self.byte_put)
            if not self.is_running:
                return f"ran {done} end", put
            if self.harts[hart] != thread_id:
                return f"ran {done} off", put
            if len(put) == OUTPUT_OF_RUN:
                break
        return f"ran {done} on", put

    def step_thread(self, thread_id):
        """An asynchronous request comes before the gates, and these before the word at the pc."""
        thread = self.threads[thread_id]
        try:
            if thread.is_request_pending and thread.is_asynchronous and not thread.is_disabled:
                self.act_on_request(thread_id)
            elif thread.pc == RETURN_GATE:
                self.return_from_start(thread_id)
            elif thread.pc == UNWIND_GATE:
                if not thread.is_unwinding:
                    raise Fault(Cause.GATE)
                self.next_handler(thread_id)
            elif execute(thread, self.memory):
                perform(self, thread_id)
        except Fault as fault:
            self.fault(thread_id, fault.cause)
            self.tally["fault", fault.cause.name] += 1

    def return_from_start(self, thread_id):
        """The initial thread ends the process; another one ends with what its routine returned."""
        thread = self.threads[thread_id]
        if thread.is_initial:
            self.end_process(thread.registers[10])
        else:
            self.begin_unwinding(thread_id, thread.registers[10])

    def waits_for_input(self):
        return [wait for wait in self.waits if wait.kind is WaitKind.INPUT]

    def feed(self, data):
        """The longest waiting reader gets the first byte, and so on."""
        self.input.extend(data)
        for wait in self.waits_for_input()[:len(self.input)]:
            self.end_wait(wait, "granted")
            self.set_result(wait.thread, self.input.pop(0))

    def close_input(self):
        self.is_input_closed = True
        for wait in self.waits_for_input():
            self.end_wait(wait, "closed")
            self.set_result(wait.thread, ALL_ONES)

    def tick(self, count):
        """Ends every wait whose deadline has come, in order of deadline, then id; answers how many."""
        self.clock += count
        due = [wait for wait in self.waits if wait.deadline is not None and wait.deadline <= self.clock]
        for wait in sorted(due, key=lambda wait: (wait.deadline, wait.thread)):
            self.end_wait(wait, "timed out")
            if wait.kind is WaitKind.SLEEP:
                self.set_result(wait.thread, 0)
            elif wait.kind is WaitKind.LOCK:
                self.set_result(wait.thread, int(Error.ETIMEDOUT))
            else:
                retake_mutex(self, wait.mutex, wait.thread, int(Error.ETIMEDOUT))
        return len(due)

    def planned(self, hart):
        """The next thread for a hart: the least ready id on no hart above the present one, else the least at all."""
        if not self.is_running or hart >= self.hart_count:
            return None
        ready = [number for number in sorted(self.threads) if self.is_ready(number) and number not in self.harts]
        above = [number for number in ready if number > self.harts[hart]]
        return next(iter(above or ready), None)
