"""The lines of cycles of locks behind those of races."""
from model.beneath import BLANKS, lines_of_callers, lines_told, position_text
from model.listing import address_text
from model.races import times

NOT_BEFORE = "events before these were not looked at, and another schedule may have one"
USED_UP = "the room for orders of locks was used up, later ones were not looked at"


def lock_text(lock):
    address = address_text(lock.address)
    return f"mutex {address}" if lock.how == "mutex" else f"rwlock {address} to {lock.how}"


def taking_text(taking):
    call, caller = taking.place
    return f"{lock_text(taking.lock)} pc {address_text(call)} from {address_text(caller)}"


def begin_of(order):
    return f"{position_text(order.taking.position)} thread {order.thread}"


def cycle_text(cycle):
    orders = ", ".join(f"{begin_of(order)} takes {taking_text(order.taking)}" for order in cycle.orders)
    return f"{orders}, a cycle of {len(cycle.orders)}"


def lines_beneath(cycle):
    """What each thread held of which the one before it in the cycle took, and its callers as it got the other."""
    lines = []
    for order, held in zip(cycle.orders, cycle.awaited):
        lines += [f"{BLANKS}{begin_of(order)} took {taking_text(held)} at {position_text(held.position)}",
                  *lines_of_callers(order.taking.position, order.thread, order.taking.callers)]
    return lines


def lines_of_cycles(known, stretch):
    lines = [line for cycle in known.cycles.values() for line in (f"{cycle_text(cycle)}, {times(cycle.count)}", *lines_beneath(cycle))]
    lines += [f"and {times(known.others)} elsewhere in a cycle"] if known.others else []
    first, last = stretch
    none = f"no cycle of locks in events {first} to {last} of this schedule; {NOT_BEFORE if first else 'another one may have one'}"
    return (lines or [none]) + ([USED_UP] if known.is_used_up else [])


def all_told(recording, readings, stretch=(None, None), rows=()):
    """By the narrow reading of blocks, and by the wide one."""
    cycles = lines_of_cycles(readings.locks.known, readings.narrow.stretch)
    return tuple(lines + cycles for lines in lines_told(recording, readings, stretch, rows))
