"""Calls on thread-specific keys; to import this module enters them into the table."""
from model.abi import Call, Error
from model.calls import guest_call
from model.threads import KEYS


@guest_call(Call.KEY_CREATE, arguments=1)
def key_create(state, caller, destructor):
    """The least free key; no thread has a value of it. A destructor of 0 is none."""
    if destructor % 4:
        return Error.EINVAL
    key = next((number for number in KEYS if number not in state.keys), None)
    if key is None:
        return Error.EAGAIN
    state.keys[key] = destructor
    state.threads[caller].registers[11] = key
    return 0


@guest_call(Call.KEY_DELETE, arguments=1)
def key_delete(state, caller, key):
    """The key and all its values are gone; no destructor runs."""
    if key not in state.keys:
        return Error.EINVAL
    del state.keys[key]
    for thread in state.threads.values():
        thread.values.pop(key, None)
    return 0


@guest_call(Call.SETSPECIFIC, arguments=2)
def setspecific(state, caller, key, value):
    if key not in state.keys:
        return Error.EINVAL
    state.threads[caller].set_value(key, value)
    return 0


@guest_call(Call.GETSPECIFIC, arguments=1)
def getspecific(state, caller, key):
    if key not in state.keys:
        return Error.EINVAL
    thread = state.threads[caller]
    thread.registers[11] = thread.values.get(key, 0)
    return 0
