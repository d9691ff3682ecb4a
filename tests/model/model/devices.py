"""Disks as the model writes them: one that never fails, one that stops at a given call, and one that fails it alone.

A byte that was written is pending until a sync answers. A stop may leave any bytes in the pending ranges, those of the
write at which it comes among them.
"""


class DeviceFault(Exception):
    """The disk failed this call."""


class MemoryDisk:
    """Works on the bytes that it is handed; `calls` counts writes and syncs."""

    def __init__(self, contents):
        self.bytes, self.calls = contents, 0

    def __len__(self):
        return len(self.bytes)

    def read(self, at, length):
        return bytes(self.bytes[at:at + length])

    def write(self, at, data):
        self.calls += 1
        self.bytes[at:at + len(data)] = data

    def sync(self):
        self.calls += 1


def filled(fill):
    """What a stop leaves: the bytes of `fill` over and over, by rising offset; an empty one leaves what was written."""
    return lambda offsets, old, new: (fill * len(offsets))[:len(offsets)] if fill else new


class StoppingDisk(MemoryDisk):
    """At the call of that number, and at all later ones, it fails. `leave` tells what the stop makes of the pending bytes,
    from their offsets, the bytes there at the last sync, and those written since."""

    def __init__(self, contents, at_call, leave=filled(b"")):
        super().__init__(bytearray(contents))
        self.at_call, self.leave = at_call, leave
        self.synced, self.pending = bytes(contents), []

    @property
    def has_stopped(self):
        return self.at_call != 0 and self.calls >= self.at_call

    def require_running(self):
        if self.has_stopped:
            raise DeviceFault

    def stop_if_due(self):
        """Lays over the pending bytes what the stop leaves of them."""
        if not self.has_stopped:
            return
        offsets = sorted(set().union(*self.pending))
        old, new = (bytes(content[at] for at in offsets) for content in (self.synced, self.bytes))
        for at, byte in zip(offsets, self.leave(offsets, old, new)):
            self.bytes[at] = byte
        raise DeviceFault

    def read(self, at, length):
        self.require_running()
        return super().read(at, length)

    def write(self, at, data):
        self.require_running()
        super().write(at, data)
        self.pending.append(range(at, at + len(data)))
        self.stop_if_due()

    def sync(self):
        self.require_running()
        super().sync()
        self.stop_if_due()
        self.synced, self.pending = bytes(self.bytes), []


class FailingDisk(MemoryDisk):
    """Fails the write or sync of that number, a write behind so many of its bytes and never its last; all others work."""

    def __init__(self, contents, at_call, kept=0):
        super().__init__(contents)
        self.at_call, self.kept = at_call, kept

    def write(self, at, data):
        is_failing = self.calls + 1 == self.at_call
        super().write(at, data[:min(self.kept, len(data) - 1)] if is_failing else data)
        if is_failing:
            raise DeviceFault

    def sync(self):
        super().sync()
        if self.calls == self.at_call:
            raise DeviceFault
