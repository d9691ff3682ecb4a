"""Texts behind `monitor` with mistakes of all kinds."""
import re

from cases.streams import malformed_line
from model.mistyped import ALONE, NAMES, answer_to
from model.stubs import monitor

RIGHT = [*[name.encode() for name in ALONE], b"goto 1+2", b"goto 7", b"until 3+1", b"until 0", b"limit 70", b"live 5", b"event tick 1", b"help"]
ODD_BYTES = b"  \t\r\n\x00+-0x,.AEe\x80\xff"
ODD_NAMES = [b"", b" ", b"go", b"gotos", b"Goto", b"EVENTS", b"step", b"quit", b"?", b"h", b"  events", b" goto", b"\tfork", b"monitor events",
             b"event\ttick 1", b"\xc3\xa9vents", b"events\xff", b"\xc0\xafgoto", b"\xed\xa0\x80", b"\xf4\x90\x80\x80", b"tick 1", b"commit"]
BEHIND = [b"", b" ", b"  ", b"\t", b"\n", b"\x00", b" 5 ", b"  5", b" 5 6", b" x", b" x5", b" 5x", b" -1", b" +5", b" +", b" 5+", b" 5++6", b" 5+6+7",
          b" 5+ 6", b" 5 +6", b" 5 + 6", b" 5+-6", b" 5++", b" 0x5", b" 5.0", b" 5,6", b" 1_000", b" \xd9\xa3", b" \xc2\xb2", b" \xff", b" 5\xff", b"\t5",
          b" \t5", b" 5\n", b" 5\r", b" 5\x00", b" 18446744073709551616", b" 18446744073709551616+1", b" 5+4294967296", b" 0+99999999999999999999999",
          b" 00018446744073709551616", b" 4294967296", b" 99999999999999999999999", b" 0", b" 000", b" 0+0+0", b" 4294967297", b" all", b"5", b"+5",
          b" 5" + b" " * 200, b" " * 252, b" " + b"9" * 251, b" " + b"0" * 253]


def mangled(chance):
    """A right text with a byte or two changed, added or dropped."""
    text = bytearray(chance.choice(RIGHT))
    for _ in range(chance.choice([1, 1, 2])):
        at, byte = chance.randrange(len(text) + 1), bytes([chance.choice(ODD_BYTES)])
        text[at:at + chance.choice([0, 1])] = chance.choice([byte, byte, b""])
    return bytes(text)


def drawn_text(chance):
    name = chance.choice([*[name.encode() for name in NAMES] * 4, *ODD_NAMES])
    return chance.choice([name + chance.choice(BEHIND), name + chance.choice(BEHIND), mangled(chance), chance.choice([name, b"", b"help"]),
                          b"event " + malformed_line(chance)[:300]])


def drawn_mistake(chance, is_event=True):
    """The packet and its answer. An event's line is none where the run may not be replayed."""
    while True:
        text = drawn_text(chance)
        answer = answer_to(text)
        if answer and (is_event or text.partition(b" ")[0] != b"event"):
            return monitor(text), answer


def spelled(chance, text):
    """With zeros before some of its numbers, which changes none."""
    return re.sub("[0-9]+", lambda digits: "0" * chance.choice([0, 0, 0, 0, 1, 25]) + digits[0], text)
