"""What gdb's user mistypes behind `monitor`: which line tells what is wrong."""
import re

from model.stories import event_of
from model.stubs import monitor

NO_POSITION = "no position: it is K or K+S in decimal, as in monitor goto 767+2"
NO_NUMBER = "no number from 1 to 4294967295, as in monitor limit 1000000"
SUPERFLUOUS = "nothing goes behind this command"
NO_COMMAND = "no such command"
LIST = "<what monitor help tells>\n"  # stands for that, which is the program's text
HELP = monitor("help")
LONGEST = 256  # bytes of a text
ALONE, COUNTED, PLACED = ["events", "inspect", "fork", "help"], ["limit", "live"], ["goto", "until"]
NAMES = [*ALONE, *COUNTED, *PLACED, "event"]


def is_decimal(text, least, greatest):
    """Digits of ASCII, perhaps behind a plus; a decimal number is the same with zeros before it."""
    return re.fullmatch(r"\+?[0-9]+", text) is not None and least <= int(text) <= greatest


def is_position(text):
    event, plus, step = text.partition("+")
    return is_decimal(event, 0, 2 ** 64 - 1) and (not plus or is_decimal(step, 0, 2 ** 32 - 1))


def line_of_mistake(text):
    """None where nothing is wrong, but perhaps with an event's line. The name goes up to the first space."""
    try:
        name, space, behind = text.decode().partition(" ")
    except UnicodeDecodeError:
        return NO_COMMAND
    if name in PLACED:
        return None if is_position(behind) else NO_POSITION
    if name in COUNTED:
        return None if is_decimal(behind, 1, 2 ** 32 - 1) else NO_NUMBER
    if name in ALONE:
        return SUPERFLUOUS if space else None
    return None if name == "event" or not text else NO_COMMAND


def answer_to(text):
    """What is told where nothing comes of a text, and the payload; None of one that does something, or tells of the history."""
    if len(text) > LONGEST:
        return "", "E01"
    line = line_of_mistake(text)
    if line:
        return f"{line}\n{LIST}", "OK"
    if text in (b"", b"help"):
        return LIST, "OK"
    name, _, behind = text.decode().partition(" ")
    fault = event_of(behind)[1] if name == "event" else None
    return (fault + "\n", "OK") if fault else None


def is_list(text):
    """Whether it names each command, as the page says of it; in which words is the program's, and whether `help` itself is among them."""
    return text.endswith("\n") and {*NAMES} - {"help"} <= {*re.findall("[a-z]+", text)}


def list_of(packets, got):
    """What `monitor help` tells in a session; else what no session tells."""
    told = [there[0] for packet, there in zip(packets, got) if packet == HELP]
    return told[0] if told and is_list(told[0]) else LIST


def with_list(answer, told):
    """An expected answer, with the list of a session."""
    return answer if answer[0] is None else (answer[0].replace(LIST, told), answer[1])


def with_lists(packets, expected, got):
    """Expected answers with the list that this session tells."""
    told = list_of(packets, got)
    return [with_list(answer, told) for answer in expected]


def kinds_of_mistakes(expected):
    """The lines that tell what is wrong, for a table."""
    return [("mistyped", told.partition("\n")[0]) for told, _ in expected if told and told.endswith("\n" + LIST)]


def text_of_packet(packet):
    """For a report."""
    return repr(bytes.fromhex(packet[6:]))[1:] if packet.startswith("qRcmd,") else packet
