"""How to go from an address of a guest's code to its caller: the call frame information of a linked program (DWARF 5, 6.4).

`ways` is all of it as stretches of addresses, which a file of names has in its rows `up` (docs/NAMES.md).
"""
import re

PAGE = 4_096  # the first one has no memory, and the image begins behind it
RETURN, STACK, FRAME = 1, 2, 8  # registers: the return address, the stack's end, and the one that gcc lets stand for a frame
IN_PLACE, LOST = "in its register", "lost"  # what isn't saved at an offset from the canonical frame address
MOST_OFFSET = 0x7FFFFFFF

HEAD = re.compile(r"^([0-9a-f]{8}) [0-9a-f]+ [0-9a-f]+ (?:(CIE)|FDE cie=([0-9a-f]+) pc=([0-9a-f]+)\.\.([0-9a-f]+))")
COLUMN = re.compile(r"^  Return address column: (\d+)$")
INSTRUCTION = re.compile(r"^  DW_CFA_(\w+)(?:[: ]+(.*))?$")
SAVES = ("offset", "offset_extended", "offset_extended_sf")
RESTORES = ("restore", "restore_extended")
LOSES = ("undefined", "register", "val_offset", "val_offset_sf", "expression", "val_expression")
SAYS_NOTHING = ("nop", "GNU_args_size")

# Instructions of RV32I: those whose bits 7 to 11 are no register that they change, those where they are, and the return.
CHANGES_NONE, CHANGES_ONE, INDIRECT, IS_RETURN = (0x63, 0x23, 0x0F), (0x37, 0x17, 0x6F, 0x67, 0x03, 0x13, 0x33, 0x73), 0x67, 0x00008067


class Rules:
    """Where the canonical frame address is, by a register and an offset, and where registers 1 and 8 of the caller are."""

    def __init__(self, register=None, offset=0, saved=None):
        self.register, self.offset, self.saved = register, offset, saved or {RETURN: IN_PLACE, FRAME: IN_PLACE}

    def with_address(self, text):
        """What DW_CFA_def_cfa and the like make of them."""
        register, offset = re.match(r"r(\d+)", text), re.search(r"(-?\d+)$", text)
        return Rules(int(register[1]) if register else self.register, int(offset[1]) if offset else self.offset, self.saved)

    def after(self, name, text, first):
        """What an instruction makes of them, with those that its function begins with; None where it isn't known."""
        if name == "def_cfa_expression":
            return Rules(None, 0, self.saved)
        if name.startswith("def_cfa"):
            return self.with_address(text)
        if name in SAYS_NOTHING:
            return self
        register = re.match(r"r(\d+)", text or "")
        if not register:
            return None
        number = int(register[1])
        if name in SAVES:
            place = int(re.search(r"cfa([+-]\d+)$", text)[1])
        elif name in RESTORES:
            place = first.saved.get(number)
        elif name == "same_value":
            place = IN_PLACE
        elif name in LOSES:
            place = LOST
        else:
            return None
        return Rules(self.register, self.offset, self.saved | {number: place}) if number in self.saved else self

    def words(self):
        """The words of a row; None where it can't say them."""
        if self.register not in (STACK, FRAME) or not 0 <= self.offset <= MOST_OFFSET:
            return None
        places = [f"x{number}" if place == IN_PLACE else -place if place != LOST and place < 0 and place % 4 == 0 else None
                  for number, place in ((number, self.saved[number]) for number in (RETURN, FRAME))]
        return None if None in places else f"{self.register} {self.offset} {places[0]} {places[1]}"


class Unit:
    """A CIE, which many functions begin with, or an FDE, which is of one stretch of code."""

    def __init__(self, begin, end, first, is_usual):
        self.begin, self.end, self.place = begin, end, begin
        self.first, self.rules, self.kept = first, first, []
        self.is_usual = is_usual  # whether the return address is in register 1 where it begins

    def take(self, name, text):
        """Takes an instruction. What the rules were in the stretch that it ends, where it ends one."""
        ended = None
        if name.startswith("advance_loc") or name == "set_loc":
            place = int(text.rsplit(" ", 1)[-1], 16)
            ended, self.place = (self.place, place, self.words()), place
        elif name == "remember_state":
            self.kept.append(self.rules)
        elif name == "restore_state":
            self.rules = self.kept.pop() if self.kept else None
        elif self.rules:
            self.rules = self.rules.after(name, text, self.first)
        return ended

    def words(self):
        return self.rules.words() if self.rules and self.is_usual else None


def told_ways(text):
    """Stretches of which `objdump --dwarf=frames` says something, as (begin, end, words or None)."""
    commons, unit = {}, None
    for line in [*text.splitlines(), "Contents"]:
        head = HEAD.match(line)
        if (head or line.startswith("Contents")) and unit and unit.begin < unit.end:
            yield unit.place, unit.end, unit.words()
        if line.startswith("Contents"):
            commons, unit = {}, None  # of another section
        elif head and head[2]:
            unit = commons[head[1]] = Unit(0, 0, Rules(), True)
        elif head:
            common = commons.get(head[3])
            unit = Unit(int(head[4], 16), int(head[5], 16), common.rules if common else None, bool(common and common.is_usual))
        elif unit and (column := COLUMN.match(line)):
            unit.is_usual = int(column[1]) == RETURN
        elif unit and (instruction := INSTRUCTION.match(line)):
            if ended := unit.take(*instruction.groups()):
                yield ended


def keeps_all(code):
    """Whether a function goes back to its caller, if it does, by registers 1, 2 and 8 as they were when it was called, at any instruction."""
    for at in range(0, len(code) - 3, 4):
        word = int.from_bytes(code[at:at + 4], "little")
        operation, changed = word & 0x7F, word >> 7 & 31
        if operation not in CHANGES_NONE + CHANGES_ONE or operation == INDIRECT and word != IS_RETURN:
            return False
        if operation in CHANGES_ONE and changed in (RETURN, STACK, FRAME):
            return False
    return True


def ways(text, image, functions):
    """Stretches of code as (begin, end, words), in their order: of what `objdump --dwarf=frames` says, and of functions, as (begin, end),
    that it says nothing of and that plainly leave the registers alone."""
    told = sorted(way for way in told_ways(text) if PAGE <= way[0] < way[1])
    known, at = [], 0
    for begin, end in functions:
        while at < len(told) and told[at][1] <= begin:
            at += 1
        if not (at < len(told) and told[at][0] < end) and keeps_all(image[begin - PAGE:end - PAGE]):
            known.append((begin, end, Rules(STACK).words()))
    made = []
    for begin, end, words in sorted(told + known, key=lambda way: way[:2]):
        begin = max(begin, made[-1][1] if made else 0)
        if begin >= end:
            continue
        if made and made[-1][1] == begin and made[-1][2] == words:
            made[-1] = (made[-1][0], end, words)
        else:
            made.append((begin, end, words))
    return [way for way in made if way[2]]
