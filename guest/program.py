"""What guest/where, guest/names and guest/image know of a linked program: functions, lines, and variables with their parts.

They read it by the cross compiler's own readers, addr2line, nm and objdump. `rows` is all of it as stretches of addresses, which a file
of names beside an image has (docs/NAMES.md).
"""
import hashlib
import re
import subprocess
import sys
from bisect import bisect_right
from dataclasses import dataclass, field
from itertools import groupby

from frames import ways

TOOL = "riscv64-unknown-elf-"
PAGE = 4_096  # the first one has no memory
MOST_PARTS = 4_096  # of a variable, that have rows of their own
MOST_TEXT = 1_000  # bytes of a row's text
THREADS = "__guest_threads"  # the kit's table of the records of threads (docs/ABI.md)
KIT = re.compile(r"guest/(source|files|arithmetic|include)/|guest/spurious[.]c:|.*/newlib/lib[cm]/|.*/libgcc/|.*/picolibc/.*/include/")  # where sources lie that aren't the user's
HEADER = re.compile(r"^ *<([0-9a-f]+)><([0-9a-f]+)>: Abbrev Number: \d+(?: \((\w+)\))?")
ATTRIBUTE = re.compile(r"^ *<[0-9a-f]+> +(DW_AT_\w+) *: (.*)$")


def output_of(name, *words, given=None):
    try:
        return subprocess.run([TOOL + name, *words], input=given, capture_output=True, text=True, check=True).stdout
    except FileNotFoundError:
        sys.exit(f"{TOOL}{name} is missing: apt-get install binutils-riscv64-unknown-elf")
    except subprocess.CalledProcessError as error:
        sys.exit(error.stderr.strip())


def plain_line(text):
    """A file and a line, as addr2line tells it, without what stands around."""
    return re.sub(r"^([.]/)+", "", re.sub(r" \(discriminator \d+\)", "", text))


@dataclass
class Entry:
    """An entry of the debugging material: a variable, a type, or a part of one."""
    tag: str
    attributes: dict = field(default_factory=dict)
    children: list = field(default_factory=list)

    def number(self, name):
        found = re.match(r"(0x[0-9a-f]+|\d+)", self.attributes.get(name, ""))
        return int(found[1], 0) if found else None

    def name(self):
        return self.attributes.get("DW_AT_name", "").rsplit("): ", 1)[-1].strip()


def entries_of(path):
    """All entries by their offset."""
    entries, open_entries, entry = {}, [], None
    for line in output_of("objdump", "--dwarf=info", path).splitlines():
        if header := HEADER.match(line):
            depth, offset, tag = int(header[1], 16), int(header[2], 16), header[3]
            entry = Entry(tag or "")
            del open_entries[depth:]
            if tag and open_entries:
                open_entries[-1].children.append(entry)
            open_entries += [entry] * (depth + 1 - len(open_entries))
            entries[offset] = entry
        elif entry and (attribute := ATTRIBUTE.match(line)):
            entry.attributes[attribute[1]] = attribute[2]
    return entries


class Program:
    def __init__(self, path):
        self.path = path
        self.entries = entries_of(path)
        self.variables = dict(self.placed_variables())
        self.symbols = sorted(self.sized_symbols())
        self.made = None
        self.kit, self.functions = [], []  # stretches of code that isn't the user's, and of functions with lines, once the rows are made

    def sized_symbols(self):
        for line in output_of("nm", "-S", "-C", "--defined-only", self.path).splitlines():
            words = line.split(maxsplit=3)  # a name of C++ has blanks
            if len(words) == 4 and len(words[2]) == 1 and int(words[0], 16) >= PAGE:  # below stand offsets of thread-local variables, and numbers
                yield int(words[0], 16), int(words[1], 16), words[3], words[2] in "tTwW"

    def placed_variables(self):
        for entry in self.entries.values():
            place = re.search(r"DW_OP_addr: ([0-9a-f]+)\)", entry.attributes.get("DW_AT_location", ""))
            if entry.tag == "DW_TAG_variable" and place:
                source = entry
                if origin := self.referred(entry, "DW_AT_specification") or self.referred(entry, "DW_AT_abstract_origin"):
                    source = origin
                yield int(place[1], 16), source

    def referred(self, entry, attribute="DW_AT_type"):
        found = re.match(r"<0x([0-9a-f]+)>", entry.attributes.get(attribute, ""))
        return self.entries.get(int(found[1], 16)) if found else None

    def bare(self, kind):
        """A type without the names and marks around it."""
        while kind and kind.tag in ("DW_TAG_typedef", "DW_TAG_const_type", "DW_TAG_volatile_type", "DW_TAG_atomic_type"):
            kind = self.referred(kind)
        return kind

    def counts(self, array):
        """How many elements an array has, by its dimensions; 0 where it isn't said."""
        return [(child.number("DW_AT_upper_bound") + 1) if child.number("DW_AT_upper_bound") is not None
                else child.number("DW_AT_count") or 0 for child in array.children]

    def size(self, kind):
        kind = self.bare(kind)
        if not kind:
            return 0
        if kind.tag == "DW_TAG_array_type":
            product = self.size(self.referred(kind))
            for count in self.counts(kind):
                product *= count
            return product
        return kind.number("DW_AT_byte_size") or 0

    def symbol_at(self, address):
        """The symbol that an address lies in, and how far."""
        at = bisect_right(self.symbols, (address, 1 << 32, "", True)) - 1
        if at < 0 or address >= self.symbols[at][0] + self.symbols[at][1]:
            return None
        begin, _, name, is_code = self.symbols[at]
        return begin, address - begin, name, is_code

    def function(self, address):
        """The name of the function that an address lies in."""
        found = self.symbol_at(address)
        return found[2] if found and found[3] else None

    def place(self, address):
        """The text of what lies at an address: a function and its line, or a variable and its part."""
        at = bisect_right(self.rows(), (address, 1 << 32, "", True)) - 1
        if at < 0:
            return None
        begin, end, text, tells_offset = self.rows()[at]
        if address >= end:
            return None
        return text + (f" + {address - begin}" if tells_offset and address > begin else "")

    def rows(self):
        """Stretches of addresses in their order, as (begin, end, text, whether it is told how far from the begin an address is)."""
        if self.made is None:
            self.made = [(0, PAGE, "the null page", False)]
            code = self.code_lines([symbol for symbol in self.symbols if symbol[3]])
            texts = {address: self.line(pairs) for address, pairs in code.items()}
            for at, (begin, size, name, is_code) in enumerate(self.symbols):
                begin = max(begin, self.made[-1][1])  # of two symbols of one place the first is told
                following = self.symbols[at + 1][0] if at + 1 < len(self.symbols) else 1 << 32
                end = min(self.symbols[at][0] + size, following if following > self.symbols[at][0] else 1 << 32)
                if begin < end and is_code:
                    self.made += self.code_rows(texts, begin, end, name)
                    self.add_function(code, begin, end)
                elif begin < end:
                    self.made += self.variable_rows(self.symbols[at][0], begin, end, name)
        return self.made

    def add_function(self, code, begin, end):
        """Notes a function, and whether it isn't the user's: by the file of its first line that is known."""
        places = (pairs[-1][1] for pairs in (code.get(address) for address in range(begin, end, 4)) if pairs)
        line = next((line for line in places if not line.startswith("??")), None)
        if line:
            self.functions.append((begin, end))
        if line and KIT.match(line):
            begins = self.kit.pop()[0] if self.kit and self.kit[-1][1] == begin else begin
            self.kit.append((begins, end))

    def ways(self, image):
        """Stretches of code with the way from there to the caller, as (begin, end, words)."""
        self.rows()
        return ways(output_of("objdump", "--dwarf=frames", self.path), image, self.functions)

    def threads(self):
        """Where the kit has its table of threads; None of a program without."""
        return next((begin for begin, _, name, _ in self.symbols if name == THREADS), None)

    def code_lines(self, symbols):
        """For each instruction of these functions its places in the source, as (function, file and line): what was drawn into another function
        stands before that."""
        addresses = sorted({address for begin, size, _, _ in symbols for address in range(begin, begin + size, 4)})
        said = output_of("addr2line", "-a", "-C", "-f", "-i", "-e", self.path, given="".join(f"{address:x}\n" for address in addresses))
        lines, address = {}, None
        for line in said.splitlines():
            if found := re.match(r"0x([0-9a-f]{8})$", line):
                address = int(found[1], 16)
                lines[address] = []
            else:
                lines[address].append(line)
        return {address: [(function, plain_line(line)) for function, line in zip(texts[::2], texts[1::2])] for address, texts in lines.items()}

    @staticmethod
    def line(pairs):
        """A function with its file and line; what was drawn into another function is named with that."""
        known = [(function, line) for function, line in pairs if not line.startswith("??") and "source/calls.h" not in line]
        return ", in ".join(f"{function} at {line}" for function, line in known)

    def code_rows(self, code, begin, end, name):
        """The rows of a function: one for as many instructions in a row as have one text."""
        for text, group in groupby(range(begin, end, 4), lambda address: code.get(address) or name):
            group = list(group)
            yield group[0], min(group[-1] + 4, end), text, False

    def variable_rows(self, place, begin, end, name):
        """The rows of a variable: one for each of its parts, or one for all where it has very many."""
        variable = self.variables.get(place)
        kind = self.referred(variable) if variable else None
        parts = list(self.parts(kind, 0, name)) if kind and self.part_count(kind) <= MOST_PARTS else []
        offset = begin
        for at, size, text in parts:
            first, last = max(place + at, offset), min(place + at + size, end)
            if first < last:
                if offset < first:
                    yield offset, first, name, True
                yield first, last, text, True
                offset = last
        if offset < end:
            yield offset, end, name, True

    def part_count(self, kind):
        """How many parts a type has, in the sense of `parts`."""
        kind = self.bare(kind)
        if kind and kind.tag == "DW_TAG_array_type":
            count = self.part_count(self.referred(kind))
            for dimension in self.counts(kind):
                count *= dimension
            return count
        return sum(self.part_count(self.referred(member)) for member in self.members(kind)) if self.members(kind) else 1

    def members(self, kind):
        members = kind.children if kind and kind.tag in ("DW_TAG_structure_type", "DW_TAG_class_type") else []
        return [member for member in members if member.tag == "DW_TAG_member"]

    def parts(self, kind, offset, text):
        """The parts of a variable of this type, each as (offset, size, text): elements of arrays and members of records, to the last."""
        kind = self.bare(kind)
        size = self.size(kind)
        if kind and kind.tag == "DW_TAG_array_type":
            element = self.referred(kind)
            each, counts = self.size(element), self.counts(kind)
            for number in range(size // each if each else 0):
                indices, rest = "", number
                for at in range(len(counts)):
                    row = 1
                    for count in counts[at + 1:]:
                        row *= count
                    indices += f"[{rest // row}]"
                    rest %= row
                yield from self.parts(element, offset + number * each, text + indices)
        elif self.members(kind):
            for member in self.members(kind):
                begin, name = member.number("DW_AT_data_member_location") or 0, member.name()
                yield from self.parts(self.referred(member), offset + begin, text + (f".{name}" if name not in ("only_a_name", "clock") else ""))
        else:
            yield offset, max(1, size), text

    def names(self, image):
        """The bytes of the file of names of this image."""
        lines = [f"ckrt-names 2 {hashlib.sha256(image).hexdigest()} {len(image):08x}"]
        for begin, end, text, tells_offset in self.rows():
            shown = "".join(letter if letter.isprintable() else "?" for letter in text).encode()[:MOST_TEXT].decode(errors="ignore")
            lines.append(f"{'in' if tells_offset else 'at'} {begin:08x} {end - begin:08x} {shown}")
        lines += [f"kit {begin:08x} {end - begin:08x}" for begin, end in self.kit]
        lines += [f"up {begin:08x} {end - begin:08x} {words}" for begin, end, words in self.ways(image)]
        if (threads := self.threads()) is not None:
            lines.append(f"threads {threads:08x}")
        return "".join(f"{line}\n" for line in lines).encode()
