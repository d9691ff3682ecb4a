"""Which bits of a result are unknown, by those of its operands; and where unknown bits decide what comes of a comparison. A bit is unknown that
hangs on memory that was given, and that nothing has stored to since."""
from dataclasses import dataclass

from model.abi import ALL_ONES
from model.processor import ARITHMETIC, sign_extended

HIGHEST = 1 << 31
SHIFTS, LESS = (1, 5), {2: True, 3: False}  # by funct3, of these whether they compare signed numbers
EQUAL = 0, 1  # of branches, by funct3: beq and bne
ORDERED = {4: True, 5: True, 6: False, 7: False}  # the others, and whether they compare signed numbers


@dataclass(frozen=True)
class Value:
    """A word with its unknown bits, and the memory that these hang on; None where all are known."""
    number: int
    unknown: int = 0
    memory: object = None


def unknown_of_sum(left, right):
    """Those of an operand, and those in which the least and the greatest sum differ."""
    (least, greatest), (least_of_second, greatest_of_second) = least_and_greatest(left), least_and_greatest(right)
    differing = least + least_of_second ^ greatest + greatest_of_second
    return left.unknown | right.unknown | differing & ALL_ONES


def unknown_of_difference(left, right):
    """The same; the least difference is that of the least first word and the greatest second one."""
    (least, greatest), (least_of_second, greatest_of_second) = least_and_greatest(left), least_and_greatest(right)
    differing = least - greatest_of_second ^ greatest - least_of_second
    return left.unknown | right.unknown | differing & ALL_ONES


def unknown_of_xor(left, right):
    return left.unknown | right.unknown


def unknown_of_and(left, right):
    """But where an operand has a 0 that is known."""
    return (left.unknown | right.unknown) & (left.unknown | left.number) & (right.unknown | right.number)


def unknown_of_or(left, right):
    """But where an operand has a 1 that is known."""
    return (left.unknown | right.unknown) & (left.unknown | ~left.number) & (right.unknown | ~right.number)


# By funct7 and funct3.
OF_BITS = {(0, 0): unknown_of_sum, (32, 0): unknown_of_difference, (0, 4): unknown_of_xor, (0, 6): unknown_of_or, (0, 7): unknown_of_and}


def unknown_after(funct7, funct3, left, right):
    """Of the result of an operation of two words."""
    if funct3 in SHIFTS:
        return ALL_ONES if right.unknown & 31 else ARITHMETIC[funct7, funct3](left.unknown, right.number) & ALL_ONES
    if funct3 in LESS:
        return int(decide_less(left, right, LESS[funct3]))
    return OF_BITS[funct7, funct3](left, right)


def least_and_greatest(value, is_signed=False):
    """That the word may be; signed numbers are moved up, so that they are as others."""
    number = value.number ^ (HIGHEST if is_signed else 0)
    return number & ~value.unknown, number | value.unknown


def decide_less(left, right, is_signed):
    """Whether the unknown bits decide if the first word is less than the second one."""
    (least, greatest), (least_of_second, greatest_of_second) = (least_and_greatest(value, is_signed) for value in (left, right))
    return least < greatest_of_second and not greatest < least_of_second


def decide_equal(left, right):
    """Whether unknown bits decide if two words are equal: there are some, and no bit that is known in both differs."""
    unknown = left.unknown | right.unknown
    return unknown != 0 and not (left.number ^ right.number) & ~unknown


def decide_branch(funct3, left, right):
    """Whether the unknown bits decide if a branch is taken."""
    return decide_equal(left, right) if funct3 in EQUAL else decide_less(left, right, ORDERED[funct3])


def unknown_of_load(unknown, address, length, is_signed):
    """What is unknown in the bytes of a word that are loaded, extended as the value is."""
    found = unknown >> 8 * (address % 4) & (1 << 8 * length) - 1
    return sign_extended(found, 8 * length) & ALL_ONES if is_signed else found


def unknown_after_store(before, address, length, stored):
    """What is unknown in a word after a store to some of its bytes, by what is unknown in these."""
    shift, bits = 8 * (address % 4), (1 << 8 * length) - 1
    return before & ~(bits << shift) | (stored & bits) << shift
