"""Prints saved tables for tests of a reader and a writer: one a line, as harts, what they are, and the bytes in hexadecimal.

What they are is `saved` (a well-formed state and held output have just these bytes), `short` (they end too early, or a
number has no meaning), `other` (their state has other bytes) or the first rule of `well_formed.py` that their state breaks.

    python3 -B -m cases.table_vectors [MOST [LONGEST [SEED [VERSION]]]]

MOST of each at most (12), none above LONGEST bytes (1500), from SEED on (1), in VERSION (1).
"""
import struct
import sys
from collections import Counter
from random import Random

from cases.changes import Saved, change, damaged_bytes
from cases.crowds import Crowd
from model.switches import switched
from model.tables import NoEncoding, encode_tables, read_tables
from model.threads import State
from model.well_formed import rules

SEEDS = 20000


def kind_of(tables, harts):
    try:
        state, held = read_tables(tables)
    except NoEncoding:
        return "short"
    if encode_tables(state, held) != tables:
        return "other"
    return next((rule.__name__ for rule in rules() if not rule(state, held, harts)), "saved")


def candidate(chance):
    """A crowd, changed in three of four cases."""
    harts, state, held = chance.choice([1, 2, 8]), State(), bytearray(chance.randbytes(chance.choice([0, 0, 1, 40])))
    state.add_initial_thread(16)
    state.clock, state.input = chance.choice([0, 5, 1 << 32]), list(chance.randbytes(chance.choice([0, 0, 3])))
    Crowd(chance, state, harts).grow(chance.choice([0, 1, 3, 6]))
    if chance.random() < 0.75:
        for _ in range(chance.choice([1, 1, 2])):
            change(chance, Saved(state, held))
    tables = encode_tables(state, held)
    return harts, damaged_bytes(chance, tables) if chance.random() < 0.1 else tables


def candidates(first):
    for seed in range(first, first + SEEDS):
        try:
            yield candidate(Random(f"tables {seed}"))
        except (struct.error, ValueError):
            pass  # a change that no record has room for


def main():
    most, longest, first, version = [int(word) for word in sys.argv[1:]] + [12, 1500, 1, 1][len(sys.argv) - 1:]
    with switched(keys=version == 2):
        print_vectors(most, longest, first)


def print_vectors(most, longest, first):
    seen, found = set(), Counter()
    for harts, tables in candidates(first):
        kind = kind_of(tables, harts)
        wanted = 4 * most if kind == "saved" else most
        if len(tables) <= longest and found[kind] < wanted and (harts, tables) not in seen:
            seen.add((harts, tables))
            found[kind] += 1
            print(harts, kind, tables.hex() or "-", flush=True)
        if len(found) == len(rules()) + 3 and found.total() == (len(rules()) + 6) * most:
            break


if __name__ == "__main__":
    main()
