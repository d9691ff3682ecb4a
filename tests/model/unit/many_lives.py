"""Random lists of lives through the model: its reports against those foreseen by counting calls, and against each promise.

    python3 -B -m unit.many_lives [LISTS [SEED]]

There are 1,000 lists, from seed 1 on, where no other numbers are given.
"""
import sys
from collections import Counter
from random import Random

from cases.kinds import guest_case
from cases.life_lists import life_list
from model.devices import MemoryDisk
from model.foreseen import foreseen
from model.lives import lives
from model.promises import require_promises
from model.recovery import recover


def count(tally, listed, reports):
    """What came up in a list: how its lives ended, and what a stop left."""
    furthest = 0
    for life, report in zip(listed, reports):
        if report.recovered is None:
            tally["lives stopped before they recovered"] += 1
            continue
        left = recover(MemoryDisk(bytearray(report.left))).events
        end = report.released_from + len(report.released)
        tally["lives that recovered events"] += report.recovered > 0
        tally["lives that acknowledged events"] += report.acknowledged > report.recovered
        tally["lives whose stop left more than they acknowledged"] += left > report.acknowledged
        tally["lives that released bytes again"] += report.released_from < min(furthest, end)
        furthest = max(furthest, end)


def run_list(seed, tally):
    """Raises where the readings differ or a promise is broken."""
    chance = Random(f"lives {seed}")
    case = guest_case(chance, seed)
    listed, _ = life_list(chance, case)
    reports = lives(case.image, case.geometry, listed)
    if reports != foreseen(case.image, case.geometry, listed):
        raise AssertionError(f"list {seed}: two reports of one life")
    require_promises(case.image, case.geometry, listed, reports)
    tally["lists"] += 1
    tally["lives"] += len(listed)
    count(tally, listed, reports)


def main():
    number, first = [int(word) for word in sys.argv[1:]] + [1000, 1][len(sys.argv) - 1:]
    tally = Counter()
    for seed in range(first, first + number):
        run_list(seed, tally)
    print("\n".join(f"{name}: {number}" for name, number in tally.items()))


if __name__ == "__main__":
    main()
