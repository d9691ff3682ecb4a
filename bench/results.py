"""Notes what a bench measured: a line of `bench/results/NAME.csv` for each figure of a run."""
import csv
import os
import subprocess

BENCH = os.path.dirname(os.path.abspath(__file__))
# `ours` and `base` are the medians of what is compared, in `unit`; `ratio` is the median of the rounds' ratios, with its
# quartiles `low` and `high`. What has no such figure is empty.
FIELDS = ["date", "commit", "what", "unit", "ours", "base", "ratio", "low", "high"]


def git(*words):
    return subprocess.run(["git", "-C", BENCH, *words], capture_output=True, text=True, check=False).stdout.strip()


def commit_measured():
    """The commit that is checked out, with a plus where tracked files other than results differ from it."""
    changed = git("status", "--porcelain", "--untracked-files=no", "--", ":(top)", ":(top,exclude)bench/results")
    return git("rev-parse", "--short=12", "HEAD") + ("+" if changed else "")


def shown(value):
    return f"{value:.4g}" if isinstance(value, float) else str(value)


def note(bench, what, unit, ours, base="", ratios=("", "", "")):
    """Appends a line. `ratios` are the lower quartile, the median and the upper quartile."""
    path = os.path.join(BENCH, "results", bench + ".csv")
    os.makedirs(os.path.dirname(path), exist_ok=True)
    is_new = not os.path.exists(path)
    low, middle, high = ratios
    date = os.environ.get("CKRT_BENCH_DATE", "")
    with open(path, "a", newline="", encoding="utf-8") as file:
        lines = csv.writer(file, lineterminator="\n")
        if is_new:
            lines.writerow(FIELDS)
        lines.writerow([date, commit_measured(), what, unit, *map(shown, (ours, base, middle, low, high))])
