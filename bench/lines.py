"""Times edits of the lines of a grid, by the built program `call_bench`.

    python3 bench/lines.py [--counted] [--program PROGRAM]

PROGRAM is crates/call_bench/out/call_bench where it isn't given (`rt run` there builds it). Rows are put in, deleted and moved at
places that lie apart, a hundred thousand times over 10,000 filled cells: the times of the first and the last ten thousand tell
whether a long session gets slower. Columns and blocks are edited beside 10,000, 100,000 and 1,000,000 cells: the growth for each
doubling of the cells stands beside the time. The least of some runs is told. With --counted the program runs once under valgrind's
callgrind, which counts the instructions of each stretch of edits.
"""
import argparse
import glob
import math
import os
import re
import subprocess
import sys
import tempfile

REPEATS = 3
# The call that does a stretch of edits, in the program.
STRETCH = "call_bench::lines::time_stretch"
LENGTHS = {"rows put in and deleted": 10_000, "rows moved": 10_000}
SHORT = 1_000


def lines_of(command):
    """The lines that the command prints."""
    return subprocess.run(command, stdout=subprocess.PIPE, check=True).stdout.decode().split("\n")


def stretches_of(lines):
    """The cells, the edits, the number of the first edit, and the nanoseconds of each line."""
    found = (re.fullmatch(r"(\d+) cells, (.+), from (\d+) on: (\d+) ns", line) for line in lines)
    return [((int(part[1]), part[2], int(part[3])), int(part[4])) for part in found if part]


def timed(bench):
    """The nanoseconds of an edit of each stretch: the least of some runs."""
    runs = [dict(stretches_of(lines_of(bench))) for _ in range(REPEATS)]
    return {stretch: min(times[stretch] for times in runs) for stretch in runs[0]}


def counted(bench):
    """The instructions of an edit of each stretch."""
    with tempfile.TemporaryDirectory() as folder:
        valgrind = ["valgrind", "-q", "--tool=callgrind", f"--callgrind-out-file={folder}/out"]
        valgrind += [f"--zero-before={STRETCH}", f"--dump-after={STRETCH}"]
        stretches = [stretch for stretch, _ in stretches_of(lines_of([*valgrind, *bench]))]
        counts = []
        for name in sorted(glob.glob(f"{folder}/out.*"), key=lambda name: int(name.rsplit(".", 1)[1])):
            with open(name, encoding="utf-8") as dump:
                text = dump.read()
            if STRETCH in text and re.search(r"^desc: Trigger: --dump-after", text, re.MULTILINE):
                counts.append(int(re.search(r"^(?:summary|totals): (\d+)$", text, re.MULTILINE)[1]))
    assert len(stretches) == len(counts), "callgrind counted other stretches than the program timed"
    return {stretch: count // LENGTHS.get(stretch[1], SHORT) for stretch, count in zip(stretches, counts)}


def main(words):
    here = os.path.dirname(os.path.abspath(__file__))
    options = argparse.ArgumentParser()
    options.add_argument("--counted", action="store_true")
    options.add_argument("--program", default=os.path.join(here, "..", "crates", "call_bench", "out", "call_bench"))
    said = options.parse_args(words)
    figures = (counted if said.counted else timed)([said.program, "lines"])
    unit = "instructions" if said.counted else "ns"
    first, smaller = {}, {}
    for (cells, edits, number), figure in figures.items():
        beside = ""
        if number:
            beside = f", {figure / first[cells, edits]:.2f} times the first"
        elif edits in smaller and edits not in LENGTHS:
            before, less = smaller[edits]
            beside = f", {(figure / less) ** (1 / math.log2(cells / before)):.2f} for each doubling"
        first.setdefault((cells, edits), figure)
        smaller[edits] = (cells, figure)
        print(f"{cells:9,} cells, {edits}, from {number:6,} on: {figure:11,} {unit}{beside}")
    return 0


if __name__ == "__main__":
    sys.exit(main(sys.argv[1:]))
