"""Times the built program on steps that are undone and redone.

    python3 bench/undo.py [PROGRAM]

PROGRAM is crates/sheetrun/out/sheetrun where no word is given. Each step's time is that of the processor, for the script with
the steps less that of the script without them; memory is the peak of the run. A step is undone and redone in turn, since no
more than twenty are kept.
"""
import os
import sys

from structure import chained, formulas, measured, numbers

STEPS = 100


def steps(change):
    """A change, which is then undone and redone in turn."""
    yield change
    for _ in range(STEPS // 2):
        yield "undo\n"
        yield "redo\n"


def main(words):
    here = os.path.dirname(os.path.abspath(__file__))
    program = words[0] if words else os.path.join(here, "..", "crates", "sheetrun", "out", "sheetrun")
    for count, beside in ((0, 1_000), (0, 100_000), (1_000, 0), (4_000, 0), (4_000, 100_000)):
        for title, change in (("a number", "set,ZZ1,1\n"), ("rows", "insert-rows,Sheet1,500,1\n"), ("a block", "clear,A1:ZZ100\n")):
            bare = measured(program, chained(formulas(count), numbers(beside), [change]))
            full = measured(program, chained(formulas(count), numbers(beside), steps(change)))
            each = (full[0] - bare[0]) / STEPS * 1e3
            print(f"{title:9} undone and redone, {count:5,} formulas, {beside:7,} numbers: {each:8.3f} ms each, {full[1]:6.1f} MiB")
    for count in (1_000, 4_000, 16_000):
        run = measured(program, chained(formulas(count), (f"insert-rows,Sheet1,{row + 1},1\n" for row in range(20))))
        print(f"twenty inserts kept for undo, {count:6,} formulas: {run[1]:6.1f} MiB")


if __name__ == "__main__":
    main(sys.argv[1:])
