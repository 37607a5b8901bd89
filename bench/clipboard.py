"""Times the built program on pasted and moved blocks, and on dependents.

    python3 bench/clipboard.py [PROGRAM]

PROGRAM is crates/sheetrun/out/sheetrun where no word is given. Each line tells what one operation costs, in milliseconds of the
processor: the script with the operations less that of the script without them. Memory is the peak of the run.
"""
import os
import sys

from structure import chained, measured

SIDE = 100


def column(count):
    """So many formulas in a column, each of the cells beside it and a fixed one."""
    for row in range(1, count + 1):
        yield f"set,A{row},{row}\n"
        yield f"set,B{row},=A{row}*2+$A$1\n"


def pasted(count, times):
    """The column copied, and pasted beside itself so many times."""
    yield f"copy,B1:B{count}\n"
    yield from (f"paste,{chr(ord('C') + index)}1\n" for index in range(times))


def block():
    """A block of formulas, and formulas that read it."""
    for row in range(1, SIDE + 1):
        for col in range(SIDE):
            yield f"set,{name(col)}{row},=ROW()+{col}\n"
    yield from (f"set,ZZ{row},=SUM(A{row}:{name(SIDE - 1)}{row})\n" for row in range(1, SIDE + 1))


def moved(times):
    """The block moved away and back again."""
    last = name(SIDE - 1)
    for _ in range(times // 2):
        yield f"move-block,A1:{last}{SIDE},A1001\n"
        yield f"move-block,A1001:{last}{1000 + SIDE},A1\n"


def name(col):
    """The letters of a column."""
    letters = ""
    col += 1
    while col:
        col, rest = divmod(col - 1, 26)
        letters = chr(ord("A") + rest) + letters
    return letters


def asked(times):
    yield from ("dependents,A1\n" for _ in range(times))


def asked_over_changes(times):
    """Formulas are set, and the dependents of a cell are asked for after each."""
    for row in range(1, times + 1):
        yield f"set,C{row},=A{row}\n"
        yield f"dependents,A{row + 1}\n"


CASES = [
    ("2,000 formulas pasted", lambda: column(2_000), lambda: pasted(2_000, 10), 10),
    ("a block of 100 by 100 moved", block, lambda: moved(100), 100),
    ("dependents among 5,000 formulas", lambda: column(5_000), lambda: asked(10), 10),
    ("dependents among 10,000 formulas", lambda: column(10_000), lambda: asked(10), 10),
    ("a change and dependents, of 10,000", lambda: column(10_000), lambda: asked_over_changes(1_000), 1_000),
]


def main(words):
    here = os.path.dirname(os.path.abspath(__file__))
    program = words[0] if words else os.path.join(here, "..", "crates", "sheetrun", "out", "sheetrun")
    for title, book, operations, times in CASES:
        bare = measured(program, book())
        full = measured(program, chained(book(), operations()))
        print(f"{title:34}: {(full[0] - bare[0]) / times * 1e3:8.2f} ms each, {full[1]:6.1f} MiB")


if __name__ == "__main__":
    main(sys.argv[1:])
