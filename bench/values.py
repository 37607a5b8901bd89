"""Times the built program on the values of whole workbooks.

    python3 bench/values.py [PROGRAM]

PROGRAM is crates/sheetrun/out/sheetrun where no word is given. Each line tells what one value costs, in seconds of the
processor: the script with that value less the script without it. Memory is the peak of the run. Each workbook is made in two
sizes, so that growth shows.
"""
import os
import sys

from structure import chained, measured


def columns(count):
    """`count` cells in columns of 40,000 rows, each with its neighbour above, or the last of the column before."""
    before = None
    for index in range(count):
        here = f"{'ABCDEFGH'[index // 40_000]}{index % 40_000 + 1}"
        yield here, before
        before = here


def chain(count, downward):
    """Formulas, each one more than the one before it, or, upward, than the one behind it."""
    cells = list(columns(count))
    if downward:
        yield f"set,{cells[0][0]},1\n"
        yield from (f"set,{here},={before}+1\n" for here, before in cells[1:])
    else:
        yield f"set,{cells[-1][0]},1\n"
        yield from (f"set,{before},={here}+1\n" for here, before in cells[1:])


def invoice(lines):
    """Quantity, price, discount and amount of each line, and the invoice's total, tax and average."""
    for row in range(1, lines + 1):
        yield f"set,A{row},{row % 9 + 1}\n"
        yield f"set,B{row},{row % 90}.25\n"
        yield f'set,C{row},"=IF(A{row}>5,0.1,0)"\n'
        yield f'set,D{row},"=ROUND(A{row}*B{row}*(1-C{row}),2)"\n'
    yield f"set,F1,=SUM(D1:D{lines})\n"
    yield "set,F2,=F1*0.19\n"
    yield f"set,F3,=AVERAGE(D1:D{lines})\n"


def prefix_sums(count):
    """Numbers, and beside each the sum of all down to it."""
    for row in range(1, count + 1):
        yield f"set,A{row},{row}\n"
        yield f"set,B{row},=SUM(A$1:A{row})\n"


def cycle(count):
    """A cycle through so many cells, and as many more that read it, one behind the other."""
    cells = [here for here, _ in columns(2 * count)]
    yield f"set,{cells[0]},={cells[count - 1]}+1\n"
    yield from (f"set,{cells[index]},={cells[index - 1]}+1\n" for index in range(1, 2 * count))


CASES = [
    ("a chain of {:,} down", lambda n: chain(n, True), (50_000, 100_000), "A1"),
    ("a chain of {:,} up", lambda n: chain(n, False), (50_000, 100_000), "A1"),
    ("an invoice of {:,} lines", invoice, (2_000, 4_000), "F2"),
    ("{:,} prefix sums", prefix_sums, (1_000, 2_000), "B1"),
    ("a cycle of {0:,}, {0:,} behind it", cycle, (50_000, 100_000), "A1"),
]


def main(words):
    here = os.path.dirname(os.path.abspath(__file__))
    program = words[0] if words else os.path.join(here, "..", "crates", "sheetrun", "out", "sheetrun")
    for title, book, sizes, place in CASES:
        for size in sizes:
            bare = measured(program, book(size))
            full = measured(program, chained(book(size), [f"value,{place}\n"]))
            print(f"{title.format(size):40}: {full[0] - bare[0]:7.3f} s for a value, {full[1]:6.1f} MiB")


if __name__ == "__main__":
    main(sys.argv[1:])
