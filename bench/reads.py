"""Times the built program where values are read between changes.

    python3 bench/reads.py [--counted] [--rounds N] [--program PROGRAM] [NAME ..]

A NAME is a part of the title of workloads, as "chain"; without any, all are made. PROGRAM is crates/sheetrun/out/sheetrun where it
isn't given. A workload is a script that makes a workbook, and changes and reads behind it. What these take in all is the time of
the processor of the whole script less that of a script without them, by the median of the rounds; with --counted valgrind's
callgrind counts the instructions of both instead. Where a workload comes in several sizes, the last figure tells the growth for
each doubling.
"""
import argparse
import os
import statistics
import sys

from engine import chained, counted, growth, run
from structure import ROWS, place
from values import chain, columns, invoice, prefix_sums


def one_read(book):
    """A workbook, and a value read of it."""
    return lambda n: chained(book(n), ["value,A1"])


def reads_of_sums(count):
    """A number at the top, and each prefix sum behind it."""
    yield "set,A1,7"
    yield from (f"value,B{row}" for row in range(1, count + 1))


def edits_of_chain(count):
    """Ten edits at the start of a chain, each with its end read."""
    last = list(columns(count))[-1][0]
    for edit in range(10):
        yield f"set,A1,{edit}"
        yield f"value,{last}"


def edits_of_invoice(lines):
    """Fifty edits of lines, each with the total read."""
    for edit in range(50):
        yield f"set,A{edit * 7 % lines + 1},{edit % 9 + 1}"
        yield "value,F2"


def rows_in_invoice(lines):
    """Fifty rows put in and deleted, each with the total read."""
    for edit in range(25):
        yield f"insert-rows,Sheet1,{edit * 7 % lines + 1},1"
        yield "value,F2"
        yield f"delete-rows,Sheet1,{edit * 7 % lines + 1},1"
        yield "value,F2"


def formulas(count):
    """So many formulas over numbers beside them."""
    for row in range(1, count + 1):
        yield f"set,A{row},{row}"
        yield f"set,B{row},=A{row}*2+$A${row}"


def all_formulas(count):
    """The value of each."""
    yield from (f"value,B{row}" for row in range(1, count + 1))


def table(count):
    """Forty thousand rows of keys, and so many look-ups of some."""
    for index in range(ROWS):
        yield f"set,A{index + 1},{index}"
        yield f"set,B{index + 1},{index}.5"
    yield from (f"set,D{row},=VLOOKUP({row * 37 % ROWS},$A$1:$B${ROWS},2)" for row in range(1, count + 1))


def edit_of_table(count):
    """An edit of the table, and each look-up."""
    yield "set,B7,7"
    yield from (f"value,D{row}" for row in range(1, count + 1))


def inserts(count):
    """A thousand rows put in and deleted."""
    for _ in range(500):
        yield "insert-rows,Sheet1,500,1"
        yield "delete-rows,Sheet1,500,1"


def undone(count):
    """A thousand steps taken back, and all read."""
    yield from ("undo" for _ in range(1_000))
    yield from all_formulas(count)


def same_read(count):
    """One value ten thousand times."""
    yield from ("value,A1" for _ in range(10_000))


def lines_of(make):
    """The lines of a workbook, without their ends."""
    return lambda n: (line.rstrip("\n") for line in make(n))


LONG = ["--undo-limit", "1000"]
# The title, the words, the sizes, the workbook of a size, and the changes and reads.
WORKLOADS = (
    ("ten thousand reads of a value without marks", [], (8_000,), one_read(formulas), same_read),
    ("prefix sums, all read after an edit at the top", [], (1_000, 2_000, 4_000), one_read(lines_of(prefix_sums)), reads_of_sums),
    ("a chain, ten edits at its start, its end read", [], (8_000, 16_000, 128_000), one_read(lines_of(lambda n: chain(n, True))), edits_of_chain),
    ("an invoice, fifty edits with the total read", [], (4_000, 8_000), one_read(lines_of(invoice)), edits_of_invoice),
    ("an invoice, fifty rows put in and deleted, with the total read", [], (1_000, 2_000, 4_000), one_read(lines_of(invoice)), rows_in_invoice),
    ("formulas, all read", [], (8_000, 16_000), formulas, all_formulas),
    ("look-ups into 40,000 rows, all read after an edit", [], (500, 1_000), one_read(table), edit_of_table),
    ("a thousand rows put in and deleted beside formulas, no read", LONG, (2_000, 4_000, 8_000), one_read(formulas), inserts),
    ("a thousand such steps undone, then all formulas read", LONG, (2_000, 4_000), lambda n: chained(one_read(formulas)(n), inserts(n)), undone),
)


def whole(program, make, operations, size, options, words):
    """What the operations take in all, in milliseconds or instructions."""
    bare, full = list(make(size)), list(chained(make(size), operations(size)))
    if options.counted:
        return counted([program, *words], full) - counted([program, *words], bare)
    return statistics.median((run([program, *words], full)[0] - run([program, *words], bare)[0]) * 1e3 for _ in range(options.rounds))


def generated(program, options):
    """What generated commands take."""
    for count in (2_000, 10_000):
        words = [program, "--generate", str(count)]
        told = counted(words, []) if options.counted else statistics.median(run(words, [])[0] * 1e3 for _ in range(options.rounds))
        print(f"{count:,} generated commands: {told:,.2f} {'instructions' if options.counted else 'ms'}", flush=True)


def main():
    parser = argparse.ArgumentParser()
    parser.add_argument("--counted", action="store_true")
    parser.add_argument("--rounds", type=int, default=5)
    parser.add_argument("--program", default=os.path.join(os.path.dirname(os.path.abspath(__file__)), "..", "crates", "sheetrun", "out", "sheetrun"))
    parser.add_argument("names", nargs="*")
    options = parser.parse_args()
    unit = "instructions" if options.counted else "ms"
    for title, words, sizes, make, operations in WORKLOADS:
        if options.names and not any(name in title for name in options.names):
            continue
        told = []
        for size in sizes:
            told.append(whole(options.program, make, operations, size, options, words))
            print(f"{title}, {size:,}: {told[-1]:,.2f} {unit}{growth(sizes, told)}", flush=True)
    if not options.names or any(name in "generated" for name in options.names):
        generated(options.program, options)


if __name__ == "__main__":
    sys.exit(main())
