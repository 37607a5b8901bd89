"""Times the built program on whole columns beside blocks of the same cells.

    python3 bench/whole.py [--counted] [--rounds N] [--filled N] [--formulas N] [--blocks] [--program PROGRAM] [NAME ..]

A NAME is a part of the title of workloads, as "look-ups"; without any, all are made. PROGRAM is crates/sheetrun/out/sheetrun where it
isn't given. A column A has numbers in its first rows (36,000, or as many as --filled says), a column B texts beside them where
they are looked up, and formulas stand in the first row, each in a column of its own (1,000, or as --formulas says). Each workload is
made with formulas over A:A or A:B, and with formulas over the block of the filled rows; with --blocks only the latter, for a program
that reads no whole ranges. What its reads and operations take in all is the time of the processor of the whole script less that of a
script without them, by the median of the rounds; with --counted valgrind's callgrind counts the instructions of both instead. Memory
is the peak of the run.
"""
import argparse
import os
import statistics
import sys

from engine import chained, column, counted, run

# The columns in front of the formulas: the numbers, what is looked up, and one that stays empty.
FRONT = 3
# How many rows are put in, each between reads of all formulas where the workload reads.
INSERTS = 10


def numbers(filled):
    """Numbers in column A, the row's own."""
    yield from (f"set,A{row},{row}" for row in range(1, filled + 1))


def texts(filled):
    """A text in column B beside each of them."""
    yield from (f"set,B{row},x{row}" for row in range(1, filled + 1))


def place(index):
    """The cell of a formula."""
    return f"{column(FRONT + index)}1"


def sums(options, block):
    """The numbers, and formulas that sum them."""
    yield from numbers(options.filled)
    yield from (f"set,{place(index)},=SUM({block('A', 'A')})" for index in range(options.formulas))


def counts(options, block):
    """The numbers, and formulas that count some of them, of which no summary is kept."""
    yield from numbers(options.filled)
    for index in range(options.formulas):
        yield f'set,{place(index)},"=COUNTIF({block("A", "A")},"">{index}"")"'


def look_ups(options, block):
    """The numbers with texts beside them, and formulas that look some up."""
    yield from chained(numbers(options.filled), texts(options.filled))
    for index in range(options.formulas):
        yield f'set,{place(index)},"=VLOOKUP({index * 37 % options.filled + 1},{block("A", "B")},2,FALSE)"'


def matches(options, block):
    """The numbers, and formulas that ask in which row some stand."""
    yield from numbers(options.filled)
    for index in range(options.formulas):
        yield f'set,{place(index)},"=MATCH({index * 37 % options.filled + 1},{block("A", "A")},0)"'


def all_read(options):
    """The value of each formula."""
    yield from (f"value,{place(index)}" for index in range(options.formulas))


def nothing(options):
    """No operations."""
    yield from ()


def changed(options):
    """A number changed, and all formulas read."""
    yield f"set,A{options.filled // 2},7"
    yield from all_read(options)


def put_in(options):
    """Rows put in, and no read."""
    yield from (f"insert-rows,Sheet1,{options.filled // 2},1" for _ in range(INSERTS))


def put_in_and_read(options):
    """Rows put in, all formulas read after each."""
    for _ in range(INSERTS):
        yield f"insert-rows,Sheet1,{options.filled // 2},1"
        yield from all_read(options)


def texts_read(options):
    """Rows put in, and the text of each formula read."""
    yield from put_in(options)
    yield from (f"formula,{place(index)}" for index in range(options.formulas))


# The title, the workbook, what comes before the clock starts, and what is timed.
WORKLOADS = (
    ("sums, all read for the first time", sums, nothing, all_read),
    ("sums, a number changed and all read", sums, all_read, changed),
    (f"sums, {INSERTS} rows put in", sums, all_read, put_in),
    (f"sums, {INSERTS} rows put in and all read after each", sums, all_read, put_in_and_read),
    (f"sums, {INSERTS} rows put in and all texts read", sums, all_read, texts_read),
    ("counts by a criterion, all read for the first time", counts, nothing, all_read),
    ("counts by a criterion, a number changed and all read", counts, all_read, changed),
    ("matches, all read for the first time", matches, nothing, all_read),
    ("look-ups, all read for the first time", look_ups, nothing, all_read),
    ("look-ups, a number changed and all read", look_ups, all_read, changed),
    (f"look-ups, {INSERTS} rows put in and all read after each", look_ups, all_read, put_in_and_read),
)


def whole_columns(first, last):
    """The columns from the first to the last, as a formula names them."""
    return f"{first}:{last}"


def blocks_of(filled):
    """Their filled rows alone."""
    return lambda first, last: f"{first}1:{last}{filled}"


def figure(make, before, timed, block, options):
    """What is timed of a workload, in milliseconds or instructions, and the peak memory of its run in MiB."""
    bare = list(chained(make(options, block), before(options)))
    full = bare + list(timed(options))
    if options.counted:
        return counted([options.program], full) - counted([options.program], bare), 0
    rounds = [(run([options.program], full), run([options.program], bare)) for _ in range(options.rounds)]
    return statistics.median((one[0] - other[0]) * 1e3 for one, other in rounds), max(one[1] for one, _ in rounds) / 2**20


def told(amount, options):
    """A figure with its unit, and its memory."""
    if options.counted:
        return f"{amount[0]:,} instructions"
    return f"{amount[0]:,.2f} ms, {amount[1]:.0f} MiB"


def main():
    parser = argparse.ArgumentParser()
    parser.add_argument("--counted", action="store_true")
    parser.add_argument("--rounds", type=int, default=3)
    parser.add_argument("--filled", type=int, default=36_000)
    parser.add_argument("--formulas", type=int, default=1_000)
    parser.add_argument("--blocks", action="store_true")
    parser.add_argument("--program", default=os.path.join(os.path.dirname(os.path.abspath(__file__)), "..", "crates", "sheetrun", "out", "sheetrun"))
    parser.add_argument("names", nargs="*")
    options = parser.parse_args()
    for title, make, before, timed in WORKLOADS:
        if options.names and not any(name in title for name in options.names):
            continue
        block = figure(make, before, timed, blocks_of(options.filled), options)
        line = f"{title}: over the block {told(block, options)}"
        if not options.blocks:
            whole = figure(make, before, timed, whole_columns, options)
            beside = f", {whole[0] / block[0]:.2f} times that" if block[0] > 0 else ""
            line += f"; over the whole column {told(whole, options)}{beside}"
        print(line, flush=True)


if __name__ == "__main__":
    sys.exit(main())
