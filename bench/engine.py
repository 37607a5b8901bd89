"""Times the built program on what an operation costs beside how many formulas there are.

    python3 bench/engine.py [--counted] [--rounds COUNT] [--times COUNT] [--program PROGRAM] [NAME ..]

A NAME is a part of the title of workloads, as "undone"; without any, all are made. PROGRAM is crates/sheetrun/out/sheetrun where
it isn't given. A workload is a script that makes a workbook, and so many operations behind it. What one operation takes is
the time of the processor for the script with them less that for the script without them, by their number: the median over the
rounds. With --counted valgrind's callgrind counts the instructions of both instead. Where a workload comes in several sizes,
each figure has its growth since the smaller size beside it, as a factor for each doubling. Memory is the peak of the run
with the operations less that of the run without.
"""
import argparse
import math
import os
import re
import statistics
import subprocess
import sys
import tempfile

ROWS, WIDTH = 40_000, 10
SIZES, LARGE, FEW = (1_000, 10_000, 100_000), (10_000, 100_000), (1_000, 10_000)


def column(index):
    """The letters of a column."""
    letters = ""
    while index >= 0:
        letters, index = chr(ord("A") + index % 26) + letters, index // 26 - 1
    return letters


def formulas(count):
    """So many formulas, ten in a row, each with a number of its own."""
    for index in range(count):
        row, col = index // WIDTH + 1, index % WIDTH
        yield f"set,{column(col + 1)}{row},=A{row}*{index}+$A${row}"


def shared(count):
    """So many formulas that are one tree, ten in a row."""
    for index in range(count):
        row, col = index // WIDTH + 1, index % WIDTH
        yield f"set,{column(col + 1)}{row},=$A{row}*2"


def names(count):
    """So many names, and a formula that mentions the last one."""
    for index in range(count):
        yield f"add-name,NAME_{index},,=Sheet1!$A${index % ROWS + 1}"
    yield f"set,B1,=NAME_{count - 1}"


def inserts(times):
    """A row put in in the middle and deleted again, in turn."""
    for _ in range(times // 2):
        yield "insert-rows,Sheet1,50,1"
        yield "delete-rows,Sheet1,50,1"


def deletions(times):
    """Rows deleted that hold ten formulas each."""
    for _ in range(times):
        yield "delete-rows,Sheet1,2,1"


def moves(times):
    """A block of ten by ten formulas moved beside the others and back, in turn."""
    for _ in range(times // 2):
        yield "move-block,B11:K20,AA11"
        yield "move-block,AA11:AJ20,B11"


def sets(times):
    """Numbers put into cells of a column."""
    for index in range(times):
        yield f"set,ZZ{index % 1_000 + 1},{index}"


def reads(times):
    """The texts of formulas, each of another one."""
    for index in range(times):
        yield f"formula,{column(index % WIDTH + 1)}{index // WIDTH + 1}"


def turns(times):
    """The last step undone and done again, in turn."""
    for _ in range(times // 2):
        yield "undo"
        yield "redo"


def returns(times):
    """A row put in after an undo, which it cuts off, and ten formulas read, which the undo leaves beyond."""
    for index in range(times):
        yield "insert-rows,Sheet1,50,1"
        for col in range(WIDTH):
            yield f"formula,{column(col + 1)}{index % 40 + 1}"
        yield "undo"


def links(times):
    """The precedents of the formula that mentions a name."""
    for _ in range(times):
        yield "precedents,B1"


def chained(*parts):
    for part in parts:
        yield from part


# The title, the words, the sizes, the workbook of a size, and the operations.
WORKLOADS = (
    ("a row put in, and deleted", [], SIZES, formulas, inserts),
    ("a row put in and deleted, undone and done again", [], SIZES, lambda n: chained(formulas(n), inserts(2)), turns),
    ("a row deleted that holds ten formulas", [], LARGE, formulas, deletions),
    ("a row deleted that holds ten formulas, undone and done again", [], LARGE, lambda n: chained(formulas(n), deletions(1)), turns),
    ("a block of ten by ten moved", [], SIZES, formulas, moves),
    ("a block of ten by ten moved, undone and done again", [], SIZES, lambda n: chained(formulas(n), moves(2)), turns),
    ("a number set, twenty steps kept", [], SIZES, formulas, sets),
    ("a number set, a thousand steps kept", ["--undo-limit", "1000"], SIZES, formulas, sets),
    ("a row put in, and deleted, a thousand steps kept", ["--undo-limit", "1000"], SIZES, formulas, inserts),
    ("a formula read after a thousand operations", [], SIZES, lambda n: chained(formulas(n), inserts(1_000)), reads),
    ("a row put in after an undo, ten formulas read, and undone", [], SIZES, formulas, returns),
    ("the precedents of a formula with a name", [], FEW, names, links),
)
# What one formula takes of memory.
STORES = (("formulas that are one tree", shared), ("formulas with trees of their own", formulas))


def run(command, lines):
    """Seconds of the processor, peak memory in bytes, and what was written to the second output."""
    with tempfile.TemporaryDirectory() as folder:
        script = os.path.join(folder, "script.csv")
        with open(script, "w", encoding="ascii") as file:
            file.writelines(f"{line}\n" for line in lines)
        with open(script, "rb") as source, open(os.path.join(folder, "told"), "w+b") as told:
            child = subprocess.Popen(command, stdin=source, stdout=subprocess.DEVNULL, stderr=told)
            _, status, usage = os.wait4(child.pid, 0)
            child.returncode = os.waitstatus_to_exitcode(status)
            told.seek(0)
            return usage.ru_utime + usage.ru_stime, usage.ru_maxrss * 1024, told.read().decode()


def counted(command, lines):
    """The instructions of a run."""
    valgrind = ["valgrind", "--tool=callgrind", "--callgrind-out-file=/dev/null"]
    return int(re.search(r"Collected : (\d+)", run([*valgrind, *command], lines)[2])[1])


def figures(command, make, operations, size, options):
    """What one operation takes, in microseconds or instructions, and what all of them take of memory."""
    bare, full = make(size), chained(make(size), operations(options.times))
    if options.counted:
        return (counted(command, full) - counted(command, bare)) / options.times, 0
    rounds = []
    for _ in range(options.rounds):
        without, with_them = run(command, make(size)), run(command, chained(make(size), operations(options.times)))
        rounds.append(((with_them[0] - without[0]) / options.times * 1e6, with_them[1] - without[1]))
    return tuple(statistics.median(figure) for figure in zip(*rounds))


def growth(sizes, told):
    """The growth of the last figure, as a factor for each doubling of the size."""
    if len(told) < 2 or min(told[-2:]) <= 0:
        return ""
    return f", {(told[-1] / told[-2]) ** (1 / math.log2(sizes[len(told) - 1] / sizes[len(told) - 2])):.2f} a doubling"


def main():
    parser = argparse.ArgumentParser()
    parser.add_argument("--counted", action="store_true")
    parser.add_argument("--rounds", type=int, default=3)
    parser.add_argument("--times", type=int, default=1_000)
    parser.add_argument("--program", default=os.path.join(os.path.dirname(os.path.abspath(__file__)), "..", "crates", "sheetrun", "out", "sheetrun"))
    parser.add_argument("names", nargs="*")
    options = parser.parse_args()
    unit = "instructions" if options.counted else "us"
    wanted = [it for it in WORKLOADS if not options.names or any(name in it[0] for name in options.names)]
    for title, words, sizes, make, operations in wanted:
        told = []
        for size in sizes:
            each, memory = figures([options.program, *words], make, operations, size, options)
            told.append(each)
            kept = "" if options.counted else f", {memory / 2**20:.1f} MiB"
            print(f"{title}, {size:,} beside: {each:,.2f} {unit}{growth(sizes, told)}{kept}", flush=True)
    for title, make in STORES if not options.names and not options.counted else ():
        empty, filled = run([options.program], []), run([options.program], make(100_000))
        print(f"100,000 {title}: {(filled[1] - empty[1]) / 100_000:.0f} bytes each", flush=True)


if __name__ == "__main__":
    sys.exit(main())
