"""Times the built program on structural operations, and on books of many cells.

    python3 bench/structure.py [PROGRAM]

PROGRAM is crates/sheetrun/out/sheetrun where no word is given. Each operation's time is that of the processor, for the script
with the operations less that of the script without them. Memory is the peak of the run, and not less than
that of this script before it. The last row fills all cells that
a workbook may have, and asks for one more.
"""
import os
import subprocess
import sys
import tempfile

OPERATIONS = 1_000
ROWS = 40_000


def place(index, first=0):
    """The places of a sheet, column by column, from the column of this number on."""
    return f"{chr(ord('A') + first + index // ROWS)}{index % ROWS + 1}"


def formulas(count):
    """So many formulas in a column, each unlike every other from its own cell."""
    return (f"set,B{row + 1},=A{row + 1}*2+$A${row + 1}\n" for row in range(count))


def numbers(count):
    """So many numbers, column by column, beside the formulas."""
    return (f"set,{place(index, 3)},{index}\n" for index in range(count))


def operations():
    """Rows inserted and deleted in turn, in the middle of the formulas."""
    for _ in range(OPERATIONS // 2):
        yield "insert-rows,Sheet1,500,1\n"
        yield "delete-rows,Sheet1,500,1\n"


def measured(program, lines):
    """Seconds of the processor, peak memory in MiB, and the last line of a run."""
    with tempfile.TemporaryDirectory() as folder:
        script, output = os.path.join(folder, "script.csv"), os.path.join(folder, "output")
        with open(script, "w", encoding="ascii") as file:
            file.writelines(lines)
        with open(script, "rb") as source, open(output, "wb") as sink:
            child = subprocess.Popen([program], stdin=source, stdout=sink)
            _, status, usage = os.wait4(child.pid, 0)
            child.returncode = os.waitstatus_to_exitcode(status)
        with open(output, "rb") as file:
            last = file.read().splitlines()[-1:] or [b""]
        return usage.ru_utime + usage.ru_stime, usage.ru_maxrss / 1024, last[0].decode()


def chained(*parts):
    for part in parts:
        yield from part


def main(words):
    here = os.path.dirname(os.path.abspath(__file__))
    program = words[0] if words else os.path.join(here, "..", "crates", "sheetrun", "out", "sheetrun")
    for beside in (0, 100_000):
        for count in (0, 1_000, 2_000, 4_000):
            bare = measured(program, chained(formulas(count), numbers(beside)))
            full = measured(program, chained(formulas(count), numbers(beside), operations()))
            each = (full[0] - bare[0]) / OPERATIONS * 1e6
            print(f"{OPERATIONS:,} rows inserted and deleted, {count:5,} formulas, {beside:7,} numbers: {each:8.1f} us each, {full[1]:6.1f} MiB")
    for title, make in (("numbers", numbers), ("formulas", formulas)):
        count = 200_000 if title == "numbers" else 40_000
        run = measured(program, make(count))
        print(f"{count:,} {title} set: {run[0] / count * 1e6:6.2f} us each, {run[1]:6.1f} MiB")
    full = measured(program, chained((f"set,{place(index)},1\n" for index in range(880_000)), (f"set,{place(index)[0]}{place(index)}, \n" for index in range(120_000)), ["set,ZZ1,1\n"]))
    print(f"a workbook of all cells that it may have, and one more: {full[0]:.1f} s, {full[1]:.0f} MiB, {full[2]}")


if __name__ == "__main__":
    main(sys.argv[1:])
