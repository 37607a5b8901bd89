"""Reads the end of a long chain of cells, before and after its start is changed.

    python3 bench/chain.py [PROGRAM] [--cells N ...] [--stack KIB] [--valgrind]

PROGRAM is crates/sheetrun/out/sheetrun where no word is given. A chain has N cells (1,000, 10,000, 100,000 and 1,000,000, which is as
many as a workbook may have), each the one before it plus 1, in columns of 40,000 rows side by side. The program gets a stack of KIB
(8,192). For each chain it prints the seconds by the clock in which the cells were set, the end was read first, and the start was changed
and the end read again; the seconds of the processor in all; the peak memory, which is not less than that of this script; and whether
both values are right. With --valgrind the smallest chain alone runs under valgrind's memcheck, and its errors are told. Status 1 where a
value is wrong, the program ends with another status than 0, or there are errors.
"""
import argparse
import os
import re
import resource
import subprocess
import sys
import tempfile
import time

HERE = os.path.dirname(os.path.abspath(__file__))
ROWS = 40_000
CELLS = (1_000, 10_000, 100_000, 1_000_000)
# What the start is, and what it is changed to.
FIRST, SECOND = 1, 501
ERRORS = re.compile(r"ERROR SUMMARY: (\d+) errors")


def place(index):
    """The places of a sheet, column by column."""
    return f"{chr(ord('A') + index // ROWS)}{index % ROWS + 1}"


def write_script(path, cells):
    with open(path, "w", encoding="ascii") as file:
        file.write(f"set,A1,{FIRST}\n")
        file.writelines(f"set,{place(index)},={place(index - 1)}+1\n" for index in range(1, cells))
        end = place(cells - 1)
        file.write(f"value,{end}\nset,A1,{SECOND}\nvalue,{end}\n")


def run(command, script, cells, stack):
    """The last three lines, when all cells were set, the end read, and it read again, how the run ended, and what it used."""

    def limited():
        resource.setrlimit(resource.RLIMIT_STACK, (stack * 1_024, resource.getrlimit(resource.RLIMIT_STACK)[1]))
        resource.setrlimit(resource.RLIMIT_CORE, (0, 0))

    times = {}
    count, tail = 0, b""
    begun = time.monotonic()
    with open(script, "rb") as source:
        child = subprocess.Popen(command, stdin=source, stdout=subprocess.PIPE, preexec_fn=limited)
    while piece := os.read(child.stdout.fileno(), 65_536):
        count += piece.count(b"\n")
        tail = (tail + piece)[-1_000:]
        for line in (cells, cells + 1, cells + 3):
            if count >= line:
                times.setdefault(line, time.monotonic() - begun)
    child.stdout.close()
    _, status, usage = os.wait4(child.pid, 0)
    child.returncode = os.waitstatus_to_exitcode(status)
    return tail.decode(errors="replace").splitlines()[-3:], list(times.values()), child.returncode, usage


def ended_right(lines, cells, status):
    return status == 0 and lines == [str(FIRST + cells - 1), "ok", str(SECOND + cells - 1)]


def timed(program, script, cells, stack):
    """Prints a line on a chain; whether all is right."""
    lines, times, status, usage = run([program], script, cells, stack)
    right = ended_right(lines, cells, status)
    told = "both right" if right else f"wrong: status {status}, the last lines {[line[:60] for line in lines]}"
    parts = [later - earlier for earlier, later in zip([0.0, *times], times)]
    named = ", ".join(f"{title} {part:.2f} s" for title, part in zip(("set", "read", "changed and read"), parts))
    print(f"a chain of {cells:9,}: {named or 'nothing printed'}; {usage.ru_utime + usage.ru_stime:.2f} s of the processor, "
          f"{usage.ru_maxrss / 1024:.1f} MiB; {told}", flush=True)
    return right


def checked(program, script, cells, stack, folder):
    """Runs a chain under valgrind, and prints its errors; whether there are none and all is right."""
    log = os.path.join(folder, "valgrind")
    lines, _, status, usage = run(["valgrind", f"--log-file={log}", program], script, cells, stack)
    with open(log, encoding="utf-8", errors="replace") as file:
        text = file.read()
    found = ERRORS.search(text)
    right = ended_right(lines, cells, status)
    count = int(found[1]) if found else None
    if count != 0:
        print(text)
    print(f"a chain of {cells:,} under valgrind: {'its errors are unknown' if count is None else f'{count:,} errors'}, "
          f"{usage.ru_utime + usage.ru_stime:.1f} s; {'both right' if right else f'wrong: status {status}, {lines}'}")
    return right and count == 0


def main(words):
    options = argparse.ArgumentParser()
    options.add_argument("program", nargs="?", default=os.path.join(HERE, "..", "crates", "sheetrun", "out", "sheetrun"))
    options.add_argument("--cells", type=int, nargs="+", default=CELLS)
    options.add_argument("--stack", type=int, default=8_192)
    options.add_argument("--valgrind", action="store_true")
    said = options.parse_args(words)
    program = os.path.abspath(said.program)
    ends = []
    with tempfile.TemporaryDirectory() as folder:
        script = os.path.join(folder, "script.csv")
        for cells in [min(said.cells)] if said.valgrind else said.cells:
            write_script(script, cells)
            ends.append(checked(program, script, cells, said.stack, folder) if said.valgrind else timed(program, script, cells, said.stack))
    return 0 if all(ends) else 1


if __name__ == "__main__":
    sys.exit(main(sys.argv[1:]))
