"""Times the built program on long scripts: seconds and peak memory of each run.

    python3 bench/first_path.py [PROGRAM]

PROGRAM is crates/sheetrun/out/sheetrun where no word is given. The inputs are made in a folder of
their own and taken away again.
"""
import os
import resource
import subprocess
import sys
import tempfile
import time

LIMIT = 67_108_864


def numbers(count):
    """`count` numbers in the first columns, and one value."""
    yield from (f"set,{'ABCDEFGH'[i // 40_000]}{i % 40_000 + 1},{i}\n" for i in range(count))
    yield "value,A1\n"


def chain(count):
    """A column of formulas, each one more than the cell above, and the value of the last."""
    yield "set,A1,1\n"
    yield from (f"set,A{row},=A{row - 1}+1\n" for row in range(2, count + 1))
    yield f"value,A{count}\n"


def filled(front, piece, back, size):
    """`front`, then `piece` again and again, and `back` at the end: so many bytes in all."""
    room = size - len(front) - len(back)
    block = piece * (65_536 // len(piece))
    yield front
    while room > 0:
        yield block[:room]
        room -= min(room, len(block))
    yield back


CASES = [
    ("100,000 numbers and one value", lambda: numbers(100_000)),
    ("200,000 numbers and one value", lambda: numbers(200_000)),
    ("a chain of 10,000 formulas", lambda: chain(10_000)),
    ("a chain of 20,000 formulas", lambda: chain(20_000)),
    ("64 MiB of records", lambda: filled("", "value,A1\n", "", LIMIT)),
    ("64 MiB and one byte", lambda: filled("", "value,A1\n", "", LIMIT + 1)),
    ("one text of 64 MiB", lambda: filled("set,A1,", "x", "\n", LIMIT)),
    ("one formula of 64 MiB", lambda: filled("set,A1,=", "1+", "1\n", LIMIT)),
]


def measured(program, script, output):
    """Seconds, peak memory in MiB and status of one run."""
    start = time.monotonic()
    with open(script, "rb") as source, open(output, "wb") as sink:
        child = subprocess.Popen([program], stdin=source, stdout=sink)
        _, status, usage = os.wait4(child.pid, 0)
        child.returncode = os.waitstatus_to_exitcode(status)
    return time.monotonic() - start, usage.ru_maxrss / 1024, child.returncode


def last_line(path):
    with open(path, "rb") as file:
        file.seek(max(os.path.getsize(path) - 80, 0))
        lines = file.read().split(b"\n")
    return lines[-2].decode(errors="replace") if len(lines) > 1 else ""


def main(words):
    here = os.path.dirname(os.path.abspath(__file__))
    program = words[0] if words else os.path.join(here, "..", "crates", "sheetrun", "out", "sheetrun")
    resource.setrlimit(resource.RLIMIT_STACK, (8 << 20, 8 << 20))
    with tempfile.TemporaryDirectory() as folder:
        script, output = os.path.join(folder, "script.csv"), os.path.join(folder, "output")
        for name, lines in CASES:
            with open(script, "w", encoding="ascii") as file:
                file.writelines(lines())
            seconds, memory, status = measured(program, script, output)
            size = os.path.getsize(script)
            print(f"{name:32} {size:>11,} bytes  {seconds:7.2f} s  {memory:8.1f} MiB  status {status}  {last_line(output)}")


if __name__ == "__main__":
    main(sys.argv[1:])
