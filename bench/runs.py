"""Times whole runs of the built program: generated commands, a large book, a long script.

    python3 bench/runs.py [PROGRAM]

PROGRAM is crates/sheetrun/out/sheetrun where no word is given. Each line has the seconds of the processor, the peak memory and
the last line printed. Files are made in a folder of their own and taken away again.
"""
import os
import subprocess
import sys
import tempfile

MIB = 1_048_576


def book(path, rows):
    """A book of so many rows of 25 numbers."""
    row = ",".join(f"{index}.{index:06}" for index in range(25)) + "\n"
    with open(path, "w", encoding="ascii") as file:
        file.writelines(row for _ in range(rows))


def formula_book(path, rows):
    """A book of so many rows of two numbers and their product."""
    with open(path, "w", encoding="ascii") as file:
        file.writelines(f"{row},2,=A{row}*B{row}\n" for row in range(1, rows + 1))


def wide_book(path, size):
    """A book of long texts, of about so many bytes."""
    row = ",".join("x" * 420 for _ in range(4)) + "\n"
    with open(path, "w", encoding="ascii") as file:
        file.writelines(row for _ in range(size // len(row)))


def script(path, count):
    """A script of so many `set`s."""
    with open(path, "w", encoding="ascii") as file:
        file.writelines(f"set,{chr(ord('A') + index // 40_000)}{index % 40_000 + 1},{index}\n" for index in range(count))


def measured(program, words, folder):
    output = os.path.join(folder, "output")
    with open(os.devnull, "rb") as source, open(output, "wb") as sink:
        child = subprocess.Popen([program, *words], stdin=source, stdout=sink, cwd=folder)
        _, status, usage = os.wait4(child.pid, 0)
        child.returncode = os.waitstatus_to_exitcode(status)
    with open(output, "rb") as file:
        last = file.read().splitlines()[-1:] or [b""]
    return usage.ru_utime + usage.ru_stime, usage.ru_maxrss / 1024, last[0].decode()[:40], child.returncode


def main(words):
    here = os.path.dirname(os.path.abspath(__file__))
    program = os.path.abspath(words[0] if words else os.path.join(here, "..", "crates", "sheetrun", "out", "sheetrun"))
    with tempfile.TemporaryDirectory() as folder:
        book(os.path.join(folder, "some.csv"), 8_000)
        book(os.path.join(folder, "numbers.csv"), 40_000)
        formula_book(os.path.join(folder, "formulas.csv"), 40_000)
        wide_book(os.path.join(folder, "texts.csv"), 63 * MIB)
        script(os.path.join(folder, "sets.csv"), 1_000_000)
        with open(os.path.join(folder, "none.csv"), "w", encoding="ascii") as file:
            file.write("content,A1\n")
        for title, line in (
            ("--generate 1000", ["--generate", "1000"]),
            ("--generate 2000", ["--generate", "2000"]),
            ("a book of 200,000 numbers", ["--script", "none.csv", "some.csv"]),
            ("a book of 40,000 formulas", ["--script", "none.csv", "formulas.csv"]),
            ("a book of 1,000,000 numbers", ["--script", "none.csv", "numbers.csv"]),
            ("a book of 63 MiB of texts", ["--script", "none.csv", "texts.csv"]),
            ("a script of 1,000,000 sets", ["--script", "sets.csv"]),
        ):
            seconds, memory, last, status = measured(program, line, folder)
            print(f"{title:32}: {seconds:7.2f} s, {memory:7.1f} MiB, status {status}, {last}")


if __name__ == "__main__":
    main(sys.argv[1:])
