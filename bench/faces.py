"""Times calls of the libraries for C and Python: a number set, a value without marks, many values at once.

    python3 bench/faces.py [--cells N] [--rounds N] [--counted]

It wants what faces/build.sh makes. A column of numbers (100,000, or as many as --cells says) is set number by number, set once more,
set as texts, read cell by cell and read at once, and another one written at once, and so for half as many and a quarter, which shows
the growth. A line has the
nanoseconds of the processor that one call takes, or one cell where many are read at once, by the median of the rounds (3); with
--counted the instructions that valgrind's callgrind counts for the whole program in C, per cell.
"""
import argparse
import os
import re
import statistics
import subprocess
import sys
import tempfile
import time
from pathlib import Path

ROOT = Path(__file__).resolve().parent.parent
OUT = ROOT / "faces" / "out"
LIBRARY = ROOT / "crates" / "engine_c" / "out" / "libengine_c.a"
# How often all cells are read in one run of the program.
READS = 10


def kit():
    rt = subprocess.run(["sh", "-c", "command -v rt"], stdout=subprocess.PIPE, text=True, check=True).stdout.strip()
    return Path(rt).resolve().parent.parent


def built():
    """The program in C."""
    program = OUT / "bench"
    words = [os.environ.get("CC", "gcc"), "-std=c11", "-O2", "-Wall", "-Wextra", "-I", ROOT / "faces" / "c", "-o", program]
    subprocess.run([*words, ROOT / "bench" / "faces.c", LIBRARY, kit() / "c" / "liblibc_c.a"], check=True)
    return program


def in_c(program, cells, rounds):
    """What each line of the program says, by the median of the rounds."""
    found = {}
    for _ in range(rounds):
        said = subprocess.run([program, str(cells), str(READS)], stdout=subprocess.PIPE, text=True, check=True).stdout
        for line in said.splitlines():
            what, figure = line.split()
            found.setdefault(what, []).append(float(figure))
    return {what: statistics.median(figures) for what, figures in found.items()}


def instructions(program, cells):
    """The instructions of the whole program for so many cells."""
    with tempfile.NamedTemporaryFile() as file:
        words = ["valgrind", "--tool=callgrind", f"--callgrind-out-file={file.name}", program, str(cells), "1"]
        said = subprocess.run(words, stderr=subprocess.PIPE, stdout=subprocess.DEVNULL, text=True, check=True).stderr
    return int(re.search(r"Collected : (\d+)", said).group(1))


def in_python(cells):
    """What a call takes in Python."""
    sys.path.insert(0, str(ROOT / "faces" / "python"))
    from fazhundel import Block, Place, Workbook

    with Workbook() as book:
        sheet = book.add_sheet("Sheet")
        places = [Place(sheet, row, 0) for row in range(cells)]

        def timed(call):
            since = time.process_time()
            call()
            return 1e9 * (time.process_time() - since) / cells

        def each(call):
            for place in places:
                call(place)

        found = {"set_number": timed(lambda: each(lambda place: book.set_number(place, place.row)))}
        book.value(places[0])
        found["value"] = timed(lambda: each(book.value))
        found["values"] = timed(lambda: book.values(Block(sheet, 0, 0, cells - 1, 0)))
        texts = {place: str(place.row) for place in places}
        found["write_all"] = timed(lambda: book.write_all(texts))
    return found


def main():
    words = argparse.ArgumentParser(description=__doc__.splitlines()[0])
    words.add_argument("--cells", type=int, default=100_000)
    words.add_argument("--rounds", type=int, default=3)
    words.add_argument("--counted", action="store_true")
    words = words.parse_args()
    program = built()
    sizes = [words.cells // 4, words.cells // 2, words.cells]
    if words.counted:
        for cells in sizes:
            print(f"{cells} cells: {instructions(program, cells) / cells:.0f} instructions a cell")
        return
    for face, timed in (("C", lambda cells: in_c(program, cells, words.rounds)), ("Python", in_python)):
        found = [timed(cells) for cells in sizes]
        for what in found[0]:
            print(f"{face} {what}: " + ", ".join(f"{it[what]:.0f} ns of {cells}" for it, cells in zip(found, sizes)))


if __name__ == "__main__":
    main()
