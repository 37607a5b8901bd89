#!/usr/bin/env python3
"""Starts the real program with what no test inside the gate can hand to it.

    python3 tests/real_program.py

The program is crates/sheetrun/out/sheetrun, as `rt ci` leaves it. Status 1 where something differs.
"""
import subprocess
import sys
from pathlib import Path

PROGRAM = Path(__file__).resolve().parent.parent / "crates" / "sheetrun" / "out" / "sheetrun"
USAGE = b"usage: sheetrun [--undo-limit N] [--strict] [--script FILE] [--generate N] [BOOK.csv ...]\n"

# What the case shows, the words, the script, and what is to be printed with which status.
CASES = [
    ("a word that isn't UTF-8", [b"\xff.csv"], b"", USAGE, 2),
    ("a word that isn't UTF-8 behind one that is", [b"--strict", b"a\xc3"], b"", USAGE, 2),
    ("the value of an option that isn't UTF-8", [b"--script=\xff"], b"", USAGE, 2),
    ("the word U+FFFD names a book", ["\ufffd".encode()], b"", "book \ufffd: missing\n".encode(), 4),
    ("no words and a script", [], b"set,A1,=1+1\nvalue,A1\n", b"ok\n2\n", 0),
]


def main():
    if not PROGRAM.is_file():
        print(f"{PROGRAM} isn't there: rt ci makes it")
        return 1
    differ = 0
    for title, words, script, printed, status in CASES:
        ran = subprocess.run([PROGRAM, *words], input=script, stdout=subprocess.PIPE, timeout=60)
        if (ran.stdout, ran.returncode) != (printed, status):
            differ += 1
            print(f"{title}: {ran.stdout!r}, status {ran.returncode}")
    print(f"{len(CASES)} starts of the real program, {differ} differ")
    return 1 if differ else 0


if __name__ == "__main__":
    sys.exit(main())
