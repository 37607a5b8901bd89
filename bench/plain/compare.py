"""Compares a built `sheetrun` with the plain machine on random scripts.

usage: compare.py PROGRAM [--runs N] [--seed S] [--commands N] [--mode MODE]
"""

import argparse
import os
import subprocess
import sys
import tempfile
from dataclasses import replace
from pathlib import Path

import generate
import plain


# How much is printed of files, of records and of their number.
SHOWN = 2000


def program_answer(program, case):
    """What the built program prints, and its status."""
    words = [program, *case.words]
    if case.streams == "full":
        with open("/dev/full", "wb") as full:
            done = subprocess.run(words, input=case.script(), stdout=full, check=False)
        return b"", done.returncode
    if case.streams == "folder":
        stdin = os.open(".", os.O_RDONLY)
        done = subprocess.run(words, stdin=stdin, stdout=subprocess.PIPE, check=False)
        os.close(stdin)
    else:
        done = subprocess.run(words, input=case.script(), stdout=subprocess.PIPE, check=False)
    return done.stdout, done.returncode


def plain_answer(case):
    """What the plain machine prints, and its status."""
    lines = []

    def read():
        if case.streams == "folder":
            raise IsADirectoryError
        return case.script()

    def write(line):
        if case.streams == "full":
            raise OSError
        lines.append(line)

    status = plain.run(case.words, read, write)
    return "".join(line + "\n" for line in lines).encode(), status


def write_files(case):
    for name, data in case.files.items():
        path = Path(name)
        path.parent.mkdir(parents=True, exist_ok=True)
        if data is None:
            path.mkdir()
        else:
            path.write_bytes(data)


def differ(program, case):
    return program_answer(program, case) != plain_answer(case)


def first_difference(program, case):
    """The number of the first line that differs, from 0, and the two answers."""
    (theirs, their_status), (ours, our_status) = program_answer(program, case), plain_answer(case)
    theirs, ours = theirs.split(b"\n"), ours.split(b"\n")
    at = 0
    while at < min(len(theirs), len(ours)) and theirs[at] == ours[at]:
        at += 1
    return at, (theirs[at:at + 1], their_status), (ours[at:at + 1], our_status)


def shortened(program, case):
    """The case with each record left out that the difference doesn't need."""
    if "script.txt" in case.words:
        return case
    at, _, _ = first_difference(program, case)
    shorter = replace(case, records=case.records[:at + 1])
    if differ(program, shorter):
        case = shorter
    size = len(case.records) // 2
    while size:
        at = 0
        while at < len(case.records):
            shorter = replace(case, records=case.records[:at] + case.records[at + size:])
            if differ(program, shorter):
                case = shorter
            else:
                at += size
        size //= 2
    return case


def cut(lines):
    """The lines, no longer than is shown."""
    return [line[:SHOWN] for line in lines]


def show_difference(program, case):
    """Prints the first line that differs."""
    at, (theirs, their_status), (ours, our_status) = first_difference(program, case)
    print(f"  line {at + 1}: the program {cut(theirs)}, the plain machine {cut(ours)}")
    if their_status != our_status:
        print(f"  status: the program {their_status}, the plain machine {our_status}")
    sys.stdout.flush()


def show_case(case):
    """Prints the words, the files and the script."""
    print(f"  words: {case.words}")
    for name, data in case.files.items():
        print(f"  file {name}: {data and data[:SHOWN]!r}")
    for record in case.records[:SHOWN]:
        print("    " + repr(record)[2:-1][:SHOWN])
    sys.stdout.flush()


def main():
    reader = argparse.ArgumentParser()
    reader.add_argument("program")
    reader.add_argument("--runs", type=int, default=100)
    reader.add_argument("--seed", type=int, default=1)
    reader.add_argument("--commands", type=int, default=60)
    reader.add_argument("--mode", choices=generate.MODES)
    words = reader.parse_args()
    program = os.path.abspath(words.program)
    different = 0
    for run in range(words.runs):
        seed = words.seed + run
        mode = words.mode or generate.TURNS[seed % len(generate.TURNS)]
        case = generate.make(mode, seed, words.commands)
        with tempfile.TemporaryDirectory() as folder:
            os.chdir(folder)
            write_files(case)
            # Twice, since a day may end between the two.
            if differ(program, case) and differ(program, case):
                different += 1
                print(f"seed {seed}, mode {mode}:")
                show_difference(program, case)
                show_case(case if mode == "edges" else shortened(program, case))
            os.chdir("/")
    print(f"{words.runs} runs compared, {different} differ")
    return 1 if different else 0


if __name__ == "__main__":
    sys.exit(main())
