"""Refuses each allocation of a run in turn, one at a time, and goes on behind it.

    python3 bench/refused_calls.py [PROGRAM] [--random N] [--seed S] [--many N]

PROGRAM is crates/short_memory/out/short_memory where no word is given: it answers a command that wanted memory by the line
`no memory`, and the next one by the workbook as it was before. The scripts are those of bench/refused_memory.py, those below,
and N random ones of bench/plain (20, from seed 1 on). Each is run once with all memory; then once for each of its
allocations, with that one refused; of a script with more than --many allocations (1,000) so many are tried, at even distances.
All other answers must be those of the script without the command that wanted memory, whichever values, formulas, links, undo
and redo they rest on. A run may also end with status 7 where there is no memory to begin or to read the records, after a
front of what the whole run prints. Each other end is printed. The last line of a script counts the runs.
"""
import argparse
import csv
import io
import os
import sys
import tempfile

HERE = os.path.dirname(os.path.abspath(__file__))
sys.path.insert(0, HERE)
sys.path.insert(0, os.path.join(HERE, "plain"))

import generate
from refused_memory import built_library, ended, scripts

WANTING = b"no memory"
# A recalculation at each kind of change: sums of a growing block, a chain, look-ups, a cycle, a name, and where a formula is.
RECALCULATED = b"""\
set,A1,1
set,A2,2
set,A3,3
set,B1,=SUM(A$1:A1)
set,B2,=SUM(A$1:A2)
set,B3,=SUM(A$1:A3)*Rate
add-name,Rate,,=B1+1
set,C1,"=VLOOKUP(2,A1:B3,2)"
set,C2,=C1+B3
set,C3,=C2&ROW()
value,C3
set,A1,5
value,C3
value,B3
insert-rows,Sheet1,2,1
value,C4
dependents,A1
set,A2,=C4
value,A2
value,B4
clear,A2
value,C4
change-name,Rate,,=A1*2
name-value,Rate,Sheet1
value,C4
undo
value,C4
undo
undo
undo
value,C3
redo
value,C4
move-rows,Sheet1,1,1,4
value,C4
undo
value,C4
copy,B1:B4
paste,D1
value,D4
try,Sheet1,=SUM(A1:D4)
begin
set,A1,7
delete-rows,Sheet1,2,1
set,E1,=SUM(A:A)
commit
value,C3
undo
value,C4
redo
value,C3
cut,A1:B3
paste,F2
value,C3
value,G4
undo
value,C3
"""
OWN = (
    ("a recalculation after each kind of change", RECALCULATED),
    ("a batch of twenty inserts, undone and done again",
     b"set,A1,1\nset,A40,=SUM(A1:A9)+A1\nvalue,A40\nbegin\n" + b"insert-rows,Sheet1,1,1\n" * 20
     + b"commit\nformula,A60\nvalue,A60\nundo\nvalue,A40\nformula,A40\nredo\nvalue,A60\n"),
    ("a settled line", b"set,A1,1\nset,B1,=A1+SUM(A1:A3)\n" + b"insert-rows,Sheet1,1,1\ndelete-rows,Sheet1,1,1\n" * 2_110
     + b"undo\nvalue,B1\nundo\nredo\nformula,B1\nset,C1,=B1\nvalue,C1\n"),
)
MODES = ("mixed", "undo", "clipboard", "names")


def as_book(text, name):
    """The commands that make the first sheet what the file says."""
    made = [["rename-sheet", "Sheet1", name]]
    for row, fields in enumerate(csv.reader(io.StringIO(text.decode())), 1):
        made += [["set", f"{chr(ord('A') + col)}{row}", field] for col, field in enumerate(fields) if field]
    out = io.StringIO()
    csv.writer(out, lineterminator="\n").writerows(made)
    return out.getvalue().encode()


def chosen(count, seed):
    """Each script that needs no word and no folder: title and text."""
    yield from OWN
    for title, words, text, files in scripts(HERE):
        if not words or list(files) == words == ["invoice.csv"]:
            yield title, b"".join(as_book(book, name.removesuffix(".csv")) for name, book in files.items() if words) + text
    for number in range(count):
        mode = MODES[number % len(MODES)]
        made = generate.make(mode, seed + number, 60).records
        yield f"{mode}, seed {seed + number}", b"".join(record for record in made if records(record) == [record])


def records(text):
    """The records of a script, each with its end; None where one has a line break in it or there is an odd one."""
    lines = text.splitlines(keepends=True)
    return None if any(line.count(b'"') % 2 or b"\r" in line or not line.strip() for line in lines) else lines


def without(program, lines, index, folder, library, known):
    """What the script prints without one of its records, and its status."""
    if index not in known:
        known[index] = ended(program, [], b"".join(lines[:index] + lines[index + 1:]), folder, library, 0, 0)
    return known[index]


def as_it_may(program, lines, whole, seen, folder, library, known):
    """How a run ended: `want` or `all`, or None where it ended as it may not."""
    printed, end = seen
    if end == 7 and whole[0].startswith(printed):
        return "ended"
    answers = printed.splitlines(keepends=True)
    if WANTING + b"\n" not in answers:
        return "all" if seen == whole else None
    index = answers.index(WANTING + b"\n")
    others = b"".join(answers[:index] + answers[index + 1:]), end
    return "want" if others == without(program, lines, index, folder, library, known) else None


def tried(program, title, text, folder, library, many):
    """Whether each run of a script ended as it may."""
    lines = records(text)
    if lines is None:
        print(f"{title}: left out, since its records aren't its lines")
        return True
    whole = ended(program, [], text, folder, library, 0, 0)
    with open(os.path.join(folder, "count"), encoding="ascii") as file:
        count = int(file.read())
    counts, known = {"want": 0, "all": 0, "ended": 0, None: 0}, {}
    step = -(-count // many)
    for number in range(1, count + 1, step):
        seen = ended(program, [], text, folder, library, number, number)
        how = as_it_may(program, lines, whole, seen, folder, library, known)
        counts[how] += 1
        if how is None:
            print(f"{title}: allocation {number}: status {seen[1]}, printed {seen[0]!r}")
    print(f"{title}: status {whole[1]}, {count} allocations, {-(-count // step)} refused, {counts['want']} runs with a command that "
          f"wanted memory, {counts['ended']} ended for want of it, {counts['all']} as with all memory, {counts[None]} otherwise", flush=True)
    return counts[None] == 0


def main():
    words = argparse.ArgumentParser()
    words.add_argument("program", nargs="?", default=os.path.join(HERE, "..", "crates", "short_memory", "out", "short_memory"))
    words.add_argument("--random", type=int, default=20)
    words.add_argument("--seed", type=int, default=1)
    words.add_argument("--many", type=int, default=1_000)
    given = words.parse_args()
    program = os.path.abspath(given.program)
    with tempfile.TemporaryDirectory() as folder:
        library = built_library(folder, HERE)
        ends = [tried(program, title, text, folder, library, given.many) for title, text in chosen(given.random, given.seed)]
    return 0 if all(ends) else 1


if __name__ == "__main__":
    sys.exit(main())
