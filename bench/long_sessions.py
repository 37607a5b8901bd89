"""Compares a built program with the plain machine over long sessions of structural operations.

    python3 bench/long_sessions.py [PROGRAM] [--sessions N] [--operations 10000] [--seed S] [--keep DIR]

PROGRAM is crates/sheetrun/out/sheetrun where no word is given. A session has a workbook of some sheets with a few dozen formulas and
names, and a limit of 0, 1, 20 or 1,000 steps of undo, in turns. Its operations put rows and columns in, delete and move them, move
blocks, add and drop sheets, undo and redo, now and then many at once, and some stand in a batch, of which a few are long. So many of
them are accepted as --operations says. Between them formulas are set anew for those that got lost. It goes by stretches: in some
nothing is read, in some formulas of a sample are, in some values, links and names too; at the end all is read.

What comes next is drawn by the plain machine's own workbook (bench/plain), so that what is read is there; its answers are the lines
that the program has to print. A session is drawn by its seed alone: that of the first is S (1), and each later one's is one more. For
each session it prints the limit, the commands, the operations of each kind, the longest way that undo had at once, and the seconds of
both; where the program prints something else, the first line that differs, and the script up to there is kept in a folder of DIR
(long_sessions_kept in the folder for temporary files). Status 1 where a session differs. The plain machine took 12 to 18 s of the
processor for each of the first four sessions, on a busy machine.
"""
import argparse
import os
import random
import subprocess
import sys
import tempfile
import time
from collections import Counter

HERE = os.path.dirname(os.path.abspath(__file__))
sys.path.insert(0, os.path.join(HERE, "plain"))

import grammar
import script
from case import line
from workbook import Formula, Session

LIMITS = (0, 1, 20, 1_000)
# The day that formulas see is never read.
TODAY = 45_292
# Where operations are made; how many formulas and filled cells there are at least, and sheets at most.
ROWS, COLS = 40, 14
FORMULAS, CELLS, SHEETS = 36, 80, 3
NAMES = ("RATE", "PART", "LIST")
KINDS = {
    "insert-rows": 20, "delete-rows": 20, "move-rows": 14, "insert-cols": 8, "delete-cols": 8, "move-cols": 8, "move-block": 14,
    "add-sheet": 2, "drop-sheet": 0.4, "undo": 6, "begin": 2,
}
# How long a stretch is, and what is read in it.
STRETCHES = (50, 300, 1_000, 1_000, 5_000)
READS = ("nothing", "formulas", "values", "values")
# How many operations a batch has, and how many steps are undone at once: now and then FAR.
BATCHES = (1, 2, 5, 20, 200, 1_500)
UNDOS = (1, 1, 1, 1, 2, 2, 3, 5, 8, 25)
FAR = 300


class Maker:
    """Draws the records of a session, and has the plain machine answer each."""

    def __init__(self, seed, limit):
        self.draw = random.Random(f"long session {seed}")
        self.session = Session(limit, TODAY)
        self.session.add_sheet("Sheet1")
        self.session.done.clear()
        self.records, self.lines, self.counts = [], [], Counter()
        self.reads, self.batch_left, self.added, self.farthest = READS[0], 0, 0, 0

    def one_in(self, count):
        return self.draw.randrange(count) == 0

    def tell(self, *fields):
        """Has a record answered; whether it was accepted."""
        record = line(fields)
        action, said = script.command(next(script.records(record)))
        reply, refused = script.answer(self.session, action, said)
        self.records.append(record)
        self.lines.append(script.line(reply).encode())
        return not refused

    # What is there.

    def book(self):
        return self.session.book

    def sheet(self):
        return self.draw.choice(self.book().sheets)[1]

    def address(self, place):
        number, row, col = place
        return f"{self.book().sheet_name(number)}!{grammar.column_letters(col)}{row}"

    def formula_places(self):
        return [place for place, content in self.book().cells.items() if isinstance(content, Formula)]

    # Formulas.

    def corner(self):
        row, col = self.draw.randint(1, ROWS), self.draw.randint(1, COLS)
        if self.one_in(150):
            row, col = self.draw.choice(((grammar.ROWS, col), (row, grammar.COLUMNS)))
        fixed = self.draw.choice((("", ""), ("", ""), ("$", ""), ("", "$"), ("$", "$")))
        return f"{fixed[0]}{grammar.column_letters(col)}{fixed[1]}{row}"

    def reference(self):
        front = f"{self.sheet()}!" if self.one_in(3) else ""
        return front + self.corner() + (f":{self.corner()}" if self.one_in(2) else "")

    def part(self):
        text = self.reference()
        if ":" in text:
            return f"{self.draw.choice(('SUM', 'MAX', 'COUNT', 'ROWS', 'COUNTA'))}({text})"
        return self.draw.choice((text, text, f"{text}*2", f"IFERROR({text},7)", self.draw.choice(NAMES), f"ROW({text})"))

    def text(self):
        if self.one_in(3):
            return str(self.draw.randint(-99, 999))
        return "=" + self.draw.choice("+-&").join(self.part() for _ in range(self.draw.randint(1, 3)))

    def name_text(self):
        first, second = (f"${grammar.column_letters(self.draw.randint(1, COLS))}${self.draw.randint(1, ROWS)}" for _ in range(2))
        return self.draw.choice((f"={self.sheet()}!{first}*2", f"=SUM({self.sheet()}!{first}:{second})", f"={self.sheet()}!{first}"))

    def fill(self):
        """Sets a cell."""
        place = f"{self.sheet()}!{grammar.column_letters(self.draw.randint(1, COLS))}{self.draw.randint(1, ROWS)}"
        self.tell("set", place, self.text())

    def refill(self):
        """Sets cells anew where some got lost, and now and then a name."""
        if not self.book().sheets:
            return
        while len(self.book().cells) < CELLS or len(self.formula_places()) < FORMULAS:
            self.fill()
        if self.one_in(200):
            self.tell("change-name", self.draw.choice(NAMES), "", self.name_text())

    # Operations.

    def count(self):
        return str(self.draw.choice((1, 1, 1, 1, 1, 2, 3)) if not self.one_in(300) else self.draw.choice((100, 39_000)))

    def at(self, axis):
        if axis == "rows":
            return str(self.draw.randint(1, ROWS) if not self.one_in(100) else self.draw.choice((grammar.ROWS, 500)))
        return grammar.column_letters(self.draw.randint(1, COLS) if not self.one_in(100) else grammar.COLUMNS)

    def block(self):
        row, col = self.draw.randint(1, ROWS), self.draw.randint(1, COLS)
        last_row, last_col = row + self.draw.choice((0, 0, 1, 4)), col + self.draw.choice((0, 0, 1, 2))
        return f"{self.sheet()}!{grammar.column_letters(col)}{row}:{grammar.column_letters(last_col)}{last_row}"

    def operation(self):
        kind = self.draw.choices(list(KINDS), list(KINDS.values()))[0]
        if kind == "undo":
            self.undo()
        elif kind == "begin":
            self.begin()
        elif kind == "add-sheet" or not self.book().sheets:
            self.add_sheet()
        elif kind == "drop-sheet":
            if len(self.book().sheets) > 1:
                self.done("drop-sheet", self.sheet())
        elif kind == "move-block":
            self.done(kind, self.block(), f"{self.sheet()}!{self.at('cols')}{self.at('rows')}")
        else:
            axis = kind.split("-")[1]
            fields = [self.sheet(), self.at(axis), self.count()]
            self.done(kind, *fields, *([self.at(axis)] if kind.startswith("move") else []))

    def done(self, kind, *fields):
        """Has an operation answered, and counts it where it is accepted."""
        accepted = self.tell(kind, *fields)
        self.counts[kind] += accepted
        if accepted and self.batch_left:
            self.batch_left -= 1
            if not self.batch_left:
                self.done("commit")
        return accepted

    def add_sheet(self):
        if len(self.book().sheets) < SHEETS:
            self.added += 1
            self.done("add-sheet", f"S{self.added}")

    def undo(self):
        """Undoes some steps, and does some of them again."""
        if self.batch_left:
            return
        steps = 0
        for _ in range(FAR if self.one_in(60) else self.draw.choice(UNDOS)):
            if not self.done("undo"):
                break
            steps += 1
            self.read()
        self.farthest = max(self.farthest, steps)
        for _ in range(self.draw.randint(0, steps) if not self.one_in(3) else steps):
            self.done("redo")
            self.read()

    def begin(self):
        if not self.batch_left:
            self.done("begin")
            self.batch_left = self.draw.choice(BATCHES)

    # Reads.

    def read(self):
        """Reads something, as the stretch says."""
        if self.reads == "nothing" or not self.one_in(6):
            return
        # In a batch no value can be read.
        if self.reads == "formulas" or self.one_in(3) or self.batch_left and not self.one_in(10):
            self.read_formula()
        else:
            self.read_value()

    def sample(self):
        places = self.formula_places()
        return self.address(self.draw.choice(places)) if places else "A1"

    def read_formula(self):
        for _ in range(self.draw.choice((1, 1, 2, 5))):
            self.tell(self.draw.choice(("formula", "content")), self.sample())

    def read_value(self):
        for _ in range(self.draw.choice((1, 1, 2, 5))):
            self.tell("value", self.sample())
        if self.one_in(4):
            self.tell(self.draw.choice(("precedents", "dependents")), self.sample())
        if self.one_in(4) and self.book().sheets:
            self.tell("name-value", self.draw.choice(NAMES), self.sheet())

    def read_all(self):
        for place in sorted(self.book().cells):
            for word in ("content", "value"):
                self.tell(word, self.address(place))
        for place in sorted(self.formula_places()):
            for word in ("precedents", "dependents"):
                self.tell(word, self.address(place))
        for name in NAMES:
            for _, sheet in self.book().sheets:
                self.tell("name-value", name, sheet)

    # A session.

    def begin_workbook(self):
        self.add_sheet()
        for name in NAMES:
            self.tell("add-name", name, "", self.name_text())
        for _ in range(CELLS):
            self.fill()

    def made(self, operations):
        """The records of a session, and the lines that answer them."""
        self.begin_workbook()
        left = 0
        while self.counts.total() < operations:
            if left <= 0:
                left, self.reads = self.draw.choice(STRETCHES), self.draw.choice(READS)
            before = self.counts.total()
            self.operation()
            self.refill()
            self.read()
            left -= self.counts.total() - before
        if self.batch_left:
            self.tell("commit")
        self.read_all()
        # All the way back, and forth again.
        while self.tell("undo"):
            pass
        self.read_all()
        while self.tell("redo"):
            pass
        self.read_all()
        return self.records, self.lines


def printed(program, limit, records):
    """The lines that the program prints, its status, and the seconds of the processor."""
    with tempfile.TemporaryFile() as source, tempfile.TemporaryFile() as sink:
        source.writelines(records)
        source.seek(0)
        child = subprocess.Popen([program, "--undo-limit", str(limit)], stdin=source, stdout=sink)
        _, status, usage = os.wait4(child.pid, 0)
        child.returncode = os.waitstatus_to_exitcode(status)
        sink.seek(0)
        return sink.read().splitlines(), child.returncode, usage.ru_utime + usage.ru_stime


def compared(program, seed, limit, operations, place):
    """Whether the program answers a session as the plain machine does."""
    maker = Maker(seed, limit)
    begun = time.process_time()
    records, lines = maker.made(operations)
    ours = time.process_time() - begun
    theirs, status, seconds = printed(program, limit, records)
    kinds = ", ".join(f"{count:,} {kind}" for kind, count in maker.counts.most_common())
    print(f"seed {seed}, limit {limit:,}: {len(records):,} commands, {maker.counts.total():,} operations ({kinds}), at most {maker.farthest}"
          f" undone at once; plain machine {ours:.1f} s, program {seconds:.1f} s")
    if theirs == lines and status == 0:
        return True
    at = next((at for at, (one, other) in enumerate(zip(theirs, lines)) if one != other), min(len(theirs), len(lines)))
    os.makedirs(place, exist_ok=True)
    path = os.path.join(place, f"seed_{seed}_limit_{limit}.csv")
    with open(path, "wb") as file:
        file.writelines(records[:at + 1])
    print(f"  differs at line {at + 1} of {len(lines):,}, {records[at:at + 1]}: the program {theirs[at:at + 1]}, the plain machine"
          f" {lines[at:at + 1]}; status {status}; script in {path}")
    return False


def main(words):
    options = argparse.ArgumentParser()
    options.add_argument("program", nargs="?", default=os.path.join(HERE, "..", "crates", "sheetrun", "out", "sheetrun"))
    options.add_argument("--sessions", type=int, default=len(LIMITS))
    options.add_argument("--operations", type=int, default=10_000)
    options.add_argument("--seed", type=int, default=1)
    options.add_argument("--keep", default=os.path.join(tempfile.gettempdir(), "long_sessions_kept"))
    said = options.parse_args(words)
    different = 0
    for seed in range(said.seed, said.seed + said.sessions):
        limit = LIMITS[seed % len(LIMITS)]
        different += not compared(os.path.abspath(said.program), seed, limit, said.operations, said.keep)
        sys.stdout.flush()
    print(f"{said.sessions} sessions compared, {different} differ")
    return 1 if different else 0


if __name__ == "__main__":
    sys.exit(main(sys.argv[1:]))
