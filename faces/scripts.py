"""Random scripts, answered by sheetrun and through faces of other languages: each line must be the same.

    python3 faces/scripts.py [--runs N] [--commands N] [--seed N] [--sheetrun WORDS] FACE ...

Each FACE gives the words that start a program which answers a script on standard input, as `python3 faces/python/replay.py`.
`--sheetrun` gives those that start sheetrun; without it that is the program that the gate builds in crates/sheetrun/out.
Status 1 where a line differs. The commands are those of docs/SCRIPT.md that ask a workbook for something; each address stands
behind its sheet's name between apostrophes, and each line ends with LF, also the last one.
"""
import argparse
import csv
import io
import random
import shlex
import subprocess
import sys
from pathlib import Path
from typing import Callable, Dict, List, Optional

ROOT = Path(__file__).resolve().parents[1]
PROGRAM = ROOT / "crates/sheetrun/out/sheetrun"
SHEETS = ["Sheet1", "Stock", "My Plan", "Two"]
WORDS = ["rate", "Total", "two", "A1"]
TEXTS = ["", "7", "-1.25", "TRUE", "'=1", "plain", "h\u00fcte", "=1/0", "=1+", "=rate", "=Total*2", "=POSTAGE(A1)", "=LEVY(B2*1000)"]
TEXTS += ["two\nlines", "a\\b", '"so"', "\U0001f600", "long " * 60, '=A1&"' + "x" * 300 + '"']

# How often a command is drawn, where that isn't once.
OFTEN = {"set": 14, "value": 9, "formula": 5, "undo": 2, "drop-sheet": 0.2, "begin": 0.4, "suspend": 0.2, "resume": 1, "try": 3}


def letters(col: int) -> str:
    """The letters of a column."""
    text = ""
    while col >= 0:
        text, col = chr(65 + col % 26) + text, col // 26 - 1
    return text


def address(row: int, col: int) -> str:
    return f"{letters(col)}{row + 1}"


class Scripts:
    """Draws commands: each as a record, with what it asks of a workbook."""

    def __init__(self, seed: int) -> None:
        self.draw = random.Random(seed)

    def sheet(self) -> str:
        return self.draw.choices(SHEETS, [6, 3, 1, 2])[0]

    def place(self) -> tuple:
        return self.sheet(), self.draw.randrange(8), self.draw.randrange(6)

    def block(self) -> tuple:
        sheet, top, left = self.place()
        return sheet, top, left, top + self.draw.randrange(3), left + self.draw.randrange(3)

    def formula(self) -> str:
        one, other = (address(*self.place()[1:]) for _ in range(2))
        sheet = self.draw.choice(["", "", f"'{self.sheet()}'!"])
        fixed = "$" + address(*self.place()[1:])
        return self.draw.choice(
            [
                f"={sheet}{one}+{other}",
                f"=SUM({sheet}{one}:{other})",
                f"=IF({one}>2,{other},\"no\")",
                f"={fixed}&\"x\"",
                f"=AVERAGE({one}:{other})*rate",
                f"=ROWS({one}:{other})+COUNT({sheet}{one}:{other})",
            ]
        )

    def text(self) -> str:
        return self.formula() if self.draw.random() < 0.6 else self.draw.choice(TEXTS)

    def name_text(self) -> str:
        return self.draw.choice(["=2", "='Sheet1'!$A$1*2", "=SUM('Stock'!$A$1:$B$3)", "=A1", "=Total", "no"])

    def scope(self) -> str:
        return self.draw.choice(["", "", self.sheet()])

    def command(self) -> List[str]:
        """A record."""
        words = list(RECORDS)
        (word,) = self.draw.choices(words, [OFTEN.get(word, 1) for word in words])
        return [word, *RECORDS[word](self)]

    def script(self, commands: int) -> List[List[str]]:
        """So many records, of which the first make sheets and a name."""
        begun = [["add-sheet", "Stock"], ["add-sheet", "Two"], ["add-name", "rate", "", "='Sheet1'!$A$1*2"]]
        return begun + [self.command() for _ in range(commands - len(begun))]


def quoted(sheet: str) -> str:
    return "'" + sheet.replace("'", "''") + "'!"


def at(drawn: tuple) -> str:
    return quoted(drawn[0]) + address(*drawn[1:])


def over(drawn: tuple) -> str:
    return quoted(drawn[0]) + address(*drawn[1:3]) + ":" + address(*drawn[3:])


def rows(draw: Scripts) -> List[str]:
    return [draw.sheet(), str(draw.draw.randrange(1, 9)), str(draw.draw.randrange(3))]


def cols(draw: Scripts) -> List[str]:
    return [draw.sheet(), letters(draw.draw.randrange(6)), str(draw.draw.randrange(3))]


def name(draw: Scripts) -> str:
    return draw.draw.choice(WORDS)


# The fields behind each command's word.
RECORDS: Dict[str, Callable[[Scripts], List[str]]] = {
    "set": lambda d: [at(d.place()), d.text()],
    "clear": lambda d: [over(d.block())],
    "insert-rows": rows,
    "delete-rows": rows,
    "move-rows": lambda d: [*rows(d), str(d.draw.randrange(1, 9))],
    "insert-cols": cols,
    "delete-cols": cols,
    "move-cols": lambda d: [*cols(d), letters(d.draw.randrange(6))],
    "move-block": lambda d: [over(d.block()), at(d.place())],
    "add-sheet": lambda d: [d.sheet()],
    "drop-sheet": lambda d: [d.sheet()],
    "rename-sheet": lambda d: [d.sheet(), d.sheet()],
    "clear-sheet": lambda d: [d.sheet()],
    "add-name": lambda d: [name(d), d.scope(), d.name_text()],
    "change-name": lambda d: [name(d), d.scope(), d.name_text()],
    "remove-name": lambda d: [name(d), d.scope()],
    "copy": lambda d: [over(d.block())],
    "cut": lambda d: [over(d.block())],
    "paste": lambda d: [at(d.place())],
    **{word: lambda d: [] for word in ("undo", "redo", "begin", "commit", "suspend", "resume")},
    **{word: lambda d: [at(d.place())] for word in ("value", "formula", "content", "precedents", "dependents")},
    "name-value": lambda d: [name(d), d.sheet()],
    "try": lambda d: [d.sheet(), d.text()],
}


def answers(words: str, script: bytes) -> List[str]:
    """The lines by which a program answers a script."""
    ran = subprocess.run(shlex.split(words), input=script, stdout=subprocess.PIPE)
    lines = ran.stdout.decode().split("\n")[:-1]
    return lines if ran.returncode == 0 else [*lines, f"status {ran.returncode}"]


def differing(records: List[List[str]], said: List[str], replies: List[str]) -> Optional[str]:
    """The first line of a face that differs from sheetrun's, if one does."""
    for number, record in enumerate(records):
        mine, right = (lines[number] if number < len(lines) else None for lines in (said, replies))
        if mine is None or mine != right:
            return f"record {number + 1}, {record}: {mine!r}, and {right!r} by sheetrun"
    return None if said == replies else f"more lines than the {len(records)} records: {[*said, *replies][-1]!r}"


def compared(seed: int, commands: int, sheetrun: str, faces: List[str]) -> List[str]:
    """How the faces differ over one script."""
    records = Scripts(seed).script(commands)
    script = io.StringIO()
    csv.writer(script, lineterminator="\n").writerows(records)
    written = script.getvalue().encode()
    replies = answers(sheetrun, written)
    found = [(face, differing(records, answers(face, written), replies)) for face in faces]
    return [f"seed {seed}, {face}: {what}" for face, what in found if what]


def main() -> int:
    words = argparse.ArgumentParser(description=__doc__.splitlines()[0])
    words.add_argument("--runs", type=int, default=50)
    words.add_argument("--commands", type=int, default=400)
    words.add_argument("--seed", type=int, default=1)
    words.add_argument("--sheetrun", default=shlex.quote(str(PROGRAM)))
    words.add_argument("faces", nargs="+", metavar="FACE")
    given = words.parse_args()
    for seed in range(given.seed, given.seed + given.runs):
        found = compared(seed, given.commands, given.sheetrun, given.faces)
        if found:
            print("\n".join(found))
            return 1
    print(f"{given.runs} scripts of {given.commands} commands, {len(given.faces)} faces: no line differs")
    return 0


if __name__ == "__main__":
    sys.exit(main())
