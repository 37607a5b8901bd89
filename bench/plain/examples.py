"""Holds the plain machine against the examples that stand in docs/FORMULAS.md and on the page of
functions."""

import re
import sys
from pathlib import Path

import script
from workbook import Session

TOP = Path(__file__).parents[2]
PAGE = TOP / "docs" / "FORMULAS.md"
FUNCTIONS = TOP / "crates" / "function_cases" / "data" / "FUNCTIONS.md"
# The cells of the page's examples, and its day.
CELLS = "set,A1,1\nset,B1,5\nset,C1,9\nset,A2,x\nset,B2,y\nset,C2,z\n"
TODAY = 45351


def rows(page, heading):
    """The rows of the first table behind a heading."""
    lines = page[page.index(heading):].splitlines()
    table = []
    for line in lines:
        if line.startswith("|"):
            table.append([cell.strip() for cell in line.strip("|").split(" | ")])
        elif table:
            break
    return table[2:]


def calls(page):
    """The rows of all tables whose first cell is a call between backticks, and their values."""
    found = re.findall(r"^\| `(=.*?)` \| (.*?) \|", page, re.MULTILINE)
    return [(example, value.strip("`")) for example, value in found]


def reply(text, command):
    """The last line that answers a script and one more command."""
    session, lines = Session(20, TODAY), []
    session.add_sheet("Sheet1")
    session.done.clear()
    quoted = ",".join('"' + field.replace('"', '""') + '"' for field in command)
    script.run(session, (text + quoted + "\n").encode(), False, lines.append)
    return lines[-1]


def main():
    page = PAGE.read_text()
    wrong = 0
    cases = []
    for _, example, value in rows(page, "## Functions"):
        cases.append((CELLS, example.strip("`"), "value", value.strip("`")))
    for example, printed in rows(page, "## The canonical text"):
        text = re.fullmatch("`(=[^`]*)`.*", printed)[1]
        cases.append(("", example.strip("`"), "formula", text))
    for example, _, value in rows(page, "## Grammar"):
        cases.append(("", example.strip("`"), "value", value.split(":")[0]))
    for example, value in calls(FUNCTIONS.read_text()):
        cases.append((CELLS, example, "value", value))
    for before, formula, command, wanted in cases:
        text = before + 'set,Z9,"' + formula.replace('"', '""') + '"\n'
        got = reply(text, [command, "Z9"])
        if got != wanted:
            wrong += 1
            print(f"{formula}: {got}, and the page says {wanted}")
    print(f"{len(cases)} examples, {wrong} differ")
    return 1 if wrong else 0


if __name__ == "__main__":
    sys.exit(main())
