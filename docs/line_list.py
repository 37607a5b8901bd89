"""How many lines each crate has: of its program, of its definitions and of its proofs, and how many edits.

    python3 docs/line_list.py            prints the table
    python3 docs/line_list.py --write    puts it into docs/FIGURES.md in place of the one there

Counted are all lines of the .rt and .antt files of src/, specs/ and proofs/, and the wrong bodies of edits/ and must-fail/.
"""
import re
import sys
from pathlib import Path

ROOT = Path(__file__).resolve().parent.parent
PAGE = ROOT / "docs/FIGURES.md"
HEAD = "| Crate | src | specs | proofs | edits |"


def crates():
    """The crates of crates.txt, in its order."""
    lines = (ROOT / "crates.txt").read_text().splitlines()
    return [line.split()[0].rstrip(":") for line in lines if ":" in line and not line.startswith("#")]


def lines_in(folder):
    files = [path for path in folder.rglob("*") if path.suffix in (".rt", ".antt")]
    return sum(len(path.read_text(encoding="utf-8").splitlines()) for path in files)


def counts(crate):
    folder = ROOT / "crates" / crate
    edits = [path for name in ("edits", "must-fail") for path in (folder / name).glob("*.edit")]
    return [lines_in(folder / part) for part in ("src", "specs", "proofs")] + [len(edits)]


def row(name, numbers):
    return f"| {name} | " + " | ".join(f"{number:,}" for number in numbers) + " |"


def table():
    rows = [(f"`{crate}`", counts(crate)) for crate in crates()]
    total = [sum(column) for column in zip(*(numbers for _, numbers in rows))]
    return "\n".join([HEAD, "|---|---|---|---|---|"] + [row(*each) for each in rows + [("all", total)]])


def main(words):
    if "--write" not in words:
        print(table())
        return
    text = PAGE.read_text(encoding="utf-8")
    PAGE.write_text(re.sub(re.escape(HEAD) + r"\n(\|.*\n)*", lambda _: table() + "\n", text), encoding="utf-8")


main(sys.argv[1:])
