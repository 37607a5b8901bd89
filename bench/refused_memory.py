"""Refuses each allocation of the built program in turn, over some scripts.

    python3 bench/refused_memory.py [PROGRAM]

PROGRAM is crates/sheetrun/out/sheetrun where no word is given. The scripts are those below, and the cases of
crates/sheet_cases/data whose titles stand in CASES. Each script is run once with all memory; then once for each of its
allocations, with that one refused, and once more with all from that one on refused; of a script with more than MANY
allocations so many are tried, at even distances. A run may end with status 7 after a front of what the whole run
prints, and may also print all and end as it did. Each other end is printed. The last line of a script counts the runs.
"""
import os
import subprocess
import sys
import tempfile
import tomllib

BOOK = b"2,10.5,=A1*B1\n3,120,=A2*B2\n,,=SUM(C1:C2)\n"
SCRIPTS = (
    ("an invoice", [], b"set,A1,2\nset,B1,10.5\nset,C1,=A1*B1\nset,A2,3\nset,C3,=SUM(C1:C2)*22%\nvalue,C3\nformula,C3\n"),
    ("a book and a changed structure", ["invoice.csv"],
     b"insert-rows,invoice,1,2\nformula,C5\nmove-cols,invoice,A,1,C\nformula,C5\ndelete-rows,invoice,1,1\nvalue,C4\nundo\n"
     b"undo\nundo\nvalue,C3\nredo\nformula,C5\n"),
    ("names", ["invoice.csv"],
     b"add-name,Rate,,=22%\nset,D1,=Rate*C3\nvalue,D1\nchange-name,Rate,,=invoice!$A$1\nname-value,rate,invoice\n"
     b"try,invoice,=D1+Rate\ndrop-sheet,invoice\nundo\nvalue,D1\nremove-name,Rate,\nvalue,D1\n"),
    ("the clipboard and links", ["invoice.csv"],
     b"copy,A1:C2\npaste,invoice!E5\nformula,G5\ncut,C1\npaste,H1\nformula,C3\nmove-block,A1:B1,J1\nformula,H1\n"
     b"precedents,H1\ndependents,J1\n"),
    ("a batch", [], b"begin\nset,A1,=B1&\"x\"\nset,B1,TRUE\ncommit\nvalue,A1\nundo\ncontent,A1\nsuspend\nset,A1,7\nresume\nvalue,A1\n"),
    ("a generated list", ["--generate", "3"], b""),
    ("words without a meaning", ["--strict", "--strict"], b""),
)
# Cases of crates/sheet_cases/data: the file, and the titles.
CASES = (
    ("undo", ("undo restores a lost reference that was never read", "lost, restored, lost and restored again",
              "a clipped range is whole again after undo", "a clipped range through two undos and a new insert",
              "a change after undo clears the redo list", "the edge of the sheet, and back from it", "undo keeps twenty steps")),
    ("structure", ("the edge of the sheet",)),
    ("clipboard", ("a moved block, references into what it overwrote, undone", "a pasted reference off the sheet; a fixed one stays",
                   "a change ends a cut, a copy pastes twice, a cut pastes once")),
    ("names", ("a dropped sheet returns with its names and values",)),
    ("batches", ("refusals inside a batch leave it open", "a batch of several kinds is undone and redone at once")),
    ("wholes", ("a whole column through inserts, a lost column and undo", "a look-up in a whole column",
                "whole rows, their texts and their cycles")),
    ("long", ("a batch of 4,097 inserts undone at once",)),
)
# The most allocations of a script that are refused.
MANY = 1_000


def scripts(here):
    """Each script: title, words, text, files."""
    for title, words, text in SCRIPTS:
        yield title, words, text, {"invoice.csv": BOOK}
    for name, titles in CASES:
        with open(os.path.join(here, "..", "crates", "sheet_cases", "data", f"{name}.toml"), "rb") as file:
            cases = {case["shows"]: case for case in tomllib.load(file)["case"]}
        for title in titles:
            case = cases[title]
            files = {file["name"]: file["text"].encode() for file in case.get("file", [])}
            yield title, case.get("words", []), case["script"].encode(), files


def built_library(folder, here):
    path = os.path.join(folder, "refused_memory.so")
    subprocess.run(["cc", "-O2", "-shared", "-fPIC", "-o", path, os.path.join(here, "refused_memory.c"), "-ldl"], check=True)
    return path


def ended(program, words, script, folder, library, first, last):
    place = os.environ | {"LD_PRELOAD": library, "COUNT_FILE": os.path.join(folder, "count")}
    if first:
        place |= {"REFUSE_FROM": str(first), "REFUSE_TO": str(last)}
    done = subprocess.run([program, *words], input=script, stdout=subprocess.PIPE, stderr=subprocess.PIPE, cwd=folder,
                          env=place, timeout=60)
    return done.stdout, done.returncode


def tried(program, title, words, script, folder, library):
    """Whether each run ended as it may."""
    whole, status = ended(program, words, script, folder, library, 0, 0)
    with open(os.path.join(folder, "count"), encoding="ascii") as file:
        count = int(file.read())
    wanting = passed = wrong = 0
    step = -(-count // MANY)
    for number in range(1, count + 1, step):
        for last in (number, sys.maxsize):
            printed, end = ended(program, words, script, folder, library, number, last)
            if end == 7 and whole.startswith(printed):
                wanting += 1
            elif (printed, end) == (whole, status):
                passed += 1
            else:
                wrong += 1
                print(f"{title}: allocation {number} to {last}: status {end}, printed {printed!r}")
    print(f"{title}: status {status}, {count} allocations, {-(-count // step)} refused, {wanting} runs ended for want of memory, "
          f"{passed} as with all memory, {wrong} otherwise")
    return wrong == 0


def main(words):
    here = os.path.dirname(os.path.abspath(__file__))
    program = os.path.abspath(words[0] if words else os.path.join(here, "..", "crates", "sheetrun", "out", "sheetrun"))
    with tempfile.TemporaryDirectory() as folder:
        library = built_library(folder, here)
        ends = []
        for title, words, script, files in scripts(here):
            for name, text in files.items():
                with open(os.path.join(folder, name), "wb") as file:
                    file.write(text)
            ends.append(tried(program, title, words, script, folder, library))
    return 0 if all(ends) else 1


if __name__ == "__main__":
    sys.exit(main(sys.argv[1:]))
