"""The functions with an example each, from the pages of examples that the gate runs.

    python3 docs/function_list.py            prints the table
    python3 docs/function_list.py --check    says whether docs/FORMULAS.md has it, and whether the functions of the
                                             table are those that the program knows

A function is a word of the first cells of FUNCTIONS.md's tables of meanings, such as `SUM(L..)`. Its example is the
first row that begins with its word, on that page or on the page of whole formulas, formulas.md. The program knows a
function twice: by the table of words of the crate that works it out, and as a word that no custom function may have.
"""
import re
import sys
from pathlib import Path

ROOT = Path(__file__).resolve().parent.parent
FORMULAS = ROOT / "docs/FORMULAS.md"
MISSING = "(no example)"
# A line of a table of words, as `MathFn::Sum => "SUM",`.
WORD = re.compile(r'^\s*\w+Fn::\w+ => "([A-Z]+)",$', re.M)


def page(name):
    """The one page of this name among the data of the crates."""
    found = list(ROOT.glob(f"crates/*/data/{name}"))
    if len(found) != 1:
        sys.exit(f"{len(found)} pages {name}")
    return found[0].read_text(encoding="utf-8").splitlines()


def cells(line):
    """The cells of a table's row, or none of another line."""
    return [cell.strip() for cell in line.strip().strip("|").split(" | ")] if line.startswith("| ") else []


def rows(name):
    return [row for row in map(cells, page(name)) if len(row) >= 2]


def signatures():
    """Each function with its arguments, as `SUM(L..)`, in the order of the page of functions."""
    for first, *_ in rows("FUNCTIONS.md"):
        if not first.startswith("`"):
            yield from re.findall(r"[A-Z]+\([^)]*\)", first)


def word_of(signature):
    return signature.split("(")[0]


def table():
    """The rows of the table: each function's signature, an example and its value."""
    examples = {}
    for call, value, *_ in rows("FUNCTIONS.md") + rows("formulas.md"):
        if call.startswith("`="):
            examples.setdefault(word_of(call[2:]), (call, value))
    yield "| Function | Example | Value |"
    yield "|---|---|---|"
    for signature in signatures():
        call, value = examples.get(word_of(signature), (MISSING, ""))
        yield f"| {signature} | {call} | {value} |"


def known():
    """The words of the functions that crates work out."""
    return {word for file in ROOT.glob("crates/*/src/function.rt") for word in WORD.findall(file.read_text())}


def reserved():
    """The words that no custom function may have."""
    text = (ROOT / "crates/custom_fn/src/words.rt").read_text()
    return set(re.findall(r'^    "([A-Z]+)",$', text.split("FUNCTION_WORDS")[1].split("];")[0], re.M))


def differences(ours, name, theirs):
    for word in sorted(ours - theirs):
        yield f"{word} isn't among {name}"
    for word in sorted(theirs - ours):
        yield f"{word} of {name} stands in no table of functions"


def main(words):
    lines = list(table())
    if words != ["--check"]:
        print("\n".join(lines))
        return 0
    listed = [word_of(signature) for signature in signatures()]
    found = [f"{word} stands twice" for word in sorted(set(listed)) if listed.count(word) > 1]
    found += [f"no example: {line}" for line in lines if MISSING in line]
    found += differences(set(listed), "the words that crates work out", known())
    found += differences(set(listed), "the words that no custom function may have", reserved())
    if "\n".join(lines) not in FORMULAS.read_text(encoding="utf-8"):
        found.append("docs/FORMULAS.md has another table")
    print("\n".join(found) or f"docs/FORMULAS.md has the table of all {len(listed)} functions")
    return 1 if found else 0


if __name__ == "__main__":
    sys.exit(main(sys.argv[1:]))
