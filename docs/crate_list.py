"""The page of crates: what each crate is, from the comment at its own head, and what its contracts say.

    python3 docs/crate_list.py            prints docs/CRATES.md as it should be
    python3 docs/crate_list.py --write    writes it
    python3 docs/crate_list.py --check    status 1 where it is another page, a crate of crates.txt stands on it never or
                                          twice, or a row of a table of contracts says nothing of them

The headings of the page, the order of its rows and the column of contracts are kept by hand, on the page itself; a row
of a new crate begins as "| `NAME` | |" or "| `NAME` |". What a crate is, the second column, is the first sentence of the
comment at the head of its root file.
"""
import re
import sys
from pathlib import Path

ROOT = Path(__file__).resolve().parent.parent
PAGE = ROOT / "docs/CRATES.md"
ROW = re.compile(r"^\| `(\w+)` \|")


def crates():
    """The crates of crates.txt, in its order."""
    lines = (ROOT / "crates.txt").read_text().splitlines()
    return [line.split()[0].rstrip(":") for line in lines if ":" in line and not line.startswith("#")]


def root_of(crate):
    """The root file of a crate: a library's, or a program's."""
    source = ROOT / "crates" / crate / "src"
    return source / "lib.rt" if (source / "lib.rt").is_file() else source / "main.rt"


def head(crate):
    """The first sentence of the comment at the head of a crate."""
    paragraph = []
    for line in root_of(crate).read_text(encoding="utf-8").splitlines():
        if not line.startswith("//! "):
            break
        paragraph.append(line[4:].strip())
    text = re.sub(r"\[(`[^`]*`)\]", r"\1", " ".join(paragraph))
    sentence = re.match(r".*?[.](?= |$)", text)
    return (sentence.group(0) if sentence else text).rstrip(".:").replace("|", "\\|")


def made(line):
    """A line of the page as it should be: a crate's row with what the crate is."""
    match = ROW.match(line)
    if not match or match.group(1) not in crates() or not root_of(match.group(1)).is_file():
        return line
    cells = re.split(r"(?<!\\) \|(?: |$)", line.rstrip())
    contracts = f" {cells[2]} |" if len(cells) > 3 else ""
    return f"| `{match.group(1)}` | {head(match.group(1))} |{contracts}"


def faults(lines):
    """What is wrong with the rows of the page."""
    listed = [match.group(1) for match in map(ROW.match, lines) if match]
    for crate in crates():
        if not root_of(crate).is_file():
            yield f"crates.txt has {crate}, of which there is no root file"
        if listed.count(crate) != 1:
            yield f"{crate} stands {listed.count(crate)} times in docs/CRATES.md"
    for crate in listed:
        if crate not in crates():
            yield f"docs/CRATES.md has a row of {crate}, which crates.txt hasn't"
    columns = 0
    for line in lines:
        columns = line.count("|") - 1 if line.startswith("|---") else columns
        if ROW.match(line) and columns == 3 and (line.endswith("|  |") or len(re.findall(r"(?<!\\)\|", line)) < 4):
            yield f"no contracts: {line}"


def main(words):
    text = PAGE.read_text(encoding="utf-8")
    lines = [made(line) for line in text.splitlines()]
    page = "\n".join(lines) + "\n"
    if "--check" not in words:
        if "--write" in words:
            PAGE.write_text(page, encoding="utf-8")
        else:
            print(page, end="")
        return 0
    found = list(faults(lines)) + (["docs/CRATES.md has other words than the heads of the crates"] if page != text else [])
    print("\n".join(found) or f"docs/CRATES.md has all {len(crates())} crates")
    return 1 if found else 0


if __name__ == "__main__":
    sys.exit(main(sys.argv[1:]))
