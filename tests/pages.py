#!/usr/bin/env python3
"""Says whether the pages agree with the sources that they are made from and speak of.

    python3 tests/pages.py

It runs the scripts of docs/ that compare a page with its sources, and looks whether links and paths on pages lead somewhere,
and whether the README has at most 10,000 bytes. Status 1 where something differs.
"""
import re
import subprocess
import sys
from pathlib import Path

ROOT = Path(__file__).resolve().parent.parent
PAGES = [ROOT / "README.md", *sorted((ROOT / "docs").glob("*.md"))]
SCRIPTS = ["reading_list.py", "function_list.py", "crate_list.py"]
MOST_BYTES = 10_000
LINK = re.compile(r"\]\(([^)#:]+)\)")
# A path from the top of the repository, between backticks.
PATH = re.compile(r"`((?:crates|docs|bench|tests)/[\w./-]+)`")


def compared():
    """What the scripts say that compare pages with sources."""
    for script in SCRIPTS:
        ran = subprocess.run([sys.executable, ROOT / "docs" / script, "--check"], stdout=subprocess.PIPE, stderr=subprocess.STDOUT)
        if ran.returncode != 0:
            yield f"docs/{script}: {ran.stdout.decode().strip()}"


def is_made(path):
    """Whether it is made by the toolchain, and so not in a clean clone."""
    return "/out/" in path


def lost():
    """The links and paths that lead nowhere."""
    for page in PAGES:
        text = page.read_text(encoding="utf-8")
        targets = [(path, ROOT / path) for path in PATH.findall(text) if not is_made(path)]
        targets += [(link, page.parent / link) for link in LINK.findall(text)]
        for name, target in targets:
            if "NAME" not in name and not target.exists():
                yield f"{page.relative_to(ROOT)} names {name}, which isn't there"


def main():
    found = [*compared(), *lost()]
    size = PAGES[0].stat().st_size
    if size > MOST_BYTES:
        found.append(f"README.md has {size} bytes")
    print("\n".join([*found, f"{len(PAGES)} pages, {len(found)} differ"]))
    return 1 if found else 0


if __name__ == "__main__":
    sys.exit(main())
