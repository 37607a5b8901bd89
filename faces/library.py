#!/usr/bin/env python3
"""Makes the static library crates/engine_c/out/libengine_c.a.

    python3 faces/library.py

Where the gate has passed in this checkout, the libraries that it proved stand under crates/*/out/rlib, and the crate is proved and
compiled over them, in some minutes. Otherwise `rt lib` proves first whatever is below it, which takes an hour from nothing.
"""
import subprocess
import sys
from pathlib import Path

ROOT = Path(__file__).resolve().parent.parent
CRATE = ROOT / "crates" / "engine_c"
LIBRARY = CRATE / "out" / "libengine_c.a"


def libraries():
    """What each crate's line of crates.txt names."""
    lines = [line.split("#")[0] for line in (ROOT / "crates.txt").read_text().splitlines()]
    return {line.split(":")[0].split()[0]: line.split(":")[1].split() for line in lines if ":" in line}


def below(name, named):
    """The crates of the repository that the crate stands on."""
    found, todo = set(), list(named[name])
    while todo:
        crate = todo.pop()
        if crate in named and crate not in found:
            found.add(crate)
            todo += named[crate]
    return sorted(found)


def kit():
    """The kit's folder, of which `rt` is a part."""
    rt = subprocess.run(["sh", "-c", "command -v rt"], stdout=subprocess.PIPE, text=True, check=True).stdout.strip()
    return Path(rt).resolve().parent.parent


def built(crate):
    return ROOT / "crates" / crate / "out" / "rlib" / f"{crate}.rlib"


def command(kit, named):
    """The compiler's command over the libraries that the gate built; it proves the crate first."""
    words = [kit / "bin/rattle", "build", "--crate-name", "engine_c", "src/lib.rt", "--crate-type", "staticlib"]
    for crate in ["std", *named["engine_c"]]:
        words += ["--extern", f"{crate}={built(crate) if crate in named else kit / 'rlibs' / f'{crate}.rlib'}"]
    for folder in [kit / "rlibs", *(built(crate).parent for crate in below("engine_c", named))]:
        words += ["-L", f"dependency={folder}"]
    words += ["--antt-project", kit / "rattle/logic/antt-project.json", "--logic-built", kit / "logic_built"]
    words += ["--jobs", "2", "--toolchain", kit / "toolchain", "-o", LIBRARY]
    return words


def main():
    named = libraries()
    if all((built(crate) / "format").is_file() for crate in below("engine_c", named)):
        LIBRARY.parent.mkdir(exist_ok=True)
        made = subprocess.run(command(kit(), named), cwd=CRATE, stdout=subprocess.PIPE, stderr=subprocess.STDOUT, text=True)
        if made.returncode == 0 and LIBRARY.is_file():
            return 0
        print(made.stdout[-2000:], "The libraries under crates/ are not of this text, or the crate is not proved: rt lib tells.", sep="\n")
    return subprocess.run(["rt", "lib"], cwd=CRATE).returncode


if __name__ == "__main__":
    sys.exit(main())
