#!/usr/bin/env python3
"""Tries the wrong bodies of crates: each edit of crates/NAME/edits/ and crates/NAME/must-fail/ must be refused.

    python3 docs/try_edits.py NAME..       tries those of these crates, and notes in docs/edits.lock what came of it
    python3 docs/try_edits.py --all        tries those of all crates
    python3 docs/try_edits.py --stale      lists the crates that changed since their edits were tried, and tries none
    python3 docs/try_edits.py --in FOLDER NAME..     keeps the scratch copy there for the next time

The gate tries the edits of must-fail/ alone, each over a second proof of its crate. Here all are tried, in a scratch
copy of the repository, and first by a check of the functions that an edit changes, alone: where the check proves these
as they stand and not with the edit, it is refused. A function is proved by the contracts of those that it calls, so
edits of different functions are tried in one round, by one check of all these functions. Where that tells nothing of
one, it is tried by itself. Whichever can't be tried so, as one of a constant, or is still proved so, is tried over the
whole crate by `rt must-fail`.

docs/edits.lock has a line for each crate: its name, how many edits were refused, of how many, and a checksum of all
that this rests on: sources and definitions of the crate and of those below it, without comments, and the crate's edits.
"""
import contextlib
import hashlib
import re
import shutil
import subprocess
import sys
import tempfile
from pathlib import Path

ROOT = Path(__file__).resolve().parent.parent
LOCK = ROOT / "docs" / "edits.lock"
HEAD = "# A line a crate: its name, its edits that were refused, all its edits, a checksum (docs/try_edits.py writes it).\n"
TOLD = re.compile(r"^(?:rt: )?must-fail (\w+)/(\S+): (.*)$")
# What a line begins with that is a comment, by the end of the file's name; no line has NEVER.
COMMENTS, NEVER = {".rt": b"//", ".antt": b"--"}, b"\n"
# An edit that is refused, though not by the contract that it tries.
WEAK = ("only because a proof file names", "only by a limit of the prover")
REFUSED = "refused, as it must be"
# A function's head, and what an impl is of: a type, or a trait and a type.
FUNCTION = re.compile(r'^(\s*)(?:#\[[^\]]*\]\s*)?(?:pub(?:\([a-z]+\))? )?(?:const )?(?:unsafe )?(?:extern "C" )?fn (\w+)')
IMPL = re.compile(r"^(?:unsafe )?impl\b(?:<[^{]*?>)? (?:(\w[\w:]*)(?:<.*?>)? for )?&?(?:'\w+ )?(\w+)")
# What a check says of a function behind all else that it says of it, of one that only waits for the proof of another, and of one
# of which it reads no proof, so that no contract is tried.
FUNCTION_TOLD = re.compile(r"^fn (\S+): (.*)$")
UNPROVED, WAITS = re.compile(r"not proved|no proof"), re.compile(r"(no proof:|not proved;) it calls ")
UNREAD = re.compile(r"the borrow checker does not cover this function")
# What a check says of a place in a file, and what says only that a proof names something that isn't there.
PLACED = re.compile(r"(note: )?\S+:\d+:\d+: ")
NAMES = re.compile(r"(note: )?(\./)?proofs/.*(has no field|is not in scope|has no `|was not admitted|was rejected)")


def libraries():
    """The libraries of the repository that each crate's line of crates.txt names."""
    lines = [line.split("#")[0] for line in (ROOT / "crates.txt").read_text().splitlines()]
    named = {line.split(":")[0].split()[0]: line.split(":")[1].split() for line in lines if ":" in line}
    return {name: [it for it in below if it in named] for name, below in named.items()}


def below(name, named):
    """The crate and all those below it."""
    found, todo = set(), [name]
    while todo:
        crate = todo.pop()
        if crate not in found:
            found.add(crate)
            todo += named[crate]
    return found


def edits_of(name):
    crate = ROOT / "crates" / name
    return sorted([*crate.glob("edits/*.edit"), *crate.glob("must-fail/*.edit")])


def checksum(name, named):
    """A checksum of all that the crate's edits are tried over."""
    parts = [ROOT / "crates" / crate / part for crate in sorted(below(name, named)) for part in ("src", "specs")]
    files = [file for part in parts for file in sorted(part.rglob("*")) if file.is_file()]
    told = hashlib.sha256()
    for file in [*files, *edits_of(name)]:
        # where an edit stands of the two folders tells nothing of what it tries, nor does a comment
        path = file.name if file.suffix == ".edit" else file.relative_to(ROOT).as_posix()
        lines = [line for line in file.read_bytes().splitlines() if not line.lstrip().startswith(COMMENTS.get(file.suffix, NEVER))]
        told.update(repr((path, lines)).encode())
    return told.hexdigest()[:24]


def noted():
    """What docs/edits.lock says of each crate."""
    lines = LOCK.read_text().splitlines() if LOCK.is_file() else []
    return {line.split()[0]: line.split()[1:] for line in lines if line and not line.startswith("#")}


def note(names):
    """Writes what is known of crates, by their names."""
    LOCK.write_text(HEAD + "".join(f"{name} {' '.join(told)}\n" for name, told in sorted(names.items())))


def stale(named):
    """The crates with edits of which docs/edits.lock says nothing, or something that was so before they changed."""
    known = noted()
    return [name for name in named if edits_of(name) and known.get(name, [""])[-1] != checksum(name, named)]


def copy_to(folder):
    """Makes or renews a scratch copy of the crates, without their edits; what was built there stays."""
    shutil.copy2(ROOT / "HANDLES", folder)
    shutil.copy2(ROOT / "crates.txt", folder)
    for crate in (ROOT / "crates").iterdir():
        to = folder / "crates" / crate.name
        for part in ("src", "specs", "proofs", "must-fail", "data"):
            shutil.rmtree(to / part, ignore_errors=True)
            if part != "must-fail" and (crate / part).is_dir():
                shutil.copytree(crate / part, to / part)


def changes(edit):
    """What the edit changes: for each of its files the texts that go and those that come."""
    found, file, old = {}, None, None
    for line in edit.read_text().splitlines():
        word, _, text = line.partition(": ")
        if word == "file":
            file = text.strip()
        elif word == "old":
            old = text
        elif word == "new" or line == "new:":
            found.setdefault(file, []).append((old, text if word == "new" else ""))
    return found


def function_at(crate, path, text, at):
    """The name, as a check knows it, of the function around a place of a source file; None where there is none."""
    before = text[: text.find("\n", at)].splitlines()
    name, indent, own = None, 0, ""
    for line in reversed(before):
        head = FUNCTION.match(line)
        if name is None and head:
            indent, name = len(head[1]), head[2]
            if not indent:
                break
        elif name and (of := IMPL.match(line)):
            own = of[2] + (of[1] or "").rpartition(":")[2] + "::"
            break
        elif name is None and line.rstrip() == "}":
            return None
    if name is None:
        return None
    # (a check names a method by the module of its type, wherever the impl stands)
    module = [crate, *(it for it in Path(path).with_suffix("").parts[1:] if it != "lib")]
    return own + name if own else "::".join([*module, name])


def functions_of(crate, folder, edit):
    """The names of the functions that an edit changes; None where an old text isn't there once, or stands in no function."""
    names = []
    for path, pairs in changes(edit).items():
        text = (folder / "crates" / crate / path).read_text()
        for old, new in pairs:
            if text.count(old) != 1:
                return None
            names.append(function_at(crate, path, text, text.find(old) + len(old) - len(old.lstrip())))
            text = text.replace(old, new)
    return None if None in names else list(dict.fromkeys(names))


def check(crate, folder, names):
    """What a check of these functions alone says, and its status."""
    words = [word for name in names for word in ("--only", name)]
    ran = subprocess.run(["rt", "check", "--jobs", "1", *words], cwd=folder / "crates" / crate, stdout=subprocess.PIPE, stderr=subprocess.STDOUT, text=True, errors="replace")
    return ran.stdout.splitlines(), ran.returncode


def told_of_functions(lines):
    """What a check says of each function that it doesn't prove, by its name: its own line last. None of one that waits for the
    proof of another, or of which no proof is read."""
    errors, found, told = [line for line in lines if PLACED.match(line) and "proofs/" in line.split(":")[0]], {}, []
    for line in lines:
        of = FUNCTION_TOLD.match(line)
        if not of:
            told += [line] if PLACED.match(line) and line not in errors else []
            continue
        # errors in proofs stand before all else, under the folder of their function
        here = [error for error in errors if f"/{'/'.join(of[1].split('::')[-2:])}/" in error] + told
        if UNPROVED.match(of[2]) and not UNREAD.search(of[2]) and (here or not WAITS.match(of[2])):
            found[of[1]] = [*here, line]
        told = []
    return found


def first_told(told):
    """What is to be said of an edit by what a check says of its functions; None where that tells nothing."""
    placed = [line for line in told if PLACED.match(line)]
    placed = [line for line in placed if ": error" in line or line.startswith("note: ")] or placed
    first = next((line for line in placed if not NAMES.match(line)), "")
    if not told or placed and not first:
        return None
    return f"{REFUSED}: {(first or told[-1])[:160]}"


def rounds_of(found):
    """The edits in rounds, each of which changes no function twice: each edit with the names of its functions."""
    rounds = []
    for edit, names in found.items():
        free = next((it for it in rounds if not any(name in other for other in it.values() for name in names)), None)
        if free is None:
            rounds.append({edit: names})
        else:
            free[edit] = names
    return rounds


@contextlib.contextmanager
def applied(crate, folder, edits):
    """Applies edits to the scratch copy, and takes them back."""
    pairs = [(folder / "crates" / crate / path, old, new) for edit in edits for path, those in changes(edit).items() for old, new in those]
    kept = {file: file.read_text() for file, _, _ in pairs}
    try:
        for file, old, new in pairs:
            file.write_text(file.read_text().replace(old, new))
        yield
    finally:
        for file, text in kept.items():
            file.write_text(text)


def tried_in_round(crate, folder, edits):
    """Tries edits of different functions by one check: what is said of each, with None where that tells nothing of it."""
    with applied(crate, folder, edits):
        lines, status = check(crate, folder, [name for names in edits.values() for name in names])
    if status != 1 or not any(line.startswith("only=") for line in lines):
        return dict.fromkeys(edits)
    told = told_of_functions(lines)
    of = lambda name: [line for whole, those in told.items() if f"::{whole}".endswith(f"::{name}") for line in those]
    return {edit: first_told([line for name in names for line in of(name)]) for edit, names in edits.items()}


def tried_alone(crate, folder):
    """Tries the edits of a crate by the functions that they change: what is said of each, with None for those that want the
    whole crate."""
    found = {edit: functions_of(crate, folder, edit) for edit in edits_of(crate)}
    every = list(dict.fromkeys(name for names in found.values() if names for name in names))
    whole = [name for name in every if check(crate, folder, [name])[1]] if every and check(crate, folder, every)[1] else []
    said = dict.fromkeys(found)
    left = {edit: names for edit, names in found.items() if names and not any(name in whole for name in names)}
    while left:
        edits = rounds_of(left)[0]
        said.update(tried_in_round(crate, folder, edits))
        untold = [edit for edit in edits if said[edit] is None]
        # of a round that tells nothing each is tried by itself, and else what it doesn't tell of in a later one
        for edit in untold if len(untold) == len(edits) > 1 else ():
            said.update(tried_in_round(crate, folder, {edit: edits[edit]}))
        left = {edit: names for edit, names in left.items() if edit not in edits or edit in untold and len(untold) < len(edits)}
    for edit, told in said.items():
        print(f"{crate}/{edit.name}: {told or 'wants the whole crate'}", flush=True)
    return said


def tried_whole(edits, folder):
    """Tries edits over their whole crates: what is said of each, and what else there is to say."""
    for edit in edits:
        to = folder / "crates" / edit.parts[-3] / "must-fail"
        to.mkdir(exist_ok=True)
        shutil.copy2(edit, to)
    names = sorted({edit.parts[-3] for edit in edits})
    ran = subprocess.run(["rt", "must-fail", *names], cwd=folder, stdout=subprocess.PIPE, stderr=subprocess.STDOUT, text=True, errors="replace")
    told = [TOLD.match(line) or line for line in ran.stdout.splitlines()]
    said = {(it[1], it[2]): it[3] for it in told if not isinstance(it, str)}
    return {edit: said.get((edit.parts[-3], edit.name), "NOT TRIED") for edit in edits}, [it for it in told if isinstance(it, str)]


def tried(names, folder):
    """Tries the edits of the crates: what is said of each."""
    copy_to(folder)
    said = {edit: told for name in names for edit, told in tried_alone(name, folder).items()}
    rest = [edit for edit, told in said.items() if told is None]
    if rest:
        whole, more = tried_whole(rest, folder)
        said.update(whole)
        print("\n".join(more))
    return said


def main(words):
    named = libraries()
    if words == ["--stale"]:
        print("\n".join(stale(named)) or "no crate changed since its edits were tried")
        return 1 if stale(named) else 0
    place = None
    if words[:1] == ["--in"] and len(words) > 1:
        place, words = Path(words[1]), words[2:]
    names = [name for name in named if edits_of(name)] if words == ["--all"] else words
    if not names or any(name not in named for name in names):
        sys.exit(__doc__)
    sums = {name: checksum(name, named) for name in names}
    with tempfile.TemporaryDirectory(prefix="edits-") as scratch:
        folder = place or Path(scratch)
        folder.mkdir(parents=True, exist_ok=True)
        said = tried(names, folder)
    good = {edit for edit, told in said.items() if told.startswith("refused")}
    for edit, told in said.items():
        if edit not in good or any(weak in told for weak in WEAK):
            print(f"{edit.parts[-3]}/{edit.name}: {told}")
    known = {name: told for name, told in noted().items() if name in named and edits_of(name)}
    refused = {name: sum(edit in good for edit in edits_of(name)) for name in names}
    for name in names:
        if edits_of(name):
            known[name] = [str(refused[name]), str(len(edits_of(name))), sums[name]]
    note(known)
    missed = [name for name in names if refused[name] < len(edits_of(name))]
    print(f"{sum(refused.values())} edits refused in {len(names)} crates" + (f"; not all of: {' '.join(missed)}" if missed else ""))
    return 1 if missed else 0


if __name__ == "__main__":
    sys.exit(main(sys.argv[1:]))
