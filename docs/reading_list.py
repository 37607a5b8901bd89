#!/usr/bin/env python3
"""Lists the definitions that somebody must read to believe the contract of `run`, part by part: the core, which says all of sessions and
values, and behind it catalogues, which say what its words stand for.

    python3 docs/reading_list.py            the parts with their lines, and the files of each, those that rest on no other first
    python3 docs/reading_list.py --names    and in each file the names that the contract reaches
    python3 docs/reading_list.py --table    and then the rows of docs/TRUST.md
    python3 docs/reading_list.py --check    status 1 where the core has more than 15 files or 1,000 lines, a file stands in no part,
                                            docs/TRUST.md names other parts or lacks a clause, the example of README.md isn't the
                                            crate `embedding`, word for word, or a block of docs/EMBEDDING.md stands in no crate

It follows the `use` lines of the definitions, name by name, from the clauses of `run` in crates/sheet_cli/src/program.rt, and for the
engine's own promises from those of the public calls of crates/book_engine. Lines are those of the definitions that are reached, without
comments. What stands in a specs/internal/ is for the proofs of bodies alone: a clause that reaches it is an error.
"""
import re
import sys
from functools import cache
from pathlib import Path

ROOT = Path(__file__).resolve().parent.parent
START = ROOT / "crates/sheet_cli/src/program.rt"
EXAMPLE = ROOT / "crates/embedding/src/main.rt"
TRUST = ROOT / "docs/TRUST.md"
README = ROOT / "README.md"
EMBEDDING = ROOT / "docs/EMBEDDING.md"
ENGINE = ROOT / "crates/book_engine/src"
CORE, CORE_FILES, CORE_LINES = "the core", 15, 1_000
# The core, in the order in which it reads, and each catalogue, by the file where one begins to read it; the others of a catalogue are
# those of its crates that are reached.
PARTS = {
    CORE: (
        "book_values/Book book_model/Workbook book_model/Content book_model/Operation book_model/Refusals book_model/Clipboard "
        "book_model/Changes book_model/Session book_model/Answers calc_terms/Meaning value_network/Network book_values/Values "
        "command_answers/Replies script_lang/Lines sheet_cli/Run",
        "",
    ),
    "places, texts, numbers": ("cell_addr/Place", "digits fix_num cell_addr cell_value"),
    "syntax of formulas": ("formula_tree/Grammar", "formula_tree formula_parse"),
    "names and needs": ("book_values/Workbook", "book_values book_model"),
    "functions": ("calc_terms/Calls", "operators func_args func_logic func_date func_look func_math func_text custom_fn calc_terms"),
    "structural operations": ("shift_core/Form", "shift_core tree_rewrite"),
    "files, words and commands": ("sheet_cli/Answering", "script_lang command_words generator book_files run_inputs command_answers sheet_cli"),
}
PROMISES = "the engine's own promises"
USE = re.compile(r"^\s*(?:pub )?(?:ghost )?use Rattle\.(\w+)\.specs\.([\w.]+?)(?:\.\{([^}]*)\})?(?: as (\w+))?;?\s*(?:--.*)?$")
PASSED = re.compile(r"^pub use Rattle\.(\w+)\.specs\.([\w.]+?)(?: as (\w+))?$", re.M)
WORD = re.compile(r"[\w-]+(?:\.[\w-]+)*")


def file_of(crate, module):
    """The file of a module of definitions; none for what is declared by the program's own types."""
    path = ROOT / "crates" / crate / "specs" / (module.replace(".", "/") + ".antt")
    return path if path.is_file() else None


@cache
def passed_on(crate):
    """The modules of other crates that a crate hands on as its own, and where each of them stands."""
    path = ROOT / "crates" / crate / "specs/Lib.antt"
    found = PASSED.findall(path.read_text()) if path.is_file() else []
    return {alias or module.split(".")[-1]: (low, module) for low, module, alias in found}


def home_of(crate, module):
    """Where a module stands that a crate may have handed on."""
    first, *rest = module.split(".")
    if first not in passed_on(crate):
        return crate, module
    low, name = passed_on(crate)[first]
    return home_of(low, ".".join([name, *rest]))


def uses(lines):
    """What each name that a file brings in stands for: (crate, module, name), and the modules that have another name."""
    names, modules = {}, {}
    for line in lines:
        match = USE.match(line)
        if not match:
            continue
        crate, module, listed, alias = match.groups()
        place = home_of(crate, module)
        if alias:
            modules[alias] = place
        for name in (listed or "").split(","):
            names[name.strip()] = place
    return names, modules


def blocks(lines):
    """The text of each definition of a file, by name. The constructors of a data type are part of its text."""
    found, name = {}, None
    for line in lines:
        if re.match(r"(pub )?use ", line) or line.startswith("--") or not line.strip():
            continue
        declared = re.match(r"\s*(?:abbrev )?(?:unfoldable )?pub (?:data |record )?([\w-]+)", line)
        inside = declared and line.startswith(("  pub ", "  abbrev pub ", "  unfoldable pub "))
        if inside or line.startswith(("abbrev", "unfoldable", "pub", "mutual")):
            if declared and not (name in found and line.startswith("  pub ") and found[name].startswith("pub record")):
                name = declared.group(1)
                found[name] = ""
        if name:
            found[name] += line.strip() + "\n"
    for data, text in list(found.items()):
        if text.startswith("pub data") or " data " in text.split("\n")[0]:
            for constructor in re.findall(r"^([\w-]+) : ", text, re.M):
                found.setdefault(constructor, text)
    return found


class File:
    def __init__(self, path):
        self.lines = path.read_text().splitlines()
        self.names, self.modules = uses(self.lines)
        self.blocks = blocks(self.lines)


def has(place, name):
    """Whether a module defines the name, or hands it on; what the program's own types declare isn't read."""
    path = file_of(*place)
    return path is None or name in File(path).blocks or name in File(path).names


def clauses():
    """The clauses of `run`, a line each, and the whole file's lines."""
    lines = START.read_text().splitlines()
    start = next(i for i, line in enumerate(lines) if line.startswith("pub fn run"))
    end = next(i for i in range(start, len(lines)) if lines[i] == "{")
    return [line for line in lines[start:end] if "ensures" in line or "requires" in line], lines


def cited():
    """The names in the clauses of `run`, and what they stand for."""
    found, lines = clauses()
    names, modules = uses([line for line in lines if line.startswith("ghost use")])
    words = set(WORD.findall(" ".join(found)))
    return [(names[word], word) for word in words if word in names]


def promised():
    """The names in the clauses of the engine's public calls, and what they stand for."""
    found = set()
    for path in ENGINE.glob("*.rt"):
        lines, clause, is_open = path.read_text().splitlines(), [], False
        for line in lines:
            is_open = bool(re.match(r"\s*pub fn ", line)) or (is_open and line.strip() != "{")
            if is_open and re.search(r"\b(ensures|requires)\b", line):
                clause.append(line)
        names, _ = uses([line for line in lines if "ghost use" in line])
        found |= {(names[word], word) for word in set(WORD.findall(" ".join(clause))) if word in names}
    return sorted(found)


def reached(words):
    """The names that clauses of these words reach, by file, and which files each file rests on."""
    files, seen, rests = {}, {}, {}
    todo = [(place, name, None) for place, name in words]
    while todo:
        (crate, module), name, above = todo.pop()
        path = file_of(crate, module)
        if path is None:
            continue
        if above and above != path:
            rests.setdefault(above, set()).add(path)
        file = files.setdefault(path, File(path))
        text = file.blocks.get(name)
        if text is None and name in file.names:
            # (a file hands the name on)
            todo.append((file.names[name], name, path))
            continue
        if name in seen.setdefault(path, set()):
            continue
        seen[path].add(name)
        if text is None:
            sys.exit(f"{path.relative_to(ROOT)} has no definition of {name}")
        for word in set(WORD.findall(text)):
            front, _, last = word.partition(".")
            if word in file.blocks:
                todo.append(((crate, module), word, path))
            elif word in file.names:
                todo.append((file.names[word], word, path))
            elif last and front in file.modules and has(file.modules[front], last):
                # (a field of a value that is called like the module isn't one of its definitions)
                todo.append((file.modules[front], last, path))
    return seen, rests


def in_order(seen, rests):
    done, order = set(), []

    def visit(path):
        if path in done:
            return
        done.add(path)
        for below in sorted(rests.get(path, ())):
            visit(below)
        order.append(path)

    for path in sorted(seen):
        visit(path)
    return order


def lines_of(path, names):
    """How many lines the definitions of these names have."""
    file = File(path)
    return sum(text.count("\n") for text in {file.blocks[name] for name in names})


def spec(name):
    """The file of a crate's name and a module's."""
    crate, module = name.split("/")
    return ROOT / "crates" / crate / "specs" / f"{module}.antt"


def parts_of(order):
    """The files of each part, and those of none."""
    core = [spec(name) for name in PARTS[CORE][0].split()]
    found, left = {CORE: core}, [path for path in order if path not in core]
    for part, (_, crates) in PARTS.items():
        if part != CORE:
            found[part] = [path for path in left if path.relative_to(ROOT).parts[1] in crates.split()]
            left = [path for path in left if path not in found[part]]
    return found, left


def faults(seen, parts, left):
    """What is amiss with the parts themselves."""
    core = parts[CORE]
    lines = sum(lines_of(path, seen.get(path, ())) for path in core)
    found = [f"{path.relative_to(ROOT)} stands in no part" for path in left]
    found += [f"{path.relative_to(ROOT)} is of the core, and nothing reaches it" for path in core if path not in seen]
    if len(core) > CORE_FILES or lines > CORE_LINES:
        found.append(f"the core has {len(core)} files and {lines} lines")
    for part, (heads, _) in PARTS.items():
        found += [f"{head} isn't of {part}" for head in heads.split() if spec(head) not in parts[part]]
    return found


def table(parts):
    """The rows of docs/TRUST.md: each part, and the files of its crates."""
    rows = []
    for part, paths in parts.items():
        crates = {}
        for path in paths:
            crates.setdefault(path.relative_to(ROOT).parts[1], []).append(path.stem)
        rows += [f"| {part} | `{crate}` | {', '.join(files)} |" for crate, files in crates.items()]
    return rows


def differences(parts):
    """What the pages say otherwise than the files."""
    trust = TRUST.read_text()
    told, rows = set(re.findall(r"^\| [^|]+ \| `\w+` \| [\w, ]+ \|$", trust, re.M)), set(table(parts))
    found = [f"docs/TRUST.md lacks the row {row}" for row in sorted(rows - told)]
    found += [f"docs/TRUST.md has another row {row}" for row in sorted(told - rows)]
    names = [re.search(r"(?:ensures|requires) (\w*)", line).group(1) for line in clauses()[0]]
    found += [f"docs/TRUST.md has no clause {name}" for name in names if f"- **{name}**: " not in trust]
    if EXAMPLE.read_text().strip() not in README.read_text():
        found.append(f"README.md's example isn't {EXAMPLE.relative_to(ROOT)}")
    sources = [path.read_text() for path in ROOT.glob("crates/*/src/**/*.rt")]
    for block in re.findall(r"^```rust\n(.*?)^```$", EMBEDDING.read_text(), re.M | re.S):
        if not any(block in source for source in sources):
            found.append(f"docs/EMBEDDING.md has code that no crate has: {block.splitlines()[0].strip()} ..")
    return found


def tell(part, paths, seen, names):
    """Prints a part."""
    lines = sum(lines_of(path, seen[path]) for path in paths)
    print(f"{part}: {len(paths)} files, {lines:,} lines")
    for path in paths:
        listed = ": " + ", ".join(sorted(seen[path])) if names else ""
        print(f"    {path.relative_to(ROOT)} {lines_of(path, seen[path])}{listed}")


def main(words):
    seen, rests = reached(cited())
    own, own_rests = reached(promised())
    parts, left = parts_of(in_order(seen, rests))
    promises = [path for path in in_order(own, own_rests) if path not in seen]
    hidden = [str(path.relative_to(ROOT)) for path in seen if "/internal/" in str(path)]
    if hidden:
        sys.exit("the contract of run reaches " + ", ".join(hidden))
    if "--check" in words:
        found = faults(seen, parts, left) + differences({**parts, PROMISES: promises})
        print("\n".join(found) or "docs/TRUST.md has the clauses and all parts; the examples are code of crates")
        for part, paths in parts.items():
            print(f"{part}: {len(paths)} files, {sum(lines_of(path, seen[path]) for path in paths if path in seen):,} lines")
        sys.exit(1 if found else 0)
    for part, paths in [*parts.items(), (PROMISES, promises)]:
        tell(part, paths, {**own, **seen}, "--names" in words)
    if "--table" in words:
        print("\n".join(table({**parts, PROMISES: promises})))


main(sys.argv[1:])
