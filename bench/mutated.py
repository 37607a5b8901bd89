"""Runs the built program on mutated scripts, books and words, and looks at how each run ends.

    python3 bench/mutated.py [PROGRAM] [--minutes M] [--runs N] [--seed S] [--jobs J] [--keep DIR] [--seconds T] [--memory MIB]

PROGRAM is crates/sheetrun/out/sheetrun where no word is given. A run begins with a case of crates/sheet_cases/data, the invoice, or
what bench/plain/generate.py draws, and changes some of its records, fields, bytes, words, files and streams; its script has at most
64 KiB. It is made again by its seed, `--seed S --runs 1`: that of the first run is S, and each later one's is one more. Runs begin
for M minutes (1), or N times; J of them are run side by side (1).

Each run has MIB (1,024) of address space and T seconds (10). One that doesn't end by then is run again with ten times as long; it is
slow where it ends then, also where only the machine was busy. A run is wrong that doesn't end, ends by a signal, writes to standard
error, or prints or ends with what docs/SCRIPT.md doesn't allow: which words have a meaning, how many replies there are, which record
is no command, the last line of each status, the replies of commands that only say `ok` or refuse, and how lines are written. What the
other commands show isn't looked at; bench/plain/compare.py does that. A wrong or slow run is printed, and its input is kept in a folder
of DIR (mutated_kept in the folder for temporary files). At the end it prints how many runs there were, how many of them ended with each
status, were slow or wrong, the slowest run by the seconds of the processor, and the run with the most memory, which is not less than
that of this script. Status 1 where a run was wrong.
"""
import argparse
import multiprocessing
import os
import random
import re
import resource
import select
import shutil
import signal
import subprocess
import sys
import tempfile
import time
import tomllib
from collections import Counter
from dataclasses import dataclass, field, replace

HERE = os.path.dirname(os.path.abspath(__file__))
sys.path.insert(0, os.path.join(HERE, "plain"))

import edges
import generate
import plain
import script

MOST_SCRIPT = 65_536
MOST_WORD = 100_000
# The most that a run may print; what is written beyond is refused.
MOST_OUTPUT = 1 << 30
MIB = 1_048_576
# Commands that answer more than `ok` or a refusal.
SHOWING = {"value", "formula", "content", "precedents", "dependents", "name-value", "try"}
REFUSALS = {f"refused {number} {cause}".encode() for cause, number in script.REFUSALS.items()}
# A line as it is written: no line end inside, and each backslash in front of one of three characters.
LINE = re.compile(rb"(?:[^\\\r\n]++|\\[\\nr])*+")
BOOK_CAUSES = (rb"missing|not UTF-8|sheet name invalid|sheet name taken|too many sheets|too many rows|too many columns"
               rb"|field too long|too many cells")

RUBBISH = (
    b"", b" ", b"\0", b"\xff", b"\xc3", b"\xc0\x80", b"\xed\xa0\x80", b"\xf4\x90\x80\x80", b"\xef\xbb\xbf", "é€😀".encode(), b'"', b'""',
    b"'", b"''", b"'!", b"!", b"!A1", b"$", b":", b",", b"\r", b"\n", b"\r\n", b"\\", b"\\n", b"\x7f", b"\t", b"#", b"#REF!", b"=", b"==",
    b"%", b"(", b")", b"{1}", b"[", b"0", b"-0", b"-1", b"00", b"1", b"1048576", b"1048577", b"1048575", b"40001", b"18278", b"18279", b"65536", b"9999999",
    b"10000000", b"2147483647", b"2147483648", b"4294967295", b"4294967296", b"18446744073709551615", b"18446744073709551616",
    b"999999999999.999999", b"-999999999999.999999", b"1000000000000", b"999999999999.9999995", b"0.0000005", b"1e308", b"0x10", b"NaN",
    b"A0", b"A00001", b"A1", b"a1", b"ZZZ1", b"A40000", b"A40001", b"ZZZ1048576", b"ZZZ1048577", b"A50000_", b"AAAA1", b"A1:B2", b"B2:A1", b"A1:A1", b"A1:A1:A1",
    b"A1:ZZ900", b"A1048575:B1048576", b"Sheet1", b"sheet1!A1", b"'Sheet1'!A1", b"Nope!A1", b"''!A1", b"Sheet1!Sheet1!A1", b"=A1", b"=1/0",
    b"=A1:B2", b"=SUM(A1:C9)", b"=A1+", b'="', b"='", b"=#REF!", b"=SUM(", b'=REPT("x",32767)', b'=REPT("ab",16384)&A1', b"=2^1000",
    b"=DATE(9999,12,31)+1", b"=VLOOKUP(A1,A1:C9,3,TRUE)", b"=INDEX(A1:C9,-1,1)", b"=MID(A1,2,99999)", b"=999999999999.999999*2",
    b"TRUE", b"--", b"--strict", b"K" * 255, b"K" * 256, b"s" * 101,
)
WORDS = (
    b"", b"-", b"--", b"--strict", b"--strict=1", b"--script", b"--script=", b"--script=script.txt", b"--script=gone.txt", b"--undo-limit",
    b"--undo-limit=0", b"--undo-limit=1", b"--undo-limit=1000", b"--undo-limit=1001", b"--undo-limit=00001", b"--undo-limit=-1", b"0", b"7",
    b"--generate", b"--generate=0", b"--generate=3", b"--generate=120", b"--generate=10001", b"--help", b"-x", b"--Strict", b"\xff", b"a\xc3",
    b"gone.csv", b".", b"..", b"/", b"/dev/null", b"/dev/zero", b"deep/gone.csv", b"x" * 300, b"a\nb\\.csv", "\ufffd".encode(), "Ü".encode(),
)
# What stands around a formula's inmost part, as often as it is deep.
AROUND = (
    (b"(", b")"), (b"-", b""), (b"+", b""), (b"", b"%"), (b"SUM(", b")"), (b"IF(A1,", b",1)"), (b"1+", b""), (b"", b"&A1"), (b"2^(", b")"),
    (b"(", b""), (b"", b")"), (b"{", b"}"), (b'"', b'"'), (b"'", b"'"), (b"A1:", b""), (b"Sheet1!", b""), (b"NOT(", b""), (b"MAX(1,", b")"),
)
DEPTHS = (3, 30, 61, 62, 63, 64, 65, 66, 130, 1_000, 2_700, 8_000, 20_000)
LENGTHS = (100, 101, 255, 256, 4_096, 8_190, 8_191, 8_192, 8_193, 16_000, 40_000)


@dataclass(frozen=True)
class Input:
    """What a program is run on. A file whose bytes are None is a folder. Standard input is the `script`, `none` of it, a `folder` or
    `closed`; standard output is a `file`, `full`, `closed`, or a pipe that nobody reads (`shut`)."""

    words: tuple = ()
    script: bytes = b""
    files: dict = field(default_factory=dict)
    reads: str = "script"
    writes: str = "file"


@dataclass(frozen=True)
class Run:
    """How a run ended. The status is None where it was stopped, and less than 0 by a signal. `seconds` are those of the processor."""

    status: int
    output: bytes
    errors: bytes
    seconds: float
    clock: float
    memory: float


# Where a run begins.


def stored_inputs():
    """The cases of sheet_cases, and the invoice."""
    data = os.path.join(HERE, "..", "crates", "sheet_cases", "data")
    inputs = []
    for name in sorted(os.listdir(data)):
        with open(os.path.join(data, name), "rb") as file:
            cases = tomllib.load(file)["case"]
        for case in cases:
            letters = "latin-1" if case.get("latin1") else "utf-8"
            files = {it["name"]: it.get("text", "").encode() for it in case.get("file", [])}
            words = tuple(word.encode() for word in case.get("words", []))
            inputs.append(Input(words, case.get("script", "").encode(letters), files))
    with open(os.path.join(HERE, "invoice.csv"), "rb") as file:
        inputs.append(Input((), file.read()))
    return inputs


def generated_input(draw):
    """A random script, or one at limits; of a longer one a part."""
    if draw.random() < 0.1:
        kind = draw.choice((edges.levels, edges.long_names, edges.long_texts, edges.long_chain, edges.many_steps, edges.many_sheets))
        case = kind(draw)
    else:
        case = generate.make(draw.choice(generate.TURNS), draw.randrange(1 << 32), draw.choice((5, 20, 60, 200)))
    records = case.records
    if draw.random() < 0.5 or sum(map(len, records)) > MOST_SCRIPT:
        first = draw.randrange(len(records) + 1)
        records = records[first:first + draw.choice((10, 50, 300))]
    words = tuple(os.fsencode(word) for word in case.words)
    text = b"".join(records)
    if draw.random() < 0.98:
        # A sum over a whole sheet is slow.
        text = re.sub(rb"ZZ(?=[YZ]\$?[0-9])", b"Z", text)
    return Input(words, text, dict(case.files))


class Mutator:
    """Draws inputs."""

    def __init__(self, seed, stored):
        self.draw = random.Random(f"mutated {seed}")
        self.stored = stored

    def one_in(self, count):
        return self.draw.randrange(count) == 0

    def beginning(self):
        """A random script, or some stored ones, one behind the other."""
        if self.one_in(2):
            return generated_input(self.draw)
        first, *others = self.draw.choices(self.stored, k=self.draw.choice((1, 1, 3, 10, 40)))
        return replace(first, script=b"\n".join(case.script for case in (first, *others)))

    # Pieces.

    def rubbish(self):
        choice = self.draw.random()
        if choice < 0.6:
            return self.draw.choice(RUBBISH)
        if choice < 0.7:
            return self.draw.randbytes(self.draw.randint(1, 20))
        if choice < 0.8:
            return str(self.draw.choice((1, -1)) * self.draw.getrandbits(self.draw.randint(1, 80))).encode()
        if choice < 0.92:
            return self.deep()
        letter = self.draw.choice((b"x", "é".encode(), b"1", b'""', b"\\", b"\0", b"\xff", b"'", b" ", b"(", b"=", b"A1+", b"\r\n"))
        front = self.draw.choice((b"", b"", b"=", b"'", b'="', b"."))
        return (front + letter * self.draw.choice(LENGTHS))[:self.draw.choice(LENGTHS)]

    def deep(self):
        """A formula of many levels, or what looks like one."""
        front, back = self.draw.choice(AROUND)
        depth = self.draw.choice(DEPTHS)
        inner = self.draw.choice((b"1", b"A1", b"", b"A1:B2", b'"a"', b"#N/A", b"("))
        text = b"=" + front * depth + inner + back * depth
        return text if self.one_in(4) else text[:9_000]

    def field(self):
        """Rubbish as a field, mostly with quotes where it needs them."""
        text = self.rubbish()
        if any(mark in text for mark in b',"\r\n') and not self.one_in(4):
            return b'"' + text.replace(b'"', b'""') + b'"'
        return text

    def part(self, items):
        """The ends of a part of these items."""
        first = self.draw.randrange(len(items) + 1)
        most = self.draw.choice((1, 1, 2, 8, 64, len(items) // 4))
        return first, min(len(items), first + self.draw.randint(0, most))

    # Texts.

    def text(self, data):
        """A script or a book, changed in one way."""
        return self.draw.choice((self.lines, self.lines, self.fields, self.fields, self.fields, self.raw))(data)

    def lines(self, data):
        lines = data.splitlines(keepends=True)
        first, last = self.part(lines)
        chosen = lines[first:last]
        way = self.draw.randrange(6)
        if way == 0:
            chosen = []
        elif way == 1:
            chosen *= self.draw.choice((2, 2, 3, 20, 300))
        elif way == 2:
            self.draw.shuffle(chosen)
        elif way == 3:
            other = self.beginning().script.splitlines(keepends=True)
            begin, end = self.part(other)
            chosen = other[begin:end]
        elif way == 4:
            chosen, at = [], self.draw.randrange(len(lines) - last + first + 1)
            moved, lines = lines[first:last], lines[:first] + lines[last:]
            return b"".join(lines[:at] + moved + lines[at:])
        else:
            chosen.append(self.draw.choice(list(script.COMMANDS)).encode() + b"," + self.field() + self.draw.choice((b"\n", b"\r", b"")))
        return b"".join(lines[:first] + chosen + lines[last:])

    def fields(self, data):
        lines = data.split(b"\n")
        at = self.draw.randrange(len(lines))
        parts = lines[at].split(b",")
        one = self.draw.randrange(len(parts))
        way = self.draw.randrange(7)
        if way == 0:
            parts[0] = self.draw.choice(list(script.COMMANDS)).encode()
        elif way == 1:
            del parts[one]
        elif way == 2:
            parts.insert(one, self.field())
        elif way == 3:
            other = self.draw.choice(lines).split(b",")
            parts[one] = self.draw.choice(other)
        elif way == 4:
            parts[one] = self.raw(parts[one])
        elif way == 5 and len(parts) < 400:
            parts[one:one] = [parts[one]] * self.draw.choice((1, 2, 2_000))
        else:
            parts[one] = self.field()
        lines[at] = b",".join(parts)
        return b"\n".join(lines)

    def raw(self, data):
        first, last = self.part(data)
        way = self.draw.randrange(6)
        if way == 0 and first < len(data):
            return data[:first] + bytes((data[first] ^ 1 << self.draw.randrange(8),)) + data[first + 1:]
        if way == 1:
            return data[:first] + data[last:]
        if way == 2:
            return data[:last] + data[first:]
        if way == 3 and self.one_in(4):
            return data[:first]
        if way <= 4:
            return data[:first] + self.rubbish() + data[last:]
        return data[:first] + self.rubbish() + data[first:]

    # Words, files and streams.

    def words(self, words):
        words = list(words)
        at = self.draw.randrange(len(words) + 1)
        way = self.draw.randrange(6)
        if way == 0:
            del words[at:at + 1]
        elif way == 1:
            words[at:at] = words[at:at + 1]
        elif way == 2:
            self.draw.shuffle(words)
        elif way == 3:
            words[at:at + 1] = [self.raw(word) for word in words[at:at + 1]]
        elif way == 4:
            words.insert(at, self.rubbish())
        else:
            words.insert(at, self.draw.choice(WORDS))
        return tuple(tame(words))

    def files(self, case):
        """A case with another file, a file changed, missing, or a folder in its place; or with its script in a file."""
        files, words = dict(case.files), case.words
        way = self.draw.randrange(6)
        name = self.draw.choice(list(files)) if files else None
        if way == 0 and "--script" not in str(words):
            words, files["script.txt"] = (b"--script", b"script.txt", *words), case.script
        elif way == 1 and name:
            del files[name]
        elif way == 2 and name:
            files[name] = None
        elif way < 5 and name and files[name] is not None:
            files[name] = self.text(files[name])
        else:
            name = self.draw.choice(generate.BOOKS)
            words, files[name] = (*words, name.encode()), self.text(self.draw.choice((b"1,2\n3,=A1+B1\n", self.beginning().script)))
        return replace(case, files=files, words=words)

    def streams(self, case):
        if self.one_in(2):
            return replace(case, reads=self.draw.choice(("none", "folder", "closed")))
        return replace(case, writes=self.draw.choice(("full", "closed", "shut")))

    def made(self):
        """An input, changed in some ways."""
        case = self.beginning()
        for _ in range(self.draw.choice((1, 1, 2, 3, 5, 10, 30))):
            choice = self.draw.random()
            if choice < 0.86:
                case = replace(case, script=self.text(case.script)[:MOST_SCRIPT])
            elif choice < 0.92:
                case = replace(case, words=self.words(case.words))
            elif choice < 0.99:
                case = self.files(case)
            else:
                case = self.streams(case)
        # Else most runs would end at once.
        if not self.one_in(3):
            case = replace(case, script=mended(case.script)[:MOST_SCRIPT])
        if self.one_in(2) or meaning(case.words) is None and not self.one_in(4):
            case = replace(case, words=(b"--undo-limit", self.draw.choice((b"0", b"1", b"3", b"20", b"1000"))))
        return case


def mended(data):
    """The script without the records that are no commands."""
    kept = []
    for record in script.records(data):
        try:
            script.command(record, len(kept) + 1)
        except script.NoCommand:
            continue
        kept.append(b",".join(b'"' + part.replace(b'"', b'""') + b'"' if set(part) & set(b',"\r\n') else part for part in record))
    return b"".join(record + b"\n" for record in kept)


def tame(words):
    """The words, without those that no program is given, and with no long list of generated commands."""
    for at, word in enumerate(words):
        word = word.replace(b"\0", b"")[:MOST_WORD]
        found = re.fullmatch(rb"(--generate=|)([0-9]{4,5})", word)
        if found and 1_000 < int(found[2]) <= 10_000:
            word = found[1] + b"1000"
        yield word


# Runs.


def lay_out(case, folder):
    """Makes the folder in which the program runs."""
    shutil.rmtree(folder, ignore_errors=True)
    os.mkdir(folder)
    for name, data in case.files.items():
        path = os.path.join(folder, name)
        try:
            os.makedirs(os.path.dirname(path), exist_ok=True)
            if data is None:
                os.mkdir(path)
            else:
                with open(path, "wb") as file:
                    file.write(data)
        except OSError:
            # What one file needs to be a folder is another file.
            pass


def standard_input(case, scratch):
    if case.reads == "folder":
        return os.open(scratch, os.O_RDONLY)
    path = os.path.join(scratch, "script") if case.reads == "script" else os.devnull
    if case.reads == "script":
        with open(path, "wb") as file:
            file.write(case.script)
    return os.open(path, os.O_RDONLY)


def standard_output(case, scratch):
    if case.writes == "shut":
        reader, writer = os.pipe()
        os.close(reader)
        return writer
    path = "/dev/full" if case.writes == "full" else os.path.join(scratch, "output")
    return os.open(path, os.O_WRONLY | os.O_CREAT | os.O_TRUNC)


def content(path):
    with open(path, "rb") as file:
        return file.read()


def run(program, case, scratch, seconds, memory):
    """Runs the program in a folder of the scratch folder, with so many seconds and MiB of address space."""

    def limited():
        resource.setrlimit(resource.RLIMIT_AS, (memory * MIB, memory * MIB))
        resource.setrlimit(resource.RLIMIT_FSIZE, (MOST_OUTPUT, MOST_OUTPUT))
        resource.setrlimit(resource.RLIMIT_CORE, (0, 0))
        signal.signal(signal.SIGXFSZ, signal.SIG_IGN)
        for number, kind in enumerate((case.reads, case.writes)):
            if kind == "closed":
                os.close(number)

    folder, errors, output = (os.path.join(scratch, name) for name in ("folder", "errors", "output"))
    lay_out(case, folder)
    open(output, "wb").close()
    source, sink = standard_input(case, scratch), standard_output(case, scratch)
    begun = time.monotonic()
    with open(errors, "wb") as faults:
        child = subprocess.Popen([program, *case.words], stdin=source, stdout=sink, stderr=faults, cwd=folder, preexec_fn=limited)
    os.close(source)
    os.close(sink)
    handle = os.pidfd_open(child.pid)
    ended = select.select([handle], [], [], seconds)[0]
    os.close(handle)
    if not ended:
        child.kill()
    _, status, usage = os.wait4(child.pid, 0)
    child.returncode = os.waitstatus_to_exitcode(status)
    status = child.returncode if ended else None
    seconds, clock = usage.ru_utime + usage.ru_stime, time.monotonic() - begun
    return Run(status, content(output), content(errors), seconds, clock, usage.ru_maxrss / 1024)


# What a run may be.


def meaning(words):
    """What the words say, by the pages, or None."""
    try:
        for word in words:
            word.decode()
        return plain.read_words([word.decode() for word in words])
    except (UnicodeDecodeError, plain.NoMeaning):
        return None


def script_of(case, name, folder):
    """The bytes of the script, or None where they can't be read or are too many."""
    if name is None:
        return {"script": case.script, "none": b""}.get(case.reads)
    path = os.path.join(folder, name)
    return content(path) if os.path.isfile(path) and os.path.getsize(path) <= MOST_SCRIPT else None


def commands(data):
    """The words of the script's commands, and the line of the first record that is none, or None."""
    words = []
    for number, record in enumerate(script.records(data), 1):
        try:
            script.command(record, number)
        except script.NoCommand as cause:
            return words, f"record {number}: {cause}".encode()
        words.append(record[0].decode())
    return words, None


def wrong(case, ran, folder):
    """What is wrong with a run in this folder: some words, or None."""
    if ran.status is None:
        return "doesn't end"
    if ran.status < 0:
        return f"ends by signal {-ran.status}"
    if ran.status > 8:
        return f"ends with the status {ran.status}"
    if ran.errors:
        return "writes to standard error"
    if "closed" in (case.reads, case.writes):
        return None
    said = meaning(case.words)
    if case.writes == "file":
        if ran.status == 6 and len(ran.output) < MOST_OUTPUT:
            return "ends with the status 6, but its output can be written"
        return wrong_lines(case, ran, said, folder)
    silent = said is not None and not said[3] and commands(script_of(case, said[2], folder) or b"") == ([], None)
    return None if ran.status in (6, 7) or ran.status == 0 and silent else "can't write its output, but doesn't end with the status 6"


def wrong_lines(case, ran, said, folder):
    """What is wrong with what a run of words that say this printed."""
    lines = ran.output.split(b"\n")
    if lines.pop():
        return "prints a line without an end"
    for line in lines:
        if not LINE.fullmatch(line):
            return "prints a line that isn't written as a line is"
    try:
        ran.output.decode()
    except UnicodeDecodeError:
        return "prints what isn't UTF-8"
    status = ran.status
    if status in (6, 7) and said is None:
        return None
    if (status == 2) != (said is None):
        return f"ends with the status {status}, but its words have {'no' if said is None else 'a'} meaning"
    if status == 2:
        return None if lines == [plain.USAGE.encode()] else "prints no usage line alone"
    _, strict, name, generates, _ = said
    if generates:
        if strict and status == 1:
            return None if len(lines) == 1 and lines[0].startswith(b"refused ") else "generates and doesn't print its refusal"
        return None if status == 7 or status == 0 and len(lines) == 3 else "generates and doesn't print three lines"
    if status == 4:
        form = rb"book (?:[^\n]*): (?:" + BOOK_CAUSES + rb")|script [^\n]*: missing"
        return None if len(lines) == 1 and re.fullmatch(form, lines[0]) else "prints other than the cause of the status 4"
    if status in (5, 8):
        return None if lines == [{5: b"read fault", 8: b"input too long"}[status]] else f"prints other than the line of the status {status}"
    data = script_of(case, name, folder)
    if data is None or status in (6, 7) and not lines:
        return None
    return wrong_replies(lines, status, strict, *commands(data))


def wrong_replies(lines, status, strict, words, fault):
    """What is wrong with the replies to commands of these words, behind which a record is no command."""
    if status == 3:
        if fault is None or lines[-1:] != [fault]:
            return f"ends at a record that is no command otherwise than the pages say: {fault and fault.decode()}"
        lines = lines[:-1]
    if status == 1 and not (strict and lines and lines[-1] in REFUSALS):
        return "ends with the status 1, but not with a refusal in a strict run"
    if status == 0 and fault is not None:
        return f"ends well, but the pages say: {fault.decode()}"
    if len(lines) > len(words) or status in (0, 3) and len(lines) != len(words):
        return f"prints {len(lines)} replies to {len(words)} commands"
    for number, (word, line) in enumerate(zip(words, lines), 1):
        if strict and line in REFUSALS and word not in SHOWING and (status != 1 or number < len(lines)):
            return "goes on after a refusal in a strict run"
        if word not in SHOWING and line not in REFUSALS:
            if not re.fullmatch(rb"ok [0-9]{1,4}" if word == "add-sheet" else rb"ok", line):
                return f"answers {word} by {line[:80]!r}"
    return None


# All runs.


def keep(place, seed, case, ran, cause, folder):
    """Keeps the input and what the run printed in a folder of the seed."""
    target = os.path.join(place, f"seed_{seed}")
    shutil.rmtree(target, ignore_errors=True)
    shutil.copytree(folder, os.path.join(target, "folder"))
    notes = f"{cause}\nstatus {ran.status}\nwords {list(case.words)}\nstandard input {case.reads}, standard output {case.writes}\n"
    for name, data in (("script", case.script), ("output", ran.output), ("errors", ran.errors), ("notes", notes.encode())):
        with open(os.path.join(target, name), "wb") as file:
            file.write(data)


def worked(said, first, until):
    """The runs of one process: their number, how many ended with each status, the slow and wrong ones, the slowest, the largest."""
    stored = stored_inputs()
    statuses, slow, bad, slowest, largest = Counter(), 0, 0, (0.0, 0), (0.0, 0)
    seed = said.seed + first
    with tempfile.TemporaryDirectory() as scratch:
        folder = os.path.join(scratch, "folder")
        while time.monotonic() < until if said.runs is None else seed < said.seed + said.runs:
            case = Mutator(seed, stored).made()
            ran = run(said.program, case, scratch, said.seconds, said.memory)
            again = ran.status is None
            if again:
                ran = run(said.program, case, scratch, said.seconds * 10, said.memory)
            cause = wrong(case, ran, folder)
            if cause or again:
                slow, bad = slow + (cause is None), bad + (cause is not None)
                keep(said.keep, seed, case, ran, cause or "slow", folder)
                told = f"{'run again: ' if again else ''}status {ran.status}, {ran.clock:.1f} s by the clock, {ran.seconds:.1f} s of the processor"
                print(f"seed {seed}: {cause or 'is slow'} ({told})", flush=True)
            statuses[ran.status] += 1
            slowest, largest = max(slowest, (ran.seconds, seed)), max(largest, (ran.memory, seed))
            seed += said.jobs
    return statuses, slow, bad, slowest, largest


def main(words):
    options = argparse.ArgumentParser()
    options.add_argument("program", nargs="?", default=os.path.join(HERE, "..", "crates", "sheetrun", "out", "sheetrun"))
    options.add_argument("--minutes", type=float, default=1)
    options.add_argument("--runs", type=int)
    options.add_argument("--seed", type=int, default=1)
    options.add_argument("--jobs", type=int, default=1)
    options.add_argument("--keep", default=os.path.join(tempfile.gettempdir(), "mutated_kept"))
    options.add_argument("--seconds", type=float, default=10)
    options.add_argument("--memory", type=int, default=1_024)
    said = options.parse_args(words)
    said.program, said.keep = os.path.abspath(said.program), os.path.abspath(said.keep)
    until = time.monotonic() + said.minutes * 60
    with multiprocessing.Pool(said.jobs) as pool:
        parts = pool.starmap(worked, [(said, first, until) for first in range(said.jobs)], chunksize=1)
    statuses = sum((part[0] for part in parts), Counter())
    slow, bad = sum(part[1] for part in parts), sum(part[2] for part in parts)
    (seconds, slowest), (memory, largest) = max(part[3] for part in parts), max(part[4] for part in parts)
    told = ", ".join(f"{statuses[status]} {'stopped' if status is None else status}" for status in sorted(statuses, key=str))
    print(f"{sum(statuses.values())} runs of {said.seconds:g} s and {said.memory:,} MiB each at most; by status: {told}")
    print(f"the slowest: {seconds:.2f} s, seed {slowest}; the largest: {memory:.1f} MiB, seed {largest}")
    print(f"{slow} slow, {bad} wrong" + (f"; their inputs are in {said.keep}" if slow or bad else ""))
    return 1 if bad else 0


if __name__ == "__main__":
    sys.exit(main(sys.argv[1:]))
