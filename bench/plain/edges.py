"""Cases at the limits, and of streams and files that can't be read or written."""

import random

import files
import grammar
from case import Case, line
from grammar import COLUMNS, ROWS

# A million cells are those of 25 columns of so many rows.
MANY = 40_000
READS = [line(["value", "A1"]), line(["formula", "A1"]), line(["content", "A1"])]


def books(case, **named):
    """Adds books to a case, by their names without `.csv`."""
    for name, data in named.items():
        case.words.append(name + ".csv")
        case.files[name + ".csv"] = data
    return case


def rows(draw):
    last = draw.choice((b"", b'""\n', b'"",""\n', b"x\n", b",x\n", b"\n\n"))
    case = Case(records=[line(["value", f"A{ROWS}"]), line(["insert-rows", "Deep", "1", "1"])])
    return books(case, Deep=b'""\n' * (ROWS - 1) + b"1\n" + last)


def columns(draw):
    last = draw.choice((b"", b",", b",x", b',""', b",,x"))
    case = Case(records=[line(["value", "ZZZ1"]), line(["insert-cols", "Wide", "A", "1"])])
    return books(case, Wide=b",".join([b"1"] * COLUMNS) + last)


def long_field(draw):
    text = draw.choice(("x", "é", "1", "=1+", "'")) * 8192
    size = draw.choice((8191, 8192, 8193))
    data = text.encode()[:size]
    case = Case(records=[line(["content", "B2"]), line(["value", "B2"])])
    return books(case, Long=b"1\n2," + data.decode(errors="ignore").encode())


def all_cells(draw):
    """A million cells, or a few less or more."""
    missing = draw.choice((-1, 0, 1, 4))
    filled = (",".join("1" * 24) + "\n").encode() * MANY
    rest = b"x\n" * (MANY - max(missing, 0)) + (b"" if missing >= 0 else b"1,2\n")
    records = [
        ["set", "Rest!C1", "5"], ["set", "Rest!C2", "5"], ["set", "Filled!A1", "=COUNT(A2:Z40000)"],
        ["value", "Filled!A1"], ["copy", "Filled!A1:B3"], ["paste", "Rest!D1"],
        ["insert-rows", "Filled", "7", "1"], ["insert-cols", "Filled", "B", "1"],
        ["clear", "Filled!B1:C3"], ["paste", "Rest!D1"], ["paste", "Rest!D1"], ["undo"],
        ["move-block", "Rest!A1:A5", "Filled!A1"], ["set", "Rest!H1", ""], ["set", "Rest!H1", "1"],
        ["drop-sheet", "Rest"], ["set", "Filled!ZZ1", "1"], ["undo"], ["undo"], ["undo"],
    ]
    case = Case(["--undo-limit", "2"], records=[line(fields) for fields in records])
    return books(case, Filled=filled, Rest=rest)


def long_script(draw):
    head = b"".join(READS)
    size = files.FILE_BYTES + draw.choice((0, 1, 1, 1000))
    return Case(records=[head, b"\n" * (size - len(head))])


def long_file(draw):
    size = files.FILE_BYTES + draw.choice((0, 1, 1, 1))
    data = b"1\n" + b"\r" * (size - 2)
    case = books(Case(records=READS), Long=data)
    if draw.randrange(2):
        case.words += ["gone.csv"]
    return case


def many_sheets(draw):
    records = [["add-sheet", f"S{at}"] for at in range(1021)]
    records += [["add-sheet", "T"], ["add-sheet", "s7"], ["undo"], ["add-sheet", "T2"], ["redo"],
                ["drop-sheet", "S5"], ["add-sheet", "T3"], ["add-sheet", "T4"], ["add-sheet", "T5"],
                ["set", "T3!A1", "1"], ["set", "T!A1", "=T3!A1"], ["value", "T!A1"]]
    case = Case(records=[line(fields) for fields in records])
    return books(case, S9000=b"1", **{"My Plan": b"=S9000!A1"}) if draw.randrange(2) else case


def many_books(draw):
    case = Case(records=READS)
    names = [f"B{at}" for at in range(1024)] + [draw.choice(("B1024", "b7", "\x7f"))]
    return books(case, **{name: b"1" for name in names[draw.randrange(2):]})


def many_steps(draw):
    limit = draw.choice((0, 1, 20, 999, 1000))
    records = [["set", "A1", str(at)] for at in range(1003)]
    records += [["undo"]] * 1001 + [["value", "A1"]] + [["redo"]] * 500 + [["value", "A1"]]
    records += [["set", "A2", "7"], ["redo"], ["undo"], ["undo"], ["value", "A1"]]
    return Case(["--undo-limit", str(limit)], records=[line(fields) for fields in records])


def levels(draw):
    """Formulas of about 64 levels."""
    records = []
    for deep in (62, 63, 64, 65):
        inner = draw.choice(("1", '"a"', "A9", "A8:B9", "Sheet1!A9", "(1)", "NA()", "-1"))
        for text in (
            "+".join([inner] * (deep + 1)), "(" * deep + inner + ")" * deep, "-" * deep + inner,
            inner + "%" * deep, "SUM(" * deep + inner + ")" * deep,
            "1&(" * (deep // 2) + inner + ")" * (deep // 2), "2^" * deep + inner,
            "(" * 32 + "-" * (deep - 32) + inner + ")" * 32, "IF(TRUE," * deep + inner + ",1)" * deep,
            "MAX(1," + "+" * (deep - 1) + inner + ")", "1=" + "(" * (deep - 1) + inner + ")" * (deep - 1),
        ):
            records += [["try", "Sheet1", "=" + text], ["set", "A1", "=" + text], ["formula", "A1"],
                        ["value", "A1"]]
    return Case(records=[line(fields) for fields in records])


def long_names(draw):
    records = []
    for size in (99, 100, 101, 254, 255, 256):
        for name in ("x" * size, "é" * (size // 2), "é" + "x" * (size - 2), "x" * (size - 1) + " ",
                     "_" * size, "x." * (size // 2), "A" * (size - 1) + "1"):
            records += [["add-sheet", name], ["rename-sheet", "Sheet1", name],
                        ["rename-sheet", name, "Sheet1"], ["add-name", name, "", "=1"],
                        ["try", name, f"={name}"], ["set", "A1", f"='{name}'!A2+{name}"],
                        ["content", "A1"], ["precedents", "A1"], ["remove-name", name, ""]]
    for code in (*range(0x20), *range(0x7E, 0xA2), 0x2028, 0x200B, 0xFEFF):
        records.append(["add-sheet", f"s{chr(code)}"])
    return Case(records=[line(fields) for fields in records])


def long_texts(draw):
    records = []
    for size in (8191, 8192, 8193):
        for text in ("x" * size, "é" * (size // 2), "=1" + " " * (size - 2), "'" * size, "1" * size,
                     "=1+" + " " * (size - 4) + "2", "." + "0" * (size - 1),
                     '="' + "a" * (size - 3) + '"'):
            records += [["set", "B1", text], ["content", "B1"], ["value", "B1"], ["formula", "B1"],
                        ["try", "Sheet1", text], ["add-name", "N", "", text]]
            records += [["name-value", "N", "Sheet1"], ["remove-name", "N", ""]]
    records += [["set", "A1", draw.choice(("x" * 8192, "é" * 4096))], ["set", "A2", "=A1&A1&A1&A1"],
                ["set", "A3", "=A2&A9"], ["set", "A4", '=A2&"b"'], ["set", "A5", "=LEN(A2)"],
                ["set", "A6", '=SUBSTITUTE(A2,"x","yz",3)'], ["set", "A7", "=CONCATENATE(A2,A9,A9)"],
                ["set", "A8", '=CONCATENATE(A2,"",TRUE)']]
    records += [["value", f"A{row}"] for row in range(1, 9)]
    records += [["set", "C1", "=" + "+".join(["Sheet1!A9"] * 60)], ["add-sheet", "y" * 100],
                ["move-block", "A9", "y" * 100 + "!A9"], ["content", "C1"]]
    return Case(records=[line(fields) for fields in records])


def long_chain(draw):
    length = draw.choice((500, 1500))
    records = [["set", f"A{row}", f"=A{row + 1}+1"] for row in range(1, length)]
    records += [["set", f"A{length}", "1"], ["value", "A1"], ["set", f"A{length}", "=A1"],
                ["value", "A1"], ["value", f"A{length // 2}"], ["set", "B1", "=IFERROR(A1,7)"],
                ["value", "B1"], ["set", f"A{length // 2}", "2"], ["value", "A1"], ["value", "B1"],
                ["value", f"A{length}"], ["dependents", "A1"], ["insert-rows", "Sheet1", "3", "2"],
                ["value", "A1"], ["delete-rows", "Sheet1", "5", "1"], ["value", "A1"], ["undo"],
                ["value", "A1"], ["set", "C1", f"=SUM(A1:A{length})"], ["value", "C1"]]
    return Case(records=[line(fields) for fields in records])


def full_output(draw):
    case = Case(streams="full")
    case.records = draw.choice((READS, [], [b"foo\n"], [b"undo\n"]))
    case.words = draw.choice(([], ["--strict"], ["-x"], ["gone.csv"], ["--script", "gone.txt"]))
    return case


def folder(draw):
    """A book or a script that is a folder, or whose name no file can have."""
    case = Case(files={"folder.csv": None, "good.csv": b"1,=A1+1"}, records=READS)
    case.words = draw.choice((
        ["folder.csv"], ["good.csv", "folder.csv"], ["folder.csv", "gone.csv"],
        ["gone.csv", "folder.csv"], ["--script", "folder.csv"], ["--script=folder.csv", "gone.csv"],
        ["--script", "gone.txt", "folder.csv"], ["--script", "gone.txt", "good.csv"],
        ["good.csv", "good.csv", "folder.csv"], ["good.csv/deep.csv"], ["x" * 300], [""],
        ["--script", "good.csv/deep.csv"], ["gone/deep.csv"], ["folder.csv/"], ["--script", "gone/x"],
    ))
    return case


def no_input(draw):
    """Standard input that can't be read."""
    case = Case(streams="folder", files={"good.csv": b"1", "script.txt": b"".join(READS)})
    case.words = draw.choice((
        [], ["good.csv"], ["gone.csv"], ["-x"], ["--script", "script.txt"], ["--strict"],
    ))
    return case


CASES = (
    rows, columns, long_field, all_cells, long_script, long_file, many_sheets, many_books,
    many_steps, levels, long_names, long_texts, long_chain, full_output, folder, no_input,
)


def make(seed):
    """The case of a seed: each kind comes once in as many seeds as there are kinds."""
    return CASES[seed % len(CASES)](random.Random(f"edges {seed}"))
