"""Random scripts and files, by a mode and a seed."""

import sys

import edges
import grammar
from case import Case, line
from formulas import NAMES, Formulas
from grammar import ROWS

SHEETS = ("Sheet1", "Stock", "My Plan", "it's", "sheet1", "STOCK", "Nope", "A1", "Ü")
TEXTS = (
    "", "x", "Y", "apple", "Apple", "'", "'=1", "'12", "''", "true", "False", "-3", "+4", ".5", "1.",
    "1.25", "0.1", "2", "3", "5", "10", "007", "1.0000005", "-0.0000004", "999999999999.999999",
    "1000000000000", "1e3", "5%", " 1", "a\\b", "a\nb", "a\rb", "a,b", 'a"b', "é", "€", "=", "=1+",
    "=1 2", "=(", "=A1:", "=#REF!", "=#n/a", "=Nope!A1", "=Nope!A1:B2", "=A1048577", "=$A1048577", "=A50000", "=a40001_*2", "=A50000 (1)", "=A50000!A1", "=$A$50000", "=A50000! A1",
    "=\"a", "=1..2", "=TRUE", "=true()", "=' A'!A1", "=1<>2", "=A1 :B2", "=- -1", "=2%%",
    "=POSTAGE(0.5)", "=LEVY(6000)", "45351", "60", "1", "0", "-1", "=IF(A1,1/0,2)",
    "=SUM(C:A)", "=SUM($D:D)", "=SUM(5:$2)", "=COUNT( b : $C )", "=Nope!A:B", "=SUM(Stock!2:3)",
    "=A:1", "=A:B2", "=A1:B", "=0:1", "=01:2", "=1.0:2", "=1048577:1", "=40001:1", "=ABCD:A", "=$A:", "=:2",
    "=A:B:C", "=A:B!C1", "=A:B(1)", "=A:TRUE", "=ABC", "=ABC+SUM(ABC:ABC)", "=Stock!A:Stock!B",
)


ODD_WORDS = (
    "--", "-", "--help", "-x", "--strict", "--script", "--undo-limit", "--strict=1", "--generate",
    "--generate=0", "--generate=10001", "--generate=000001", "--Strict", "\udcff", "--undo-limit=+1",
)
BOOKS = (
    "Stock.csv", "Sheet1.csv", "My Plan.csv", "stock", "gone.csv", ".csv", "it's.csv", "Nope.csv",
    "Sheet1.csv.csv", "deep/Nope.csv", "a\nb.csv", "\x7f", "Ü.csv", "x" * 101 + ".csv", "A1.csv",
    "y" * 100 + ".csv", "deep/x.CSV", "STOCK.csv",
)


class Maker(Formulas):
    def __init__(self, mode, seed):
        few = mode in ("undo", "clipboard", "functions")
        super().__init__(mode, seed, SHEETS[:2] if few else SHEETS)

    # Places.

    def row(self):
        if self.one_in(40):
            return self.draw.choice((ROWS, ROWS - 1, ROWS + 1, 9999999))
        return self.draw.randint(1, 6)

    def place(self):
        return f"{self.front(self.often())}{self.letters()}{self.row()}"

    def block(self):
        if self.one_in(3):
            return self.place()
        if self.one_in(10):
            return f"{self.place()}:{self.letters()}{self.row()}"
        if self.one_in(12):
            return self.front(self.often()) + self.lines()
        row, col = self.draw.randint(1, 5), self.draw.randint(1, 4)
        last_row, last_col = row + self.draw.randint(0, 2), col + self.draw.randint(0, 1)
        return (f"{self.front(self.often())}{grammar.column_letters(col)}{row}"
                f":{grammar.column_letters(last_col)}{last_row}")

    def lines(self):
        """All cells of some columns or rows, as a block; now and then no block."""
        first = self.draw.randint(1, 4)
        last = first + self.draw.randint(0, 2)
        if self.one_in(2):
            return f"A{first}:ZZZ{last}"
        first, last = grammar.column_letters(first), grammar.column_letters(last)
        return f"{first}:{last}" if self.one_in(60) else f"{first}1:{last}{ROWS}"

    def text(self):
        choice = self.draw.random()
        if choice < 0.4:
            return self.draw.choice(TEXTS)
        if choice < 0.5:
            return str(self.draw.randint(0, 20))
        if self.one_in(300):
            return "x" * self.draw.choice((8191, 8192, 8193))
        return self.formula()

    # Commands.

    def count(self):
        if self.one_in(30):
            return self.draw.choice(("0", "0000000", "1048575", "1048576", "9999999", "0000002"))
        return str(self.draw.randint(1, 3))

    def scope(self):
        return "" if self.one_in(2) else self.sheet()

    def sheet_name(self):
        if self.one_in(12):
            return self.draw.choice(("", "a\nb", "x" * 100, "x" * 101, "\x7f", "ä", "Sheet2"))
        return self.draw.choice(SHEETS)

    def weights(self):
        plain = {
            "set": 50, "value": 6, "formula": 4, "content": 2, "precedents": 2, "dependents": 2,
            "try": 3, "clear": 0.7, "insert-rows": 2, "delete-rows": 2, "move-rows": 2,
            "insert-cols": 2, "delete-cols": 2, "move-cols": 2, "move-block": 3, "copy": 2,
            "cut": 2, "paste": 3, "undo": 3, "redo": 2, "add-sheet": 1, "add-name": 1,
            "name-value": 1, "begin": 0.5, "commit": 2, "suspend": 0.1, "resume": 0.5,
            "rename-sheet": 0.3, "drop-sheet": 0.2, "clear-sheet": 0.2, "change-name": 0.5,
            "remove-name": 0.3,
        }
        more = {
            "undo": {"undo": 20, "redo": 15, "begin": 2, "commit": 3, "drop-sheet": 1,
                     "add-sheet": 2, "rename-sheet": 1},
            "clipboard": {"copy": 12, "cut": 8, "paste": 20, "move-block": 12, "undo": 5},
            "names": {"add-name": 14, "change-name": 8, "remove-name": 4, "name-value": 10},
            "sheets": {"add-sheet": 10, "rename-sheet": 5, "drop-sheet": 4, "clear-sheet": 1},
            "functions": {"try": 100, "set": 40, "insert-rows": 0.5, "delete-rows": 0.5},
            "mixed": {},
            "books": {},
            "malformed": {},
        }[self.mode]
        return plain | more

    def fields(self, word):
        axis = word.split("-")[-1]
        at = self.letters if axis == "cols" else lambda: str(self.row())
        if word in ("set", "try"):
            if word == "try":
                return [self.sheet() if self.one_in(8) else "Sheet1", self.formula()]
            return [self.place(), self.text()]
        if word in ("clear", "copy", "cut"):
            return [self.block()]
        if word.startswith(("insert-", "delete-")):
            return [self.sheet(), at(), self.count()]
        if word in ("move-rows", "move-cols"):
            return [self.sheet(), at(), self.count(), at()]
        if word == "move-block":
            return [self.block(), self.place()]
        if word == "add-sheet":
            return [self.sheet_name()]
        if word in ("drop-sheet", "clear-sheet"):
            return [self.sheet()]
        if word == "rename-sheet":
            return [self.sheet(), self.sheet_name()]
        if word in ("add-name", "change-name"):
            return [self.draw.choice(NAMES), self.scope(), self.name_formula()]
        if word == "remove-name":
            return [self.draw.choice(NAMES), self.scope()]
        if word == "name-value":
            return [self.draw.choice(NAMES), self.sheet()]
        if word in ("undo", "redo", "begin", "commit", "suspend", "resume"):
            return []
        return [self.place()]

    def record(self, fields):
        end = self.draw.choice(("\n", "\n", "\n", "\r\n", "\r", "\n\n")) if self.one_in(10) else "\n"
        return line(fields, end, self.one_in(15))

    def table(self):
        """Records that fill lines to look things up in, and give names to some."""
        lines = (
            ("1", "2", "2", "5", "9"), ("9", "5", "5", "1", "0"), ("a", "b", "B", "x", "z"),
            ("x", "=A99", "TRUE", "=1/0", "'5"), ("", "0", "", "'", "'TRUE"),
            ("FALSE", "TRUE", "2.5", "=NA()", "é"), ("-1", "", "3", "x", "7"),
        )
        for at in range(1, 7):
            for col, text in enumerate(self.draw.choice(lines), 1):
                place = (at, col) if self.one_in(2) else (col, at)
                if not self.one_in(4):
                    yield self.record(["set", f"{grammar.column_letters(place[1])}{place[0]}", text])
        for name in NAMES[:6]:
            yield self.record(["add-name", name, self.scope(), self.name_formula()])

    def filling(self):
        """Records that fill some cells."""
        if self.mode == "functions":
            yield from self.table()
            return
        for row in range(1, 6):
            for col in "ABCD":
                if not self.one_in(4):
                    choice = self.draw.random()
                    text = str(self.draw.randint(0, 9)) if choice < 0.4 else self.formula()
                    place = self.front(0.3) + f"{col}{row}"
                    yield self.record(["set", place, text if choice < 0.8 else self.text()])

    def readout(self):
        """Records that read all that the other commands may have touched."""
        for sheet in ("Sheet1", *self.sheets[1:3]):
            for row in range(1, 7):
                for col in "ABCD":
                    place = f"{grammar.sheet_text(sheet)}!{col}{row}"
                    for word in ("value", "content"):
                        yield self.record([word, place])
            for name in NAMES[:6]:
                yield self.record(["name-value", name, sheet])
        for place in ("A1", "B2", "C3"):
            yield self.record(["precedents", place])
            yield self.record(["dependents", place])

    def malformed(self, record):
        """A record that may say nothing, or something else."""
        at = self.draw.randrange(len(record))
        piece = self.draw.choice((
            b",", b'"', b"\n", b"\r", b"\xff", b"\x00", b" ", b"$", b"0", b"!", b":", b"'", b"\xc3",
            b"\xef\xbb\xbf", b"A", b"=", b"''",
        ))
        cut = at + self.draw.randrange(2)
        return record[:at] + piece + record[cut:]

    def book(self):
        """The bytes of a book."""
        rows = [
            [self.text() if self.one_in(2) else "" for _ in range(self.draw.randint(0, 5))]
            for _ in range(self.draw.randint(0, 6))
        ]
        data = b"".join(self.record(row) for row in rows)
        if self.one_in(12):
            data = b"\xef\xbb\xbf" + data
        if self.one_in(20):
            data += b"\xff"
        return data

    def words(self, case):
        if self.one_in(3):
            limit = self.draw.choice(("0", "1", "2", "3", "0005", "1000", "1001", "x", "00001", ""))
            case.words += self.draw.choice((["--undo-limit", limit], [f"--undo-limit={limit}"]))
        if self.one_in(6):
            case.words.append("--strict")
        if self.mode == "books" or self.one_in(4):
            for _ in range(self.draw.randint(1, 3)):
                name = self.draw.choice(BOOKS)
                case.words.append(name)
                if name != "gone.csv":
                    case.files[name] = self.book()
        if self.one_in(40):
            case.words.insert(
                self.draw.randrange(len(case.words) + 1),
                self.draw.choice(ODD_WORDS),
            )
        if self.one_in(20):
            case.words += ["--script", self.draw.choice(("script.txt", "gone.txt", "", "-s"))]

    def case(self, commands):
        case = Case()
        if self.mode in ("malformed", "mixed", "undo", "books"):
            self.words(case)
        if self.one_in(4):
            case.records.append(self.record(["version", self.draw.choice("1112")]))
        case.records += [self.record(["add-sheet", name]) for name in self.sheets[1:3]]
        if self.mode != "books":
            case.records += self.filling()
        weights = self.weights()
        for word in self.draw.choices(list(weights), list(weights.values()), k=commands):
            case.records.append(self.record([word] + self.fields(word)))
        if self.mode == "malformed":
            at = self.draw.randrange(len(case.records))
            case.records[at] = self.malformed(case.records[at])
        for word in ("commit", "resume"):
            case.records.append(self.record([word]))
        case.records += self.readout()
        if "script.txt" in case.words:
            case.files["script.txt"] = case.script()
        return case


# The modes that take turns, and all.
TURNS = ("undo", "clipboard", "names", "sheets", "functions", "mixed", "malformed", "books")
MODES = (*TURNS, "edges")


def make(mode, seed, commands):
    if mode == "edges":
        return edges.make(seed)
    return Maker(mode, seed).case(commands)


if __name__ == "__main__":
    if len(sys.argv) != 4 or sys.argv[1] not in MODES:
        sys.exit(f"usage: generate.py {'|'.join(MODES)} SEED COMMANDS")
    sys.stdout.buffer.write(make(sys.argv[1], int(sys.argv[2]), int(sys.argv[3])).script())
