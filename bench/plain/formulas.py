"""Random formulas."""

import random

import functions
import grammar
from grammar import ROWS

NAMES = ("RATE", "rate", "PAIR", "tax.1", "_x", "Line", "A1048577", "A50000", "a40001_", "ABC", "TRUE", "B2", "1x", "", "a b")
SIGNS = ("+", "-", "*", "/", "^", "&", "=", "<>", "<", ">", "<=", ">=")
FAULTS = ("#N/A", "#DIV/0!", "#VALUE!", "#NUM!", "#REF!", "#NAME?", "#CYCLE!", "#ERROR!")
LITERALS = (
    "0", "1", "2", "3", "0.5", "-1", "-2.5", "10", "1000", "45351", "0.000001", "999999999999",
    '""', '"a"', '"A"', '"2"', '"x"', '">1"', '"<>x"', '"a,b"', '" a  b "', '"é€"', "TRUE", "FALSE",
    "#N/A", "#DIV/0!", "#VALUE!", "12.345678", "-0.5", "6", "40", '"TRUE"', '"<=2"', '"="', '"ab"',
    "TODAY()",
)

# The kinds of the functions' arguments; the last one may be repeated.
KINDS = {
    "L": "SUM AVERAGE MIN MAX COUNT COUNTA PRODUCT AND OR XOR",
    "R": "COUNTBLANK ROW COLUMN ROWS COLUMNS",
    "RCR": "SUMIF",
    "RC": "COUNTIF",
    "N": "ABS SIGN INT MOD QUOTIENT ISEVEN ISODD POSTAGE LEVY",
    "NE": "POWER",
    "NP": "ROUND ROUNDUP ROUNDDOWN TRUNC",
    "ARM": "MATCH",
    "ARKB": "VLOOKUP HLOOKUP",
    "RKK": "INDEX",
    "KA": "CHOOSE",
    "T": "LEN TRIM VALUE CONCATENATE EXACT",
    "TQQ": "LEFT RIGHT MID REPT",
    "TTQ": "FIND",
    "TTTQ": "SUBSTITUTE",
    "YOO": "DATE",
    "D": "YEAR MONTH DAY DAYS",
    "DW": "WEEKDAY",
    "DO": "EDATE EOMONTH",
    "BA": "IF",
    "B": "NOT",
    "A": "ISERROR ISERR ISNA ISNUMBER ISTEXT ISLOGICAL ISBLANK IFERROR IFNA TRUE FALSE NA TODAY",
}
KINDS = {word: kinds for kinds, words in KINDS.items() for word in words.split()}
SMALL = ("0", "1", "2", "3", "-1", "2.9", "-2", "0.5", "-0.5", "4", "TRUE", '"2"', "99")
# What arguments of a kind often are.
OFTEN = {
    "N": ("0", "1", "2", "7", "-7", "0.4", "-3.2", "1.21", "1999", "-1.987", "2.5", "-2.5", "5000.5",
          "0.000001", "999999999999", "-999999999999.5", '"-.5"', '"x"', "TRUE", "0.0000005", "12345"),
    "E": ("0", "1", "2", "-1", "-2", "3", "10", "-12", "0.5", "1000", "-1000", "1001", "-1001", "-7"),
    "P": ("0", "1", "2", "5", "6", "7", "-1", "-2", "-3", "-11", "-12", "-13", "0.9", "-0.9", "-1.9",
          "999999999999", "-999999999999", '"1"', "TRUE"),
    "M": ("0", "1", "-1", "0", "1", "-1", "2", "0.5", "-0.5", "TRUE", "FALSE", '"0"', "1.5"),
    "K": SMALL,
    "Q": SMALL + ("6", "40", "16384", "999999999999", "-0.000001"),
    "B": ("TRUE", "FALSE", "1=1", "0", "0.5", '"true"', '"x"', '"FALSE"'),
    "W": ("1", "2", "3", "0", "4", "1.5", "2.9", '"2"', "TRUE"),
    "O": ("0", "1", "-1", "2", "12", "13", "-12", "1.9", "-1.9", "29.5", "31", "-10", "120001",
          "-3652424", "100000", "-999999999999", "999999999999"),
    "D": ("0", "1", "29", "30", "31", "59", "60", "61", "366", "45292", "45322", "45351", "45351.9",
          "2958465", "2958465.9", "2958466", "-1", "-0.9", "36525", '"45351"', "1900"),
    "Y": ("0", "1", "99", "1899", "1900", "1899.9", "2000", "2023", "2024", "9999", "9999.9", "10000",
          "-1", "-0.9", "2100"),
    "T": ('""', '"a"', '"ab"', '"abcb"', '"  a  b "', '"é€b"', '"aaa"', '"aa"', '"b"', "1.50", "TRUE",
          '"-.5"', '"AB"', '"a\t b"', '"1e3"', '"+1"', '"."', "12", "-0.5", '"\U0001f600b"',
          'REPT("ab",16384)', 'REPT("é",16383)', 'REPT("a",32767)'),
    "C": ('">1"', '"<>x"', '"<=2"', '"="', '""', '"<>"', '"<"', '">="', '"<="', '"5"', '"<>5"', "5",
          "0", '"=x"', '"X"', '">a"', '"TRUE"', "TRUE", '"<>TRUE"', '">=0"', '"<1"', '"=<1"', '"<>#N/A"',
          '"= 1"', '">=x"', '"b"', '"<>0"', "1/0", '"==x"', '"é"'),
    "A": ("0", "1", "2", "5", "3.5", '"x"', '"X"', '"b"', "TRUE", "FALSE", '""', '"5"', "-1", "99"),
}


class Formulas:
    """Draws formulas. `sheets` are the names that references may have, the first ones more often."""

    def __init__(self, mode, seed, sheets):
        self.mode = mode
        self.draw = random.Random(f"{mode} {seed}")
        self.sheets = sheets

    def one_in(self, count):
        return self.draw.randrange(count) == 0

    # References.

    def letters(self):
        if self.one_in(40):
            return self.draw.choice(("ZZZ", "ZZY", "zz"))
        letters = grammar.column_letters(self.draw.randint(1, 5))
        return letters.lower() if self.one_in(20) else letters

    def sheet(self):
        choice = self.draw.random()
        if choice < 0.6:
            return "Sheet1"
        return self.draw.choice(self.sheets[1:3] if choice < 0.85 else self.sheets)

    def front(self, often):
        return "" if self.draw.random() >= often else grammar.sheet_text(self.sheet()) + "!"

    def often(self):
        return {"sheets": 0.4, "mixed": 0.2, "names": 0.2}.get(self.mode, 0.05)

    def corner(self):
        row = self.draw.randint(1, 6) if not self.one_in(60) else ROWS
        col = self.letters() if not self.one_in(60) else "ZZZ"
        return self.dollar() + col + self.dollar() + str(row)

    def dollar(self):
        return "$" if self.one_in(3) else ""

    def reference(self):
        return self.front(self.often()) + self.corner()

    def area(self):
        if self.one_in(8):
            return self.front(self.often()) + self.whole()
        if self.one_in(2):
            return f"{self.front(self.often())}{self.corner()}:{self.corner()}"
        return self.front(self.often()) + self.line()

    def line(self):
        """A block of one row or one column, or one of a few of both."""
        row, col = self.draw.randint(1, 6), self.draw.randint(1, 4)
        down, right = self.draw.choice(((0, 1), (0, 2), (0, 4), (2, 0), (4, 0), (0, 0), (1, 1), (5, 2)))
        return (f"{grammar.column_letters(col)}{row}"
                f":{grammar.column_letters(col + right)}{row + down}")

    def whole(self):
        """All columns or all rows from one to another."""
        columns = self.one_in(2)

        def end():
            if columns:
                return self.dollar() + self.letters()
            return self.dollar() + str(ROWS if self.one_in(60) else self.draw.randint(1, 6))

        return end() + (" : " if self.one_in(20) else ":") + end()

    def name(self):
        return self.draw.choice(NAMES[:9])

    # Parts.

    def part(self, depth):
        """A part of a formula."""
        choice = self.draw.random()
        if depth <= 0 or choice < 0.25:
            return self.draw.choice(LITERALS) if self.one_in(2) else self.reference()
        if choice < 0.35:
            return self.reference()
        if choice < 0.40:
            return self.area()
        if choice < (0.60 if self.mode == "names" else 0.45):
            return self.name()
        if choice < 0.75:
            return self.call(depth)
        if choice < 0.8:
            return f"({self.part(depth - 1)})"
        if choice < 0.85:
            return self.draw.choice("+-") + self.part(depth - 1)
        if choice < 0.88:
            return self.part(depth - 1) + "%"
        return self.part(depth - 1) + self.draw.choice(SIGNS) + self.part(depth - 1)

    def call(self, depth):
        word = self.draw.choice(sorted(functions.KNOWN))
        least, most, _ = functions.KNOWN[word]
        count = self.draw.randint(least, least + 2 if most is None else most)
        if self.one_in(30):
            count = self.draw.randint(0, 5)
        kinds = KINDS.get(word, "N")
        arguments = [self.argument(kinds[min(at, len(kinds) - 1)], depth - 1) for at in range(count)]
        if word in ("MIN", "MAX", "IF", "SUM") and self.one_in(2):
            word = self.draw.choice((word.lower(), word.capitalize()))
        return f"{word}({','.join(arguments)})"

    def argument(self, kind, depth):
        """An argument of a kind, and now and then one of another."""
        choice = self.draw.random()
        if choice < 0.6:
            if kind == "R" or kind == "L" and self.one_in(2):
                return self.area()
            return self.draw.choice(OFTEN.get(kind, LITERALS))
        if choice < 0.76:
            return self.reference()
        if choice < 0.84:
            return self.area()
        if choice < 0.88:
            return self.name()
        if choice < 0.91:
            return self.draw.choice(FAULTS)
        if choice < 0.95:
            inner = self.area() if self.one_in(3) else self.reference()
            return self.draw.choice((f"({inner})", f"+{inner}", f"IF(TRUE,{inner})", f"-{inner}"))
        return self.part(depth)

    def formula(self):
        if self.mode == "functions" and self.one_in(2):
            text = "=" + self.call(self.draw.randint(1, 2))
        else:
            text = "=" + self.part(self.draw.randint(1, 4))
        if self.one_in(30):
            at = self.draw.randrange(len(text))
            text = text[:at] + self.draw.choice(' ()",!:$%#') + text[at:]
        return text

    def name_formula(self):
        if self.one_in(4):
            return self.formula()
        sheet = "" if self.one_in(6) else grammar.sheet_text(self.sheet()) + "!"

        def corner():
            return f"${grammar.column_letters(self.draw.randint(1, 4))}${self.draw.randint(1, 5)}"

        return self.draw.choice((
            f"={sheet}{corner()}", f"={sheet}{corner()}:{corner()}",
            f"={sheet}{corner()}+1", f"=SUM({sheet}{corner()}:{corner()})",
            f"={self.name()}", f"={self.name()}*2", "=ROW()", "=0.2", f"=IF(TRUE,2,{self.name()})",
            f"={sheet}{self.whole()}", f"={sheet}$B:$C", f"=SUM({sheet}$2:$3)",
        ))
