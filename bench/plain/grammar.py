"""Formulas: a text is read into a tree, and a tree is printed in one form."""

import re
from dataclasses import dataclass, replace

import numbers
import values
from values import Fault, Number, Text, Truth

ROWS = 1048576
# The rows of sheets in scripts of version 1.
OLD_ROWS = 40000
COLUMNS = 18278
LEVELS = 64
ADDRESS = re.compile(r"(\$?)([A-Za-z]{1,3})(\$?)([1-9][0-9]*)")
COLUMN_END = re.compile(r"(\$?)([A-Za-z]{1,3})")
ROW_END = re.compile(r"(\$?)([1-9][0-9]*)")
PLAIN_SHEET = re.compile(r"[A-Za-z_][A-Za-z0-9_]*")
NAME_WORD = re.compile(r"[A-Za-z_][A-Za-z0-9_.]*")
BLANKS = " \t\n\r"
TOKEN = re.compile(
    r"(?P<number>[0-9]+(?:\.[0-9]*)?|\.[0-9]+)"
    r'|(?P<text>"(?:[^"]|"")*")'
    r"|(?P<quoted>'(?:[^']|'')*'!)"
    r"|(?P<run>[A-Za-z_$][A-Za-z0-9_.$]*)"
    r"|(?P<mark><=|>=|<>|[=<>&+\-*/^%(),:])"
)


@dataclass(frozen=True)
class Corner:
    """A row and a column, counted from 1, and which of them have a `$`."""

    row: int
    col: int
    fixed_row: bool = False
    fixed_col: bool = False


@dataclass(frozen=True)
class Ref:
    sheet: int
    corner: Corner


@dataclass(frozen=True)
class Block:
    sheet: int
    first: Corner
    last: Corner


@dataclass(frozen=True)
class End:
    """The column or the row at an end of a whole range, and whether it has a `$`."""

    line: int
    fixed: bool = False


@dataclass(frozen=True)
class Whole:
    """All columns or all rows from one to another; its axis is "col" or "row"."""

    sheet: int
    axis: str
    first: End
    last: End


@dataclass(frozen=True)
class Name:
    word: str


@dataclass(frozen=True)
class Call:
    word: str
    arguments: tuple


@dataclass(frozen=True)
class Parens:
    inner: object


@dataclass(frozen=True)
class Sign:
    mark: str
    inner: object


@dataclass(frozen=True)
class Percent:
    inner: object


@dataclass(frozen=True)
class Binary:
    mark: str
    left: object
    right: object


class NoTree(Exception):
    """The text spells no formula."""


# Addresses.


def column_number(letters):
    number = 0
    for letter in values.capital(letters):
        number = number * 26 + ord(letter) - 64
    return number


def column_letters(number):
    letters = ""
    while number:
        number, rest = divmod(number - 1, 26)
        letters = chr(65 + rest) + letters
    return letters


def address(text):
    """The corner inside the sheet that the text spells, or None."""
    found = ADDRESS.fullmatch(text)
    if not found or len(found[4]) > 7 or int(found[4]) > ROWS:
        return None
    return Corner(int(found[4]), column_number(found[2]), bool(found[3]), bool(found[1]))


def end(token):
    """The axis of what may be an end of a whole range, and the end; else None."""
    kind, spelling = token
    if kind in ("name", "other"):
        found = COLUMN_END.fullmatch(spelling)
        if found:
            return "col", End(column_number(found[2]), bool(found[1]))
    if kind in ("number", "other"):
        found = ROW_END.fullmatch(spelling)
        if found and len(found[2]) <= 7 and int(found[2]) <= ROWS:
            return "row", End(int(found[2]), bool(found[1]))
    return None


def end_text(axis, at):
    return "$" * at.fixed + (column_letters(at.line) if axis == "col" else str(at.line))


def corner_text(corner):
    col = "$" * corner.fixed_col + column_letters(corner.col)
    return col + "$" * corner.fixed_row + str(corner.row)


def sheet_text(name):
    """A sheet's name in front of `!`, between apostrophes where it needs them."""
    if PLAIN_SHEET.fullmatch(name):
        return name
    return "'" + name.replace("'", "''") + "'"


def block(sheet, one, other):
    """The block of two corners, whose rows and columns are put in order, each with its `$`."""
    rows = sorted([(one.row, one.fixed_row), (other.row, other.fixed_row)], key=lambda r: r[0])
    cols = sorted([(one.col, one.fixed_col), (other.col, other.fixed_col)], key=lambda c: c[0])
    (top, top_fixed), (bottom, bottom_fixed) = rows
    (left, left_fixed), (right, right_fixed) = cols
    return Block(
        sheet,
        Corner(top, left, top_fixed, left_fixed),
        Corner(bottom, right, bottom_fixed, right_fixed),
    )


def whole(sheet, axis, one, other):
    """The whole range of two ends, which are put in order, each with its `$`."""
    return Whole(sheet, axis, *sorted((one, other), key=lambda at: at.line))


# Tokens.


def tokens(text):
    """The tokens of a text, as pairs of a kind and what it holds; a number holds its digits."""
    at = 0
    found = []
    while at < len(text):
        if text[at] in BLANKS:
            at += 1
            continue
        if text[at] == "#":
            fault = next(
                (f for f in values.FAULTS
                 if values.capital(text[at:at + len(f.spelling)]) == f.spelling),
                None,
            )
            if fault is None:
                raise NoTree
            found.append(("fault", fault))
            at += len(fault.spelling)
            continue
        match = TOKEN.match(text, at)
        if not match:
            raise NoTree
        at = match.end()
        kind, token = match.lastgroup, match[0]
        if kind == "number":
            if numbers.spelled_without_sign(token) is None:
                raise NoTree
            found.append(("number", token))
        elif kind == "text":
            found.append(("text", Text(token[1:-1].replace('""', '"'))))
        elif kind == "quoted":
            found.append(("sheet", token[1:-2].replace("''", "'")))
            no_blank(text, at)
        elif kind == "run":
            if text[at:at + 1] == "!":
                if not PLAIN_SHEET.fullmatch(token):
                    raise NoTree
                at += 1
                found.append(("sheet", token))
                no_blank(text, at)
            else:
                found.append(run(token, text[at:].lstrip(BLANKS)[:1]))
        else:
            found.append(("mark", token))
    found.append(("end", None))
    return found


def no_blank(text, at):
    if text[at:at + 1] in ("", *BLANKS):
        raise NoTree


def run(token, following):
    """What a run of letters, digits, `_`, `.` and `$` is, before this character."""
    if following == "(":
        if "$" in token:
            raise NoTree
        return ("word", token)
    corner = address(token)
    if corner:
        return ("corner", corner)
    truth = values.truth_spelled(token)
    if truth is not None:
        return ("truth", Truth(truth))
    return ("name" if NAME_WORD.fullmatch(token) else "other", token)


# Texts of scripts of version 1: a word that is an address behind the old last row was a name, and gets one `_` more.


GAP_WORD = re.compile(r"\$?[A-Za-z]{1,3}\$?([1-9][0-9]{0,6})_*")
PIECE = re.compile(
    r"[0-9]+(?:\.[0-9]*)?|\.[0-9]+"
    r'|"(?:[^"]|"")*"(?!")'
    r"|'(?:[^']|'')*'(?!')"
    r"|(?P<run>[A-Za-z_$][A-Za-z0-9_.$]*)"
    r"|[=<>&+\-*/^%(),:! \t\n\r]"
)


def migrated_name(word):
    found = GAP_WORD.fullmatch(word)
    if not found or not OLD_ROWS < int(found[1]) <= ROWS:
        return word
    return word + "_" if column_number(word.lstrip("$").rstrip("_$0123456789")) <= COLUMNS else word


def migrated(text):
    """What a text of version 1 is today; it stays where it doesn't begin with `=` or can't be cut into pieces."""
    if not text.startswith("="):
        return text
    at, found = 1, "="
    while at < len(text):
        fault = next(
            (f for f in values.FAULTS
             if values.capital(text[at:at + len(f.spelling)]) == f.spelling),
            None,
        )
        match = PIECE.match(text, at)
        if fault is None and not match:
            return text
        end = at + len(fault.spelling) if fault is not None else match.end()
        piece, behind = text[at:end], text[end:]
        is_word = fault is None and match["run"] is not None
        if is_word and behind[:1] != "!" and behind.lstrip(BLANKS)[:1] != "(":
            piece = migrated_name(piece)
        found += piece
        at = end
    return found


# The reader. Each method is a line of the grammar and answers a tree and its levels.

OPERATORS = (("=", "<>", "<", ">", "<=", ">="), ("&",), ("+", "-"), ("*", "/"), ("^",))


class Reader:
    def __init__(self, found, own_sheet, sheet_number):
        self.found = found
        self.at = 0
        self.own_sheet = own_sheet
        self.sheet_number = sheet_number
        self.depth = 0

    def peek(self):
        return self.found[self.at]

    def take(self, kind, mark=None):
        """Takes a token of this kind, or answers None."""
        token = self.peek()
        if token[0] == kind and (mark is None or token[1] == mark):
            self.at += 1
            return token
        return None

    def want(self, kind, mark=None):
        token = self.take(kind, mark)
        if token is None:
            raise NoTree
        return token[1]

    def level(self, *parts):
        levels = 1 + max(parts, default=0)
        if levels > LEVELS:
            raise NoTree
        return levels

    def binary(self, group):
        if group == len(OPERATORS):
            return self.post()
        left, levels = self.binary(group + 1)
        while self.peek()[0] == "mark" and self.peek()[1] in OPERATORS[group]:
            mark = self.want("mark")
            right, right_levels = self.binary(group + 1)
            left = Binary(mark, left, right)
            levels = self.level(levels, right_levels)
        return left, levels

    def post(self):
        tree, levels = self.pre()
        while self.take("mark", "%"):
            tree, levels = Percent(tree), self.level(levels)
        return tree, levels

    def pre(self):
        signs = []
        while self.peek() in (("mark", "+"), ("mark", "-")):
            signs.append(self.want("mark"))
        tree, levels = self.atom()
        for mark in reversed(signs):
            tree, levels = Sign(mark, tree), self.level(levels)
        return tree, levels

    def deeper(self):
        """Reads what stands in parentheses; text that goes deeper than a tree can isn't read."""
        self.depth += 1
        if self.depth > LEVELS:
            raise NoTree
        tree = self.binary(0)
        self.depth -= 1
        return tree

    def atom(self):
        if self.peek()[0] in ("sheet", "corner") or self.at_whole():
            return self.reference(), 1
        token = self.take("number")
        if token:
            return Number(numbers.spelled_without_sign(token[1])), 1
        for kind in ("text", "truth", "fault"):
            token = self.take(kind)
            if token:
                return token[1], 1
        token = self.take("name")
        if token:
            return Name(token[1]), 1
        token = self.take("word")
        if token:
            return self.call(values.capital(token[1]))
        self.want("mark", "(")
        tree, levels = self.deeper()
        self.want("mark", ")")
        return Parens(tree), self.level(levels)

    def call(self, word):
        self.want("mark", "(")
        arguments, levels = [], []
        if not self.take("mark", ")"):
            while True:
                tree, deep = self.deeper()
                arguments.append(tree)
                levels.append(deep)
                if self.take("mark", ")"):
                    break
                self.want("mark", ",")
        return Call(word, tuple(arguments)), self.level(*levels)

    def reference(self):
        named = self.take("sheet")
        sheet = self.sheet_number(named[1]) if named else self.own_sheet
        tree = self.whole(sheet) if self.at_whole() else self.corners(sheet)
        return values.REF if named and sheet is None else tree

    def corners(self, sheet):
        first = self.want("corner")
        last = self.want("corner") if self.take("mark", ":") else None
        return Ref(sheet, first) if last is None else block(sheet, first, last)

    def at_whole(self):
        """Whether the first end of a whole range comes, and `:` behind it."""
        return end(self.peek()) is not None and self.found[self.at + 1] == ("mark", ":")

    def whole(self, sheet):
        first, last = end(self.found[self.at]), end(self.found[self.at + 2])
        if last is None or first[0] != last[0]:
            raise NoTree
        self.at += 3
        return whole(sheet, first[0], first[1], last[1])


def read(text, own_sheet, sheet_number):
    """The tree of a formula's text, or None. A reference without a sheet's name is on the own sheet."""
    if text[:1] != "=":
        return None
    try:
        reader = Reader(tokens(text[1:]), own_sheet, sheet_number)
        tree, _ = reader.binary(0)
        reader.want("end")
        return tree
    except NoTree:
        return None


# The canonical text.


def print_formula(tree, own_sheet, sheet_name):
    return "=" + printed(tree, own_sheet, sheet_name)


def printed(tree, own_sheet, sheet_name):
    def inner(part):
        return printed(part, own_sheet, sheet_name)

    def front(sheet):
        return "" if sheet == own_sheet else sheet_text(sheet_name(sheet)) + "!"

    if isinstance(tree, Text):
        return '"' + tree.text.replace('"', '""') + '"'
    if isinstance(tree, (Number, Truth, Fault)):
        return values.shown(tree)
    if isinstance(tree, Ref):
        return front(tree.sheet) + corner_text(tree.corner)
    if isinstance(tree, Block):
        return front(tree.sheet) + corner_text(tree.first) + ":" + corner_text(tree.last)
    if isinstance(tree, Whole):
        first, last = (end_text(tree.axis, at) for at in (tree.first, tree.last))
        return front(tree.sheet) + first + ":" + last
    if isinstance(tree, Name):
        return tree.word
    if isinstance(tree, Call):
        return tree.word + "(" + ",".join(map(inner, tree.arguments)) + ")"
    if isinstance(tree, Parens):
        return "(" + inner(tree.inner) + ")"
    if isinstance(tree, Sign):
        return tree.mark + inner(tree.inner)
    if isinstance(tree, Percent):
        return inner(tree.inner) + "%"
    return inner(tree.left) + tree.mark + inner(tree.right)


# Walks.


def rewritten(tree, change):
    """The tree with `change` done to each reference, block and whole range."""
    if isinstance(tree, (Ref, Block, Whole)):
        return change(tree)
    if isinstance(tree, Call):
        return replace(tree, arguments=tuple(rewritten(a, change) for a in tree.arguments))
    if isinstance(tree, (Parens, Sign, Percent)):
        return replace(tree, inner=rewritten(tree.inner, change))
    if isinstance(tree, Binary):
        return replace(tree, left=rewritten(tree.left, change), right=rewritten(tree.right, change))
    return tree


PLACES_ONLY = ("ROW", "COLUMN", "ROWS", "COLUMNS")


def mentions(tree, all_of_them=False):
    """The references, blocks, whole ranges and names of a tree, in its order; without those whose
    place alone is asked for, unless all of them are wanted."""
    if isinstance(tree, (Ref, Block, Whole, Name)):
        yield tree
    elif isinstance(tree, Call):
        for argument in tree.arguments:
            place_only = tree.word in PLACES_ONLY and isinstance(argument, (Ref, Block, Whole))
            if all_of_them or not place_only:
                yield from mentions(argument, all_of_them)
    elif isinstance(tree, (Parens, Sign, Percent)):
        yield from mentions(tree.inner, all_of_them)
    elif isinstance(tree, Binary):
        yield from mentions(tree.left, all_of_them)
        yield from mentions(tree.right, all_of_them)
