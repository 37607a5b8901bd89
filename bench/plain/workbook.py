"""A workbook, its operations, and a session with undo, batches and a clipboard.

Every operation makes a new workbook: it rewrites every formula and copies the whole.
"""

from dataclasses import dataclass, replace

import grammar
import numbers
import values
from evaluate import Evaluation, area
from grammar import COLUMNS, ROWS, Block, Corner, Name, Ref, Whole
from values import Number, Text, Truth

SHEETS = 1024
CELLS = 1_000_000
TEXT_BYTES = 8192
SHEET_NAME_BYTES = 100
NAME_BYTES = 255


class Refused(Exception):
    """A command can't be done, for this cause."""


def check(holds, cause):
    if not holds:
        raise Refused(cause)


@dataclass(frozen=True)
class Formula:
    """A formula's tree, or None with the text as it was given."""

    tree: object
    text: str = ""


@dataclass(frozen=True)
class Span:
    """A block by the name of its sheet, or None for the first sheet."""

    sheet: str
    row: int
    col: int
    rows: int = 1
    cols: int = 1


def sheet_name_is_valid(name):
    controls = any(ord(c) < 32 or ord(c) == 127 for c in name)
    return 1 <= len(name.encode()) <= SHEET_NAME_BYTES and not controls


def name_is_valid(word):
    return (
        1 <= len(word.encode()) <= NAME_BYTES
        and grammar.NAME_WORD.fullmatch(word) is not None
        and values.truth_spelled(word) is None
        and grammar.address(word) is None
    )


class Workbook:
    """Sheets as pairs of a number and a name, contents by place, formulas of names by scope and
    word in capitals. The scope of the whole workbook is None."""

    def __init__(self, sheets=(), cells=None, names=None):
        self.sheets = tuple(sheets)
        self.cells = cells or {}
        self.names = names or {}

    def copy(self):
        return Workbook(self.sheets, dict(self.cells), dict(self.names))

    # Questions.

    def sheet_number(self, name):
        """The number of the sheet of this name, in any case of its ASCII letters, or None."""
        for number, known in self.sheets:
            if values.small(known) == values.small(name):
                return number
        return None

    def sheet_name(self, number):
        return dict(self.sheets)[number]

    def tree(self, place):
        content = self.cells.get(place)
        return content.tree if isinstance(content, Formula) else None

    def find_name(self, word, scope):
        """The name that a word finds in a scope, or None."""
        for name in ((scope, values.capital(word)), (None, values.capital(word))):
            if name in self.names:
                return name
        return None

    def read(self, text, own_sheet):
        return grammar.read(text, own_sheet, self.sheet_number)

    def print(self, tree, own_sheet):
        return grammar.print_formula(tree, own_sheet, self.sheet_name)

    def meaning(self, text, sheet):
        """The content that a text gives to a cell of the sheet, or None for an empty cell."""
        if text == "":
            return None
        if text.startswith("="):
            tree = self.read(text, sheet)
            return Formula(tree) if tree is not None else Formula(None, text)
        number = numbers.spelled(text)
        if number is not None:
            return Number(number)
        truth = values.truth_spelled(text)
        if truth is not None:
            return Truth(truth)
        return Text(text[1:] if text.startswith("'") else text)

    def formula_text(self, place):
        """The text of the cell's formula, or None."""
        content = self.cells.get(place)
        if not isinstance(content, Formula):
            return None
        return content.text if content.tree is None else self.print(content.tree, place[0])

    def content_text(self, place):
        """The text that gives the cell its content."""
        content = self.cells.get(place)
        if isinstance(content, Formula):
            return self.formula_text(place)
        text = values.shown(content)
        if isinstance(content, Text) and self.meaning(text, place[0]) != content:
            return "'" + text
        return text

    # Rewriting. Each operation is made on a copy.

    def put(self, place, content):
        if content is None:
            self.cells.pop(place, None)
        else:
            self.cells[place] = content

    def rewrite(self, change):
        """Does `change` to each reference, block and whole range of every formula."""
        for place, content in self.cells.items():
            if isinstance(content, Formula) and content.tree is not None:
                self.cells[place] = Formula(grammar.rewritten(content.tree, change))
        for name, tree in self.names.items():
            self.names[name] = grammar.rewritten(tree, change)

    def move_lines(self, sheet, axis, line, span):
        """Takes the rows or columns of a sheet to where `line` and `span` say: the one takes a row
        to its new place or None, the other the first and the last row of a range."""

        def change(tree):
            if tree.sheet != sheet:
                return tree
            if isinstance(tree, Ref):
                new = line(getattr(tree.corner, axis))
                if new is None:
                    return values.REF
                return Ref(sheet, replace(tree.corner, **{axis: new}))
            if isinstance(tree, Whole):
                return tree if tree.axis != axis else along(tree)
            new = span(getattr(tree.first, axis), getattr(tree.last, axis))
            if new is None:
                return values.REF
            first = replace(tree.first, **{axis: new[0]})
            return Block(sheet, first, replace(tree.last, **{axis: new[1]}))

        def along(tree):
            new = span(tree.first.line, tree.last.line)
            if new is None:
                return values.REF
            first, last = (replace(at, line=line) for at, line in zip((tree.first, tree.last), new))
            return replace(tree, first=first, last=last)

        self.rewrite(change)
        cells = {}
        for (number, row, col), content in self.cells.items():
            if number == sheet and axis == "row":
                row = line(row)
            elif number == sheet:
                col = line(col)
            if row is not None and col is not None:
                cells[number, row, col] = content
        self.cells = cells

    def move_block(self, source, row, col, sheet, rows, cols):
        """Moves the block of this size from the place `source` to a place on the sheet."""
        from_sheet, from_row, from_col = source

        def moved(corner):
            return replace(corner, row=corner.row - from_row + row, col=corner.col - from_col + col)

        def in_source(number, corner):
            return (number == from_sheet and 0 <= corner.row - from_row < rows
                    and 0 <= corner.col - from_col < cols)

        def in_target(number, corner):
            return (number == sheet and 0 <= corner.row - row < rows
                    and 0 <= corner.col - col < cols)

        def change(tree):
            corners = corners_of(tree)
            if all(in_source(tree.sheet, corner) for corner in corners):
                if isinstance(tree, Ref):
                    return Ref(sheet, moved(tree.corner))
                if isinstance(tree, Whole):
                    by = row - from_row if tree.axis == "row" else col - from_col
                    first, last = (replace(at, line=at.line + by) for at in (tree.first, tree.last))
                    return Whole(sheet, tree.axis, first, last)
                return Block(sheet, moved(tree.first), moved(tree.last))
            if all(in_target(tree.sheet, corner) for corner in corners):
                return values.REF
            return tree

        self.rewrite(change)
        taken = {}
        for place in list(self.cells):
            if in_source(place[0], Corner(*place[1:])):
                taken[place] = self.cells.pop(place)
        for place in list(self.cells):
            if in_target(place[0], Corner(*place[1:])):
                del self.cells[place]
        for (_, old_row, old_col), content in taken.items():
            self.cells[sheet, old_row - from_row + row, old_col - from_col + col] = content


def corners_of(tree):
    """The corner of a reference, or the first and the last one of a block or a whole range."""
    if isinstance(tree, Ref):
        return [tree.corner]
    if isinstance(tree, Whole):
        cells = area(tree)
        last = Corner(cells.row + cells.rows - 1, cells.col + cells.cols - 1)
        return [Corner(cells.row, cells.col), last]
    return [tree.first, tree.last]


def is_fixed(tree):
    """Whether a reference, a block or a whole range has all of its `$`."""
    if isinstance(tree, Whole):
        return tree.first.fixed and tree.last.fixed
    return all(corner.fixed_row and corner.fixed_col for corner in corners_of(tree))


# Where rows or columns go. `size` is how many a sheet has.


def inserting(at, count, size):
    def line(old):
        new = old if old < at else old + count
        return new if new <= size else None

    def span(first, last):
        first = first if first < at else first + count
        last = last if last < at else min(last + count, size)
        return (first, last) if first <= size else None

    return line, span


def deleting(at, count):
    def line(old):
        if old < at:
            return old
        return None if old < at + count else old - count

    def span(first, last):
        first = first if first < at else max(first - count, at)
        last = last if last < at else max(last - count, at - 1)
        return (first, last) if first <= last else None

    return line, span


def moving(at, count, before, size):
    """As if the lines were deleted and put in again; a range inside of them goes along, another
    one shrinks and grows."""
    target = before if before <= at else before - count
    without_line, without_span = deleting(at, count)
    with_line, with_span = inserting(target, count, size)

    def line(old):
        if at <= old < at + count:
            return target + old - at
        return with_line(without_line(old))

    def span(first, last):
        if at <= first and last < at + count:
            return line(first), line(last)
        return with_span(*without_span(first, last))

    return line, span


class Session:
    """A workbook that commands change, and what can be undone, done again and pasted."""

    def __init__(self, undo_limit, today):
        self.book = Workbook()
        self.undo_limit = undo_limit
        self.today = today
        self.done = []
        self.undone = []
        # The workbook before an open batch, and whether it was changed since.
        self.batch = None
        self.batch_changed = False
        self.suspended = False
        self.clipboard = None
        self.last_sheet = 0
        self.values = None

    # Steps.

    def change(self, book):
        """Makes this the workbook, as a step or as a part of the open batch."""
        self.undone.clear()
        if self.batch is None:
            self.step(self.book)
        self.batch_changed = True
        self.book = book
        self.forget_cut()

    def step(self, before):
        self.done.append(before)
        if len(self.done) > self.undo_limit:
            del self.done[0]

    def forget_cut(self):
        if isinstance(self.clipboard, Cut):
            self.clipboard = None

    def undo(self):
        check(self.batch is None, "BatchOpen")
        check(self.done, "NothingToUndo")
        self.undone.append(self.book)
        self.book = self.done.pop()
        self.forget_cut()

    def redo(self):
        check(self.batch is None, "BatchOpen")
        check(self.undone, "NothingToRedo")
        self.done.append(self.book)
        self.book = self.undone.pop()
        self.forget_cut()

    def begin(self):
        check(self.batch is None, "BatchOpen")
        self.batch = self.book
        self.batch_changed = False

    def commit(self):
        check(self.batch is not None, "NoBatch")
        if self.batch_changed:
            self.step(self.batch)
        self.batch = None

    def suspend(self):
        self.suspended = True

    def resume(self):
        self.suspended = False

    # Places.

    def sheet(self, name):
        """The number of a sheet by its name; None is the first of the list."""
        if name is None:
            number = self.book.sheets[0][0] if self.book.sheets else None
        else:
            number = self.book.sheet_number(name)
        check(number is not None, "NoSheet")
        return number

    def inside(self, row, col, rows=1, cols=1):
        check(row + rows - 1 <= ROWS and col + cols - 1 <= COLUMNS, "Outside")

    def block(self, block):
        """The sheet of a block that is inside of it."""
        sheet = self.sheet(block.sheet)
        self.inside(block.row, block.col, block.rows, block.cols)
        return sheet

    def place(self, place):
        return (self.block(place), place.row, place.col)

    # Cells.

    def set(self, at, text):
        place = self.place(at)
        check(len(text.encode()) <= TEXT_BYTES, "TextLimit")
        book = self.book.copy()
        book.put(place, book.meaning(text, place[0]))
        check(len(book.cells) <= CELLS, "CellLimit")
        self.change(book)

    def clear(self, block):
        sheet = self.block(block)
        book = self.book.copy()
        for number, row, col in self.book.cells:
            if (number == sheet and 0 <= row - block.row < block.rows
                    and 0 <= col - block.col < block.cols):
                del book.cells[number, row, col]
        self.change(book)

    # Rows and columns; an axis is "row" or "col".

    def insert(self, axis, name, at, count):
        sheet, size = self.sheet(name), size_of(axis)
        check(count > 0, "BadSpan")
        check(at <= size, "Outside")
        line, span = inserting(at, count, size)
        for place in self.book.cells:
            old = place[1] if axis == "row" else place[2]
            check(place[0] != sheet or line(old) is not None, "SizeLimit")
        self.lines(sheet, axis, line, span)

    def delete(self, axis, name, at, count):
        sheet = self.sheet(name)
        check(count > 0, "BadSpan")
        check(at + count - 1 <= size_of(axis), "Outside")
        self.lines(sheet, axis, *deleting(at, count))

    def move(self, axis, name, at, count, before):
        sheet, size = self.sheet(name), size_of(axis)
        check(count > 0, "BadSpan")
        check(at + count - 1 <= size and before <= size + 1, "Outside")
        check(not at <= before <= at + count, "BadSpan")
        self.lines(sheet, axis, *moving(at, count, before, size))

    def lines(self, sheet, axis, line, span):
        book = self.book.copy()
        book.move_lines(sheet, axis, line, span)
        self.change(book)

    def move_block(self, block, to):
        source, target = self.sheet(block.sheet), self.sheet(to.sheet)
        self.inside(block.row, block.col, block.rows, block.cols)
        self.inside(to.row, to.col, block.rows, block.cols)
        here = (source, block.row, block.col)
        check(here != (target, to.row, to.col), "BadSpan")
        book = self.book.copy()
        book.move_block(here, to.row, to.col, target, block.rows, block.cols)
        self.change(book)

    # Sheets.

    def add_sheet(self, name):
        check(sheet_name_is_valid(name), "SheetNameInvalid")
        check(self.book.sheet_number(name) is None, "SheetNameTaken")
        check(self.last_sheet < SHEETS, "SheetLimit")
        self.last_sheet += 1
        book = self.book.copy()
        book.sheets += ((self.last_sheet, name),)
        self.change(book)
        return self.last_sheet - 1

    def drop_sheet(self, name):
        sheet = self.sheet(name)
        book = self.book.copy()
        book.sheets = tuple(s for s in book.sheets if s[0] != sheet)
        book.cells = {p: c for p, c in book.cells.items() if p[0] != sheet}
        book.names = {n: t for n, t in book.names.items() if n[0] != sheet}
        book.rewrite(lambda tree: values.REF if tree.sheet == sheet else tree)
        self.change(book)

    def rename_sheet(self, name, new):
        sheet = self.sheet(name)
        check(sheet_name_is_valid(new), "SheetNameInvalid")
        check(self.book.sheet_number(new) in (None, sheet), "SheetNameTaken")
        book = self.book.copy()
        book.sheets = tuple((n, new if n == sheet else old) for n, old in book.sheets)
        self.change(book)

    def clear_sheet(self, name):
        sheet = self.sheet(name)
        book = self.book.copy()
        book.cells = {p: c for p, c in book.cells.items() if p[0] != sheet}
        self.change(book)

    # Names.

    def scope(self, name):
        return None if name == "" else self.sheet(name)

    def name_tree(self, scope, text):
        check(len(text.encode()) <= TEXT_BYTES, "TextLimit")
        tree = self.book.read(text, scope)
        check(tree is not None, "BadFormula")
        for mention in grammar.mentions(tree, all_of_them=True):
            if isinstance(mention, Name):
                continue
            check(is_fixed(mention) and mention.sheet is not None, "RelativeAddress")
        return tree

    def add_name(self, word, scope_name, text):
        scope = self.scope(scope_name)
        check(name_is_valid(word), "NameInvalid")
        check((scope, values.capital(word)) not in self.book.names, "NameTaken")
        tree = self.name_tree(scope, text)
        book = self.book.copy()
        book.names[scope, values.capital(word)] = tree
        self.change(book)

    def change_name(self, word, scope_name, text):
        scope = self.scope(scope_name)
        check((scope, values.capital(word)) in self.book.names, "NoSuchName")
        tree = self.name_tree(scope, text)
        book = self.book.copy()
        book.names[scope, values.capital(word)] = tree
        self.change(book)

    def remove_name(self, word, scope_name):
        scope = self.scope(scope_name)
        check((scope, values.capital(word)) in self.book.names, "NoSuchName")
        book = self.book.copy()
        del book.names[scope, values.capital(word)]
        self.change(book)

    # The clipboard.

    def copy(self, block):
        sheet = self.block(block)
        held = {
            (row - block.row, col - block.col): content
            for (number, row, col), content in self.book.cells.items()
            if number == sheet and 0 <= row - block.row < block.rows
            and 0 <= col - block.col < block.cols
        }
        self.clipboard = Copied(sheet, block, held)

    def cut(self, block):
        sheet = self.block(block)
        self.clipboard = Cut(replace(block, sheet=self.book.sheet_name(sheet)))

    def paste(self, to):
        check(self.clipboard is not None, "NothingToPaste")
        if isinstance(self.clipboard, Cut):
            self.move_block(self.clipboard.block, to)
            return
        copied = self.clipboard
        target = self.sheet(to.sheet)
        self.inside(to.row, to.col, copied.block.rows, copied.block.cols)
        down, right = to.row - copied.block.row, to.col - copied.block.col
        book = self.book.copy()
        for place in self.book.cells:
            if (place[0] == target and 0 <= place[1] - to.row < copied.block.rows
                    and 0 <= place[2] - to.col < copied.block.cols):
                del book.cells[place]
        known = dict(book.sheets)
        for (row, col), content in copied.held.items():
            if isinstance(content, Formula) and content.tree is not None:
                content = Formula(grammar.rewritten(
                    content.tree,
                    lambda tree: gone_along(tree, copied.sheet, target, down, right, known),
                ))
            book.cells[target, to.row + row, to.col + col] = content
        check(len(book.cells) <= CELLS, "CellLimit")
        self.change(book)

    # What is asked for.

    def check_evaluation(self):
        check(not self.suspended and self.batch is None, "Suspended")

    def evaluation(self):
        """The values of the workbook as it is; a workbook that was asked before is a new one only
        after a change."""
        if self.values is None or self.values.book is not self.book:
            self.values = Evaluation(self.book, self.today)
        return self.values

    def value(self, at):
        self.check_evaluation()
        return values.shown(self.evaluation().show_cell(self.place(at)))

    def formula(self, at):
        text = self.book.formula_text(self.place(at))
        return "none" if text is None else text

    def content(self, at):
        return self.book.content_text(self.place(at))

    def name_value(self, word, sheet_name):
        self.check_evaluation()
        name = self.book.find_name(word, self.sheet(sheet_name))
        check(name is not None, "NoSuchName")
        return values.shown(self.evaluation().show_name(name))

    def try_formula(self, sheet_name, text):
        self.check_evaluation()
        sheet = self.sheet(sheet_name)
        check(len(text.encode()) <= TEXT_BYTES, "TextLimit")
        tree = self.book.read(text, sheet)
        check(tree is not None, "BadFormula")
        return values.shown(self.evaluation().show_formula(tree, sheet))

    # Links.

    def cell_link(self, sheet, row, col):
        return f"{self.book.sheet_name(sheet)}!{grammar.column_letters(col)}{row}"

    def name_link(self, name):
        scope, word = name
        return word if scope is None else f"{self.book.sheet_name(scope)}!{word}"

    def link(self, mention, scope):
        """The link of a reference, a block or a name, or None where the word finds none; a whole
        range has that of its block."""
        if isinstance(mention, Name):
            name = self.book.find_name(mention.word, scope)
            return None if name is None else self.name_link(name)
        if isinstance(mention, Ref):
            return self.cell_link(mention.sheet, mention.corner.row, mention.corner.col)
        first, last = corners_of(mention)
        return (self.cell_link(mention.sheet, first.row, first.col)
                + f":{grammar.column_letters(last.col)}{last.row}")

    def precedents(self, at):
        place = self.place(at)
        tree = self.book.tree(place)
        mentions = grammar.mentions(tree) if tree is not None else []
        links = dict.fromkeys(self.link(mention, place[0]) for mention in mentions)
        return " ".join(link for link in links if link is not None)

    def dependents(self, at):
        sheet, row, col = self.place(at)

        def needs_it(tree):
            for mention in grammar.mentions(tree):
                if isinstance(mention, Name) or mention.sheet != sheet:
                    continue
                block = area(mention)
                if 0 <= row - block.row < block.rows and 0 <= col - block.col < block.cols:
                    return True
            return False

        places = sorted(p for p in self.book.cells if self.book.tree(p) is not None)
        links = [self.cell_link(*p) for p in places if needs_it(self.book.tree(p))]
        names = sorted(self.book.names, key=lambda n: (n[0] or 0, n[1].encode()))
        links += [self.name_link(n) for n in names if needs_it(self.book.names[n])]
        return " ".join(links)


@dataclass(frozen=True)
class Copied:
    """What the cells of a block held, by their place in it."""

    sheet: int
    block: Span
    held: dict


@dataclass(frozen=True)
class Cut:
    """A block that waits to be moved."""

    block: Span


def size_of(axis):
    return ROWS if axis == "row" else COLUMNS


def gone_along(tree, source, target, down, right, known):
    """A reference, block or whole range of a copied formula as it is pasted: its sheet is that
    which is pasted to, where it was that which was copied from; its corners and ends without `$` go
    by the distance."""
    sheet = target if tree.sheet == source else tree.sheet
    if sheet not in known:
        return values.REF
    if isinstance(tree, Whole):
        by, size = (down, ROWS) if tree.axis == "row" else (right, COLUMNS)
        ends = [at if at.fixed else replace(at, line=at.line + by) for at in (tree.first, tree.last)]
        if not all(1 <= at.line <= size for at in ends):
            return values.REF
        return grammar.whole(sheet, tree.axis, *ends)
    corners = [tree.corner] if isinstance(tree, Ref) else [tree.first, tree.last]
    gone = []
    for corner in corners:
        row = corner.row if corner.fixed_row else corner.row + down
        col = corner.col if corner.fixed_col else corner.col + right
        if not (1 <= row <= ROWS and 1 <= col <= COLUMNS):
            return values.REF
        gone.append(replace(corner, row=row, col=col))
    return Ref(sheet, gone[0]) if isinstance(tree, Ref) else grammar.block(sheet, *gone)
