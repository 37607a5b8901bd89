"""Workbooks."""
from contextlib import contextmanager
from ctypes import byref, c_uint8, c_uint32
from datetime import date
from decimal import Decimal
from typing import Dict, Iterator, List, Mapping, Optional, Union

from . import library
from .calls import Calls
from .changes import row_of
from .library import NO_NUMBER
from .rules import Bands, Tiers, table
from .statuses import Refusal
from .values import Block, Kind, Link, Name, Place, Value, millionths

# The day whose serial number is 0.
DAY_0 = date(1899, 12, 30)


class Workbook(Calls):
    """A workbook without sheets, of which `undo_limit` steps can be undone, at most 1,000.

    Formulas see `today` as the day, without it the local day of the clock, and can call the functions of `rules` by their words.
    """

    def __init__(
        self,
        undo_limit: int = 20,
        today: Optional[date] = None,
        rules: Optional[Mapping[str, Union[Bands, Tiers]]] = None,
    ) -> None:
        super().__init__()
        told = table(rules or {})
        day = ((today or date.today()) - DAY_0).days
        self._do("open", undo_limit, day, told.rules, len(told.rules), told.pairs, len(told.pairs), told.words, len(told.words))

    def __enter__(self) -> "Workbook":
        return self

    def __exit__(self, *_: object) -> None:
        self.close()

    def close(self) -> None:
        """Frees the workbook, after which its calls raise ValueError. Once more does nothing."""
        self._call("close")

    # Cells, rows and columns.

    def set(self, at: Place, text: str) -> None:
        """Gives a cell the content that the text says."""
        self._do("set", *at, *_text(text))

    def set_number(self, at: Place, number: Union[Decimal, int]) -> None:
        """Gives a cell a number of at most six places, below 10^12 in absolute value."""
        self._do("set_number", *at, millionths(number))

    def set_truth(self, at: Place, truth: bool) -> None:
        """Gives a cell a truth value."""
        self._do("set_truth", *at, truth)

    def set_text(self, at: Place, text: str) -> None:
        """Gives a cell this text as it is, which needs no apostrophe: `007` stays three characters, `=A1` is no formula."""
        self._do("set_text", *at, *_text(text))

    def write_all(self, cells: Mapping[Place, str]) -> None:
        """Gives many cells the contents that their texts say, as one change: all of them or none, and one step of undo.

        The cells may come in any order.
        """
        rows, texts = (library.Written * len(cells))(), bytearray()
        for row, (at, text) in zip(rows, sorted(cells.items())):
            encoded = text.encode()
            row.sheet, row.row, row.col, row.text_start, row.text_length = *at, len(texts), len(encoded)
            texts += encoded
        self._do("write_all", rows, len(rows), bytes(texts), len(texts))

    def clear(self, area: Block) -> None:
        """Empties the cells of a block."""
        self._do("clear", *area)

    def insert_rows(self, sheet: int, at: int, count: int) -> None:
        """Puts so many rows before a row of the sheet."""
        self._do("insert_rows", sheet, at, count)

    def delete_rows(self, sheet: int, at: int, count: int) -> None:
        """Deletes so many rows of the sheet from a row on."""
        self._do("delete_rows", sheet, at, count)

    def move_rows(self, sheet: int, start: int, count: int, before: int) -> None:
        """Moves so many rows of the sheet from a row on to before another row."""
        self._do("move_rows", sheet, start, count, before)

    def insert_cols(self, sheet: int, at: int, count: int) -> None:
        """Puts so many columns before a column of the sheet."""
        self._do("insert_cols", sheet, at, count)

    def delete_cols(self, sheet: int, at: int, count: int) -> None:
        """Deletes so many columns of the sheet from a column on."""
        self._do("delete_cols", sheet, at, count)

    def move_cols(self, sheet: int, start: int, count: int, before: int) -> None:
        """Moves so many columns of the sheet from a column on to before another column."""
        self._do("move_cols", sheet, start, count, before)

    def move_block(self, source: Block, to: Place) -> None:
        """Moves the cells of a block to the block of the same size that begins at a place."""
        self._do("move_block", *source, *to)

    # Sheets.

    def add_sheet(self, name: str) -> int:
        """Adds a sheet at the end of the list, and answers its number."""
        number = c_uint32()
        self._do("add_sheet", *_text(name), byref(number))
        return number.value

    def drop_sheet(self, sheet: int) -> None:
        """Drops a sheet with its cells and the names of its scope."""
        self._do("drop_sheet", sheet)

    def rename_sheet(self, sheet: int, name: str) -> None:
        """Gives a sheet another name."""
        self._do("rename_sheet", sheet, *_text(name))

    def clear_sheet(self, sheet: int) -> None:
        """Empties the cells of a sheet."""
        self._do("clear_sheet", sheet)

    def sheets(self) -> List[int]:
        """The numbers of the sheets, in the order of their list."""
        return [self._call("sheet_at", place) for place in range(self._call("sheet_count"))]

    def sheet_id(self, name: str) -> Optional[int]:
        """The number of the sheet of this name, in any case of its ASCII letters."""
        number = self._call("sheet_id", *_text(name))
        return None if number == NO_NUMBER else number

    def sheet_name(self, sheet: int) -> str:
        """The name of a sheet."""
        return self._text("sheet_name", sheet)

    # Named expressions: of the whole workbook, where there is no scope.

    def names(self) -> List[Name]:
        """All names: those of the whole workbook, then those of each sheet, within a scope by their words in capitals."""
        return [self._name(*row) for row in self._list("names", library.NAME_ROW)]

    def name_text(self, name: str, scope: Optional[int] = None) -> str:
        """The text of the formula of a scope's own name."""
        return self._text("name_text", *_text(name), _scope(scope))

    def add_name(self, name: str, text: str, scope: Optional[int] = None) -> None:
        """Adds a name with the formula of the text, each of whose references has its `$` and, without a scope, its sheet."""
        self._do("add_name", *_text(name), _scope(scope), *_text(text))

    def change_name(self, name: str, text: str, scope: Optional[int] = None) -> None:
        """Gives a name another formula."""
        self._do("change_name", *_text(name), _scope(scope), *_text(text))

    def remove_name(self, name: str, scope: Optional[int] = None) -> None:
        """Takes a name away."""
        self._do("remove_name", *_text(name), _scope(scope))

    # What is copied, cut and pasted.

    def copy(self, area: Block) -> None:
        """Copies a block, which then waits to be pasted."""
        self._do("copy", *area)

    def cut(self, area: Block) -> None:
        """Cuts a block, which is moved where it is pasted."""
        self._do("cut", *area)

    def paste(self, at: Place) -> None:
        """Pastes what waits, its first cell at a place."""
        self._do("paste", *at)

    def clear_clipboard(self) -> None:
        """Empties the clipboard: nothing waits to be pasted then."""
        self._do("clear_clipboard")

    def is_clipboard_empty(self) -> bool:
        """Whether nothing waits to be pasted."""
        return self._call("is_clipboard_empty")

    # Steps, batches, suspended evaluation and idle time.

    def undo(self) -> None:
        """Takes the newest step back."""
        self._do("undo")

    def redo(self) -> None:
        """Does the step again that was taken back last."""
        self._do("redo")

    def clear_history(self) -> None:
        """Forgets the steps that can be undone and done again; an open batch stays open."""
        self._do("clear_history")

    def can_undo(self) -> bool:
        """Whether undo would be accepted now."""
        return self._call("can_undo")

    def can_redo(self) -> bool:
        """Whether redo would be accepted now."""
        return self._call("can_redo")

    def cause(self, change: str, *words: object) -> Optional[Refusal]:
        """Why a call would be refused now, by its name and its words, none of them by keyword; None where it would be accepted.

        `book.cause("insert_rows", sheet, 0, 1)` asks about `book.insert_rows(sheet, 0, 1)`. Those that can be asked about are
        set, clear, insert_rows, delete_rows, move_rows, insert_cols, delete_cols, move_cols, move_block, drop_sheet, add_sheet,
        rename_sheet, clear_sheet, add_name, change_name, remove_name, copy, cut, paste, begin, commit, undo and redo. Nothing
        changes.
        """
        row, name, text = row_of(change, words)
        refusal = c_uint8()
        self._do("cause", byref(row), *_text(name), *_text(text), byref(refusal))
        return Refusal(refusal.value) if refusal.value else None

    def begin(self) -> None:
        """Opens a batch."""
        self._do("begin")

    def commit(self) -> None:
        """Closes the batch."""
        self._do("commit")

    def has_batch(self) -> bool:
        """Whether a batch is open."""
        return self._call("has_batch")

    @contextmanager
    def batch(self) -> Iterator[None]:
        """The changes inside are one step. It ends with what was done before an exception too."""
        self.begin()
        try:
            yield
        finally:
            self.commit()

    def suspend(self) -> None:
        """Stops the computation of values."""
        self._do("suspend")

    def resume(self) -> None:
        """Lets the computation of values go on."""
        self._do("resume")

    def is_suspended(self) -> bool:
        """Whether the computation of values is suspended."""
        return self._call("is_suspended")

    @contextmanager
    def suspended(self) -> Iterator[None]:
        """Values aren't worked out inside."""
        self.suspend()
        try:
            yield
        finally:
            self.resume()

    def settle_idle(self, budget: int) -> bool:
        """Takes formulas along that weren't read since structural operations went past them, as far as the budget goes.

        Each costs as many units as there are such operations. True where none is left; other answers are as before.
        """
        none_left = c_uint32()
        self._do("settle_idle", budget, byref(none_left))
        return none_left.value == 1

    # Areas: of a sheet those of its `used_area`.

    def kind(self, at: Place) -> Kind:
        """What kind of content a cell has."""
        kind = c_uint32()
        self._do("kind", *at, byref(kind))
        return Kind(kind.value)

    def filled(self, area: Block) -> List[Place]:
        """The places of a block that have a content, row by row."""
        return self._places("filled", area.sheet, *area)

    def filled_in(self, sheet: int) -> List[Place]:
        """Those of a sheet."""
        return self._places("filled_in", sheet, sheet)

    def used_area(self, sheet: int) -> Optional[Block]:
        """The least block over the filled cells of a sheet; None where it has none."""
        used = library.Used()
        self._do("used_area", sheet, byref(used))
        return Block(sheet, used.top, used.left, used.bottom, used.right) if used.is_used else None

    def values(self, area: Block) -> Dict[Place, Value]:
        """What the filled cells of a block show, row by row."""
        return self._cells("values", area)

    def contents(self, area: Block) -> Dict[Place, str]:
        """The texts that give the filled cells of a block their contents, row by row."""
        return self._cells("contents", area)

    # Values, texts and links.

    def value(self, at: Place) -> Value:
        """What a cell shows."""
        return self._value("value", *at)

    def value_text(self, at: Place) -> str:
        """What a person sees of what a cell shows."""
        return self._text("value_text", *at)

    def name_value(self, name: str, sheet: int) -> Value:
        """What a name shows that the word finds on the sheet."""
        return self._value("name_value", *_text(name), sheet)

    def try_formula(self, sheet: int, text: str) -> Value:
        """What the formula of the text would show in the first cell of the sheet."""
        return self._value("try", sheet, *_text(text))

    def normal_text(self, sheet: int, text: str) -> str:
        """The text of the formula of the text as a cell of the sheet shows it."""
        return self._text("normal_text", sheet, *_text(text))

    def names_in(self, sheet: int, text: str) -> List[str]:
        """The words in capitals that the formula of the text uses as names, each once."""
        rows = self._list("names_in", library.NAME_ROW, sheet, *_text(text))
        return [self._room.text(start, length) for _, start, length in rows]

    def parse_error(self, sheet: int, text: str) -> Optional[slice]:
        """Where the text stops being a formula, as a slice of it: its first token at which no formula goes on. None where it is one.

        At its end the slice has no characters: the text is but the front of formulas.
        """
        wrong = library.Wrong()
        self._do("parse_error", sheet, *_text(text), byref(wrong))
        if not wrong.is_wrong:
            return None
        encoded = text.encode()
        start = len(encoded[: wrong.start].decode())
        return slice(start, start + len(encoded[wrong.start : wrong.start + wrong.length].decode()))

    def formula(self, at: Place) -> Optional[str]:
        """The text of a cell's formula, if it has one."""
        return self._text("formula", *at) or None

    def content(self, at: Place) -> str:
        """The text that gives a cell its content."""
        return self._text("content", *at)

    def precedents(self, at: Place) -> List[Link]:
        """What a cell's formula needs."""
        return self._links("precedents", at)

    def dependents(self, at: Place) -> List[Link]:
        """The cells and then the names whose formulas need a cell."""
        return self._links("dependents", at)

    def on_cycle(self, sheet: int) -> List[Place]:
        """The cells of a sheet on a cycle, row by row: those whose needs lead back to them, and none that only reads one."""
        return self._places("on_cycle", sheet, sheet)

    # Lists of the library.

    def _links(self, name: str, at: Place) -> List[Link]:
        return [self._link(*row) for row in self._list(name, library.LINK_ROW, *at)]

    def _link(self, kind: int, sheet: int, top: int, left: int, bottom: int, right: int, start: int, length: int) -> Link:
        if kind == 0:
            return Place(sheet, top, left)
        if kind == 1:
            return Block(sheet, top, left, bottom, right)
        return self._name(sheet, start, length)

    def _name(self, scope: int, start: int, length: int) -> Name:
        return Name(None if scope == NO_NUMBER else scope, self._room.text(start, length))

    def _cells(self, name: str, area: Block) -> Dict[Place, Value]:
        sheet, value = area.sheet, self._room.value
        rows = self._list(name, library.CELL_ROW, *area)
        return {Place(sheet, row, col): value(kind, number, start, length) for row, col, kind, number, length, start in rows}


def _text(text: str) -> tuple:
    """A text as the library takes it: its bytes and their number."""
    encoded = text.encode()
    return encoded, len(encoded)


def _scope(scope: Optional[int]) -> int:
    return NO_NUMBER if scope is None else scope
