"""The library's calls on one workbook, and the rooms that they write into."""
from ctypes import byref, c_size_t, create_string_buffer
from struct import Struct as RowLayout
from threading import get_ident
from typing import Iterator, List

from . import library
from .library import CALLED
from .statuses import NO_ROOM, check
from .values import Fault, Place, Value, decimal

# How many bytes a room has at first.
SIZE = 256
OTHER_THREAD = "a workbook is used by the thread that opened it"


class Room:
    """Bytes that calls write into. It is kept from one call to the next, and grows where a call needs more."""

    def __init__(self) -> None:
        self.size = 0
        self.grow(SIZE)

    def grow(self, size: int) -> None:
        if size > self.size:
            self.bytes, self.size, self.length = create_string_buffer(size), size, c_size_t(size)
            self.seen = memoryview(self.bytes)

    def text(self, start: int, length: int) -> str:
        return str(self.seen[start : start + length], "utf-8")

    def rows(self, layout: RowLayout, count: int) -> Iterator[tuple]:
        return layout.iter_unpack(self.seen[: count * layout.size])

    def value(self, kind: int, number: int, start: int, length: int) -> Value:
        """A value as the library tells it, whose text begins there."""
        if kind == 1:
            return decimal(number)
        if kind == 2:
            return self.text(start, length)
        if kind == 3:
            return number == 1
        return Fault(number) if kind == 4 else None


class Calls:
    """What a workbook asks of the library, by the thread that opened it."""

    def __init__(self) -> None:
        self._thread = get_ident()
        self._book, self._shown, self._count, self._sizes = library.Book(), library.Shown(), c_size_t(), library.Sizes()
        self._at_book, self._at_shown, self._at_count, self._at_sizes = map(byref, (self._book, self._shown, self._count, self._sizes))
        self._room, self._rows = Room(), Room()

    def _call(self, name: str, *words: object) -> int:
        if get_ident() != self._thread:
            raise RuntimeError(OTHER_THREAD)
        return CALLED[name](self._at_book, *words)

    # Written out, as the calls below that most programs make most, since a call within Python takes half of what the library does.
    def _do(self, name: str, *words: object) -> None:
        if get_ident() != self._thread:
            raise RuntimeError(OTHER_THREAD)
        status = CALLED[name](self._at_book, *words)
        if status:
            check(status)

    def _text(self, name: str, *words: object) -> str:
        room = self._room
        status = self._call(name, *words, room.bytes, room.size, self._at_count)
        if status == NO_ROOM:
            room.grow(self._count.value)
            status = self._call(name, *words, room.bytes, room.size, self._at_count)
        if status:
            check(status)
        return room.text(0, self._count.value)

    def _value(self, name: str, *words: object) -> Value:
        if get_ident() != self._thread:
            raise RuntimeError(OTHER_THREAD)
        room, shown = self._room, self._shown
        status = CALLED[name](self._at_book, *words, room.bytes, room.length, self._at_shown)
        if status == NO_ROOM:
            room.grow(shown.length)
            status = self._call(name, *words, room.bytes, room.length, self._at_shown)
        if status:
            check(status)
        kind = shown.kind
        return decimal(shown.number) if kind == 1 else room.value(kind, shown.number, 0, shown.length)

    def _places(self, name: str, sheet: int, *words: object) -> List[Place]:
        rows, layout = self._rows, library.PLACE_ROW
        status = self._call(name, *words, rows.bytes, rows.size // layout.size, self._at_count)
        if status == NO_ROOM:
            rows.grow(self._count.value * layout.size)
            status = self._call(name, *words, rows.bytes, rows.size // layout.size, self._at_count)
        if status:
            check(status)
        return [Place(sheet, row, col) for row, col in rows.rows(layout, self._count.value)]

    # The rows of a list, whose texts are in the room of texts until the next call.
    def _list(self, name: str, layout: RowLayout, *words: object) -> Iterator[tuple]:
        rows, room, sizes = self._rows, self._room, self._sizes
        status = self._call(name, *words, rows.bytes, rows.size // layout.size, room.bytes, room.size, self._at_sizes)
        if status == NO_ROOM:
            rows.grow(sizes.rows * layout.size)
            room.grow(sizes.bytes)
            status = self._call(name, *words, rows.bytes, rows.size // layout.size, room.bytes, room.size, self._at_sizes)
        if status:
            check(status)
        return rows.rows(layout, sizes.rows)
