"""The shared library, its structs and the types of its calls.

It is looked for where FAZHUNDEL_LIBRARY says, else beside the faces, where `faces/build.sh` puts it.
"""
import os
from ctypes import CDLL, POINTER, Structure, c_bool, c_char_p, c_int32, c_int64, c_size_t, c_uint8, c_uint32, c_uint64, c_void_p
from pathlib import Path
from struct import Struct as RowLayout
from typing import Callable, Dict

NO_NUMBER = 2**32 - 1


class Book(Structure):
    """What holds a workbook."""

    _fields_ = [("is_open", c_bool), ("held", c_void_p)]


class Rule(Structure):
    _fields_ = [
        ("word_start", c_size_t),
        ("word_length", c_size_t),
        ("pairs_start", c_size_t),
        ("pairs_count", c_size_t),
        ("has_tiers", c_bool),
    ]


class Pair(Structure):
    _fields_ = [("start", c_int64), ("gives", c_int64)]


class Shown(Structure):
    _fields_ = [("kind", c_uint32), ("number", c_int64), ("length", c_size_t)]


class Used(Structure):
    _fields_ = [("is_used", c_uint32), ("top", c_uint32), ("left", c_uint32), ("bottom", c_uint32), ("right", c_uint32)]


class Written(Structure):
    """A cell to write."""

    _fields_ = [("sheet", c_uint32), ("row", c_uint32), ("col", c_uint32), ("text_start", c_size_t), ("text_length", c_size_t)]


class Change(Structure):
    """A change that is asked about."""

    _fields_ = [
        (name, c_uint32)
        for name in ("kind", "sheet", "row", "col", "last_row", "last_col", "count", "to_sheet", "to_row", "to_col")
    ]


class Wrong(Structure):
    """A part of a text."""

    _fields_ = [("is_wrong", c_uint32), ("start", c_size_t), ("length", c_size_t)]


class Sizes(Structure):
    """How much room a list needs: the counts of links, and the sizes of any other list."""

    _fields_ = [("rows", c_size_t), ("bytes", c_size_t)]


# The rows of lists, as they lie in memory: kind, sheet, four numbers and the word of a link; row and column of a place; row, column, what
# is shown (kind, number, length) and where its text begins of a cell; scope and word of a name.
LINK_ROW, PLACE_ROW, CELL_ROW, NAME_ROW = (RowLayout(f"@{fields}") for fields in ("IIIIIINN", "II", "IIIqNN", "INN"))

U32, BYTES, ROOM = [c_uint32], [c_char_p, c_size_t], [c_char_p, c_size_t]
PLACE, BLOCK = U32 * 3, U32 * 5
LENGTH, SHOWN = [POINTER(c_size_t)], [POINTER(Shown)]
LIST = [c_void_p, c_size_t, *ROOM, POINTER(Sizes)]
PLACES = [c_void_p, c_size_t, POINTER(c_size_t)]

# The parameters of each call behind the book, and what it answers.
CALLS = {
    "open": (U32 + [c_int32, POINTER(Rule), c_size_t, POINTER(Pair), c_size_t, *BYTES], c_uint8),
    "close": ([], None),
    "set": (PLACE + BYTES, c_uint8),
    "set_number": (PLACE + [c_int64], c_uint8),
    "set_truth": (PLACE + [c_bool], c_uint8),
    "set_text": (PLACE + BYTES, c_uint8),
    "write_all": ([POINTER(Written), c_size_t, *BYTES], c_uint8),
    "clear": (BLOCK, c_uint8),
    "move_block": (BLOCK + PLACE, c_uint8),
    **{f"{what}_{lines}": (U32 * 3, c_uint8) for what in ("insert", "delete") for lines in ("rows", "cols")},
    **{f"move_{lines}": (U32 * 4, c_uint8) for lines in ("rows", "cols")},
    "add_sheet": (BYTES + [POINTER(c_uint32)], c_uint8),
    "drop_sheet": (U32, c_uint8),
    "rename_sheet": (U32 + BYTES, c_uint8),
    "clear_sheet": (U32, c_uint8),
    "add_name": (BYTES + U32 + BYTES, c_uint8),
    "change_name": (BYTES + U32 + BYTES, c_uint8),
    "remove_name": (BYTES + U32, c_uint8),
    "paste": (PLACE, c_uint8),
    "copy": (BLOCK, c_uint8),
    "cut": (BLOCK, c_uint8),
    "clear_clipboard": ([], c_uint8),
    **{name: ([], c_uint8) for name in ("undo", "redo", "clear_history", "begin", "commit", "suspend", "resume")},
    "settle_idle": ([c_uint64, POINTER(c_uint32)], c_uint8),
    "value": (PLACE + ROOM + SHOWN, c_uint8),
    "value_text": (PLACE + ROOM + LENGTH, c_uint8),
    "name_value": (BYTES + U32 + ROOM + SHOWN, c_uint8),
    "try": (U32 + BYTES + ROOM + SHOWN, c_uint8),
    "formula": (PLACE + ROOM + LENGTH, c_uint8),
    "content": (PLACE + ROOM + LENGTH, c_uint8),
    "kind": (PLACE + [POINTER(c_uint32)], c_uint8),
    "filled": (BLOCK + PLACES, c_uint8),
    "filled_in": (U32 + PLACES, c_uint8),
    "used_area": (U32 + [POINTER(Used)], c_uint8),
    "values": (BLOCK + LIST, c_uint8),
    "contents": (BLOCK + LIST, c_uint8),
    "names": (LIST, c_uint8),
    "name_text": (BYTES + U32 + ROOM + LENGTH, c_uint8),
    "normal_text": (U32 + BYTES + ROOM + LENGTH, c_uint8),
    "parse_error": (U32 + BYTES + [POINTER(Wrong)], c_uint8),
    "names_in": (U32 + BYTES + LIST, c_uint8),
    "precedents": (PLACE + LIST, c_uint8),
    "dependents": (PLACE + LIST, c_uint8),
    "on_cycle": (U32 + PLACES, c_uint8),
    **{name: ([], c_bool) for name in ("can_undo", "can_redo", "has_batch", "is_suspended", "is_clipboard_empty")},
    "cause": ([POINTER(Change), *BYTES, *BYTES, POINTER(c_uint8)], c_uint8),
    "sheet_count": ([], c_size_t),
    "sheet_at": ([c_size_t], c_uint32),
    "sheet_id": (BYTES, c_uint32),
    "sheet_name": (U32 + ROOM + LENGTH, c_uint8),
}


def load() -> Dict[str, Callable]:
    """The calls of the library by their names, with the types of their parameters."""
    beside = Path(__file__).resolve().parents[2] / "out" / "libfazhundel.so"
    found = CDLL(os.environ.get("FAZHUNDEL_LIBRARY", str(beside)))
    calls = {name: getattr(found, f"fz_{name}") for name in CALLS}
    for name, (parameters, answer) in CALLS.items():
        calls[name].argtypes, calls[name].restype = [POINTER(Book), *parameters], answer
    return calls


CALLED = load()
