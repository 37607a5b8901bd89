"""Changes that a workbook is asked about before they are made, by the names and the words of its calls."""
from typing import Callable, Dict, Optional, Tuple

from . import library
from .library import NO_NUMBER
from .values import Block, Place

# A change as the library takes it, and its name and its text.
Told = Tuple[library.Change, str, str]


def row_of(change: str, words: tuple) -> Told:
    """The change of a call's name that is given these words. ValueError for a name that no change has."""
    if change not in CHANGES:
        raise ValueError(f"no change is called {change}")
    kind, tell = CHANGES[change]
    row, name, text = tell(*words)
    row.kind = kind
    return row, name, text


def _sheet(sheet: int, **numbers: int) -> library.Change:
    return library.Change(sheet=sheet, **numbers)


def _place(at: Place) -> library.Change:
    return _sheet(at.sheet, row=at.row, col=at.col)


def _block(area: Block, **numbers: int) -> library.Change:
    return _sheet(area.sheet, row=area.top, col=area.left, last_row=area.bottom, last_col=area.right, **numbers)


def _scoped(name: str, text: str = "", scope: Optional[int] = None) -> Told:
    return _sheet(NO_NUMBER if scope is None else scope), name, text


def _alone(tell: Callable[..., library.Change]) -> Callable[..., Told]:
    """A change without a name or a text."""
    return lambda *words: (tell(*words), "", "")


# The number of each change, and what its words tell.
CHANGES: Dict[str, Tuple[int, Callable[..., Told]]] = {
    "set": (1, lambda at, text: (_place(at), "", text)),
    "clear": (2, _alone(_block)),
    "insert_rows": (3, _alone(lambda sheet, at, count: _sheet(sheet, row=at, count=count))),
    "delete_rows": (4, _alone(lambda sheet, at, count: _sheet(sheet, row=at, count=count))),
    "move_rows": (5, _alone(lambda sheet, start, count, before: _sheet(sheet, row=start, count=count, to_row=before))),
    "insert_cols": (6, _alone(lambda sheet, at, count: _sheet(sheet, col=at, count=count))),
    "delete_cols": (7, _alone(lambda sheet, at, count: _sheet(sheet, col=at, count=count))),
    "move_cols": (8, _alone(lambda sheet, start, count, before: _sheet(sheet, col=start, count=count, to_col=before))),
    "move_block": (9, _alone(lambda source, to: _block(source, to_sheet=to.sheet, to_row=to.row, to_col=to.col))),
    "drop_sheet": (10, _alone(_sheet)),
    "add_sheet": (11, lambda name: (library.Change(), name, "")),
    "rename_sheet": (12, lambda sheet, name: (_sheet(sheet), name, "")),
    "clear_sheet": (13, _alone(_sheet)),
    "add_name": (14, _scoped),
    "change_name": (15, _scoped),
    "remove_name": (16, lambda name, scope=None: _scoped(name, scope=scope)),
    "copy": (17, _alone(_block)),
    "cut": (18, _alone(_block)),
    "paste": (19, _alone(_place)),
    "begin": (20, _alone(library.Change)),
    "commit": (21, _alone(library.Change)),
    "undo": (22, _alone(library.Change)),
    "redo": (23, _alone(library.Change)),
}
