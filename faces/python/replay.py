"""Answers a script on standard input through the package, as sheetrun does: `faces/scripts.py` compares the two."""
import csv
import io
import sys
from decimal import Decimal
from typing import Callable, Dict, List, Optional

from fazhundel import Bands, Block, Fault, Kind, Link, Name, Place, Refused, Tiers, Value, Workbook

# The number of a sheet that is gone: none has it, and it isn't that of the whole workbook.
GONE = 1_024

# The custom functions of sheetrun.
RULES = {
    "POSTAGE": Bands([(0, Decimal("1.5")), (Decimal("0.5"), Decimal("2.75")), (2, Decimal("5.4")), (10, Decimal("9.9"))]),
    "LEVY": Tiers([(0, Decimal("0.1")), (1000, Decimal("0.2")), (5000, Decimal("0.25"))]),
}


def letters(col: int) -> str:
    """The letters of a column."""
    text = ""
    while col >= 0:
        text, col = chr(65 + col % 26) + text, col // 26 - 1
    return text


def address(row: int, col: int) -> str:
    return f"{letters(col)}{row + 1}"


class Face:
    """Answers records through the face, as sheetrun does."""

    def __init__(self) -> None:
        self.book = Workbook(rules=RULES)
        self.book.add_sheet("Sheet1")

    def sheet(self, named: str) -> int:
        number = self.book.sheet_id(named)
        return GONE if number is None else number

    def scope(self, named: str) -> Optional[int]:
        return None if named == "" else self.sheet(named)

    def place(self, text: str) -> Place:
        named, spot = text.rsplit("!", 1)
        row, col = spot_of(spot)
        return Place(self.sheet(named[1:-1].replace("''", "'")), row, col)

    def block(self, text: str) -> Block:
        first, last = text.rsplit(":", 1)
        place, (bottom, right) = self.place(first), spot_of(last)
        return Block(*place, bottom, right)

    def reply(self, record: List[str]) -> str:
        try:
            answer = ANSWERS[record[0]](self, *record[1:])
        except Refused as refused:
            return f"refused {int(refused.refusal)} {refused.refusal.name}"
        if answer is None:
            return "ok"
        return str(answer).replace("\\", "\\\\").replace("\n", "\\n").replace("\r", "\\r")

    def links(self, links: List[Link]) -> str:
        return " ".join(self.link(link) for link in links)

    def link(self, link: Link) -> str:
        if isinstance(link, Name):
            return link.word if link.scope is None else f"{self.book.sheet_name(link.scope)}!{link.word}"
        first = f"{self.book.sheet_name(link.sheet)}!"
        if isinstance(link, Place):
            return first + address(link.row, link.col)
        return f"{first}{address(link.top, link.left)}:{address(link.bottom, link.right)}"


def spot_of(text: str) -> tuple:
    """The row and the column of an address."""
    word = text.rstrip("0123456789")
    col = 0
    for letter in word:
        col = col * 26 + ord(letter) - 64
    return int(text[len(word):]) - 1, col - 1


SPELLED = dict(zip(Fault, ["#DIV/0!", "#NAME?", "#VALUE!", "#NUM!", "#N/A", "#CYCLE!", "#REF!", "#ERROR!"]))


def spelled(value: Value) -> str:
    """A value as a reply shows it."""
    if value is None:
        return ""
    if isinstance(value, bool):
        return "TRUE" if value else "FALSE"
    return SPELLED[value] if isinstance(value, Fault) else str(value)


def lines(edit: str, column: bool) -> Callable:
    """The answer to an operation on lines."""

    def answer(face: Face, named: str, first: str, count: str, *before: str) -> None:
        number = (lambda text: spot_of(text + "1")[1]) if column else (lambda text: int(text) - 1)
        getattr(face.book, edit)(face.sheet(named), number(first), int(count), *map(number, before))

    return answer


# What each command asks of the face.
ANSWERS: Dict[str, Callable] = {
    "set": lambda f, to, text: given(f, f.place(to), text),
    "clear": lambda f, area: f.book.clear(f.block(area)),
    **{f"{what}-rows": lines(f"{what}_rows", False) for what in ("insert", "delete", "move")},
    **{f"{what}-cols": lines(f"{what}_cols", True) for what in ("insert", "delete", "move")},
    "move-block": lambda f, area, to: f.book.move_block(f.block(area), f.place(to)),
    "add-sheet": lambda f, named: f"ok {f.book.add_sheet(named)}",
    "drop-sheet": lambda f, named: f.book.drop_sheet(f.sheet(named)),
    "rename-sheet": lambda f, old, new: f.book.rename_sheet(f.sheet(old), new),
    "clear-sheet": lambda f, named: f.book.clear_sheet(f.sheet(named)),
    "add-name": lambda f, word, scope, text: named(f, word, f.scope(scope), text),
    "change-name": lambda f, word, scope, text: f.book.change_name(word, text, f.scope(scope)),
    "remove-name": lambda f, word, scope: f.book.remove_name(word, f.scope(scope)),
    "copy": lambda f, area: f.book.copy(f.block(area)),
    "cut": lambda f, area: f.book.cut(f.block(area)),
    "paste": lambda f, to: f.book.paste(f.place(to)),
    "undo": lambda f: f.book.undo(),
    "redo": lambda f: f.book.redo(),
    "begin": lambda f: f.book.begin(),
    "commit": lambda f: f.book.commit(),
    "suspend": lambda f: f.book.suspend(),
    "resume": lambda f: resumed(f),
    "value": lambda f, of: shown(f, f.place(of)),
    "formula": lambda f, of: formula(f, f.place(of)),
    "content": lambda f, of: content(f, f.place(of)),
    "precedents": lambda f, of: f.links(f.book.precedents(f.place(of))),
    "dependents": lambda f, of: f.links(f.book.dependents(f.place(of))),
    "name-value": lambda f, word, named: spelled(f.book.name_value(word, f.sheet(named))),
    "try": lambda f, named, text: spelled(f.book.try_formula(f.sheet(named), text)),
}


def alone(of: Place) -> Block:
    """The block of a cell alone."""
    return Block(*of, of.row, of.col)


def shown(face: Face, of: Place) -> str:
    """What a cell shows, by the three calls that tell it."""
    value, text = spelled(face.book.value(of)), face.book.value_text(of)
    listed = face.book.values(alone(of))
    assert value == text == spelled(listed.get(of)), (value, text, listed)
    assert list(listed) == face.book.filled(alone(of)), listed
    return text


def formula(face: Face, of: Place) -> str:
    """The text of a cell's formula, which is canonical where it could be read."""
    text, kind = face.book.formula(of), face.book.kind(of)
    assert (text is not None) == (kind in (Kind.FORMULA, Kind.UNREADABLE)), (text, kind)
    assert kind != Kind.FORMULA or face.book.normal_text(of.sheet, text) == text, text
    return text or "none"


def content(face: Face, of: Place) -> str:
    """The text of a cell's content, by both calls that tell it."""
    text = face.book.content(of)
    assert face.book.contents(alone(of)) == ({of: text} if text else {}), text
    return text


def given(face: Face, to: Place, text: str) -> None:
    """Gives a cell what a text says: in every other row by the call for its kind, where it is no formula."""
    if to.row % 2 == 0 or text == "" or text[0] == "=":
        face.book.set(to, text)
    elif text.lstrip("-")[:1].isdigit():
        face.book.set_number(to, Decimal(text))
    elif text == "TRUE":
        face.book.set_truth(to, True)
    else:
        face.book.set_text(to, text[1:] if text[0] == "'" else text)


def named(face: Face, word: str, scope: Optional[int], text: str) -> None:
    """Adds a name, which is listed then, and whose text uses names or not."""
    face.book.add_name(word, text, scope)
    assert Name(scope, word.upper()) in face.book.names(), word
    for sheet in face.book.sheets()[:1]:
        assert face.book.names_in(sheet, face.book.name_text(word, scope)) == (["TOTAL"] if text == "=Total" else []), text


def resumed(face: Face) -> None:
    """Lets the computation go on, and spends idle time, after which each answer is as before."""
    face.book.resume()
    face.book.settle_idle(3)


def left(face: Face) -> None:
    """Looks over the workbook at the end: each sheet is used as far as its cells are filled, and those on a cycle show it.

    The clipboard is emptied and the history forgotten.
    """
    face.book.clear_clipboard()
    face.book.clear_history()
    assert face.book.is_clipboard_empty() and not face.book.can_undo() and not face.book.can_redo()
    is_shown = not face.book.is_suspended() and not face.book.has_batch()
    for sheet in face.book.sheets():
        places, area = face.book.filled_in(sheet), face.book.used_area(sheet)
        rows, cols = [place.row for place in places], [place.col for place in places]
        assert area == (Block(sheet, min(rows), min(cols), max(rows), max(cols)) if places else None), area
        assert area is None or list(face.book.contents(area)) == places, places
        cyclic = face.book.on_cycle(sheet)
        assert not is_shown or all(face.book.value(at) is Fault.CYCLE for at in cyclic), cyclic


def main() -> None:
    script = io.StringIO(sys.stdin.buffer.read().decode(), newline="")
    face = Face()
    with face.book:
        for record in csv.reader(script, lineterminator="\n"):
            sys.stdout.buffer.write(f"{face.reply(record)}\n".encode())
        left(face)


if __name__ == "__main__":
    main()
