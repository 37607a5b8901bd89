"""Scripts: the records of a CSV text, their commands, and the lines that answer them."""

import re

import grammar
from workbook import Refused, Session, Span

REFUSALS = {
    "NoSheet": 1,
    "SheetNameTaken": 2,
    "SheetNameInvalid": 3,
    "Outside": 4,
    "SizeLimit": 5,
    "CellLimit": 6,
    "NameTaken": 7,
    "NameInvalid": 8,
    "NoSuchName": 9,
    "RelativeAddress": 10,
    "NothingToUndo": 11,
    "NothingToRedo": 12,
    "NothingToPaste": 13,
    "Suspended": 14,
    "BatchOpen": 15,
    "NoBatch": 16,
    "BadSpan": 17,
    "TextLimit": 18,
    "SheetLimit": 19,
    "BadFormula": 20,
}


# Records.


def records(script):
    """The records of a script of bytes, as lists of fields of bytes."""
    script = script.removeprefix(b"\xef\xbb\xbf")
    fields, field = [], bytearray()
    # In front of a field, inside one, between quotes, or behind the quote that may end one.
    state = "front"
    for byte in script:
        char = bytes((byte,))
        if state == "quoted":
            if char == b'"':
                state = "behind"
            else:
                field += char
        elif state == "behind" and char == b'"':
            field += char
            state = "quoted"
        elif state == "front" and char == b'"':
            state = "quoted"
        elif char == b",":
            fields.append(bytes(field))
            field.clear()
            state = "front"
        elif char in b"\r\n":
            if fields or field or state != "front":
                yield fields + [bytes(field)]
            fields, field = [], bytearray()
            state = "front"
        else:
            field += char
            state = "inside"
    if fields or field or state != "front":
        yield fields + [bytes(field)]


# Fields.


class BadField(Exception):
    """A field hasn't its form."""


ADDRESS = re.compile(r"([A-Za-z]{1,3})([1-9][0-9]{0,6})")
SHEET = re.compile(r"(?:([A-Za-z_][A-Za-z0-9_]*)|'((?:[^']|'')*)')!")


def form(pattern, text):
    found = re.fullmatch(pattern, text)
    if not found:
        raise BadField
    return found


def corner(text):
    found = form(ADDRESS, text)
    return int(found[2]), grammar.column_number(found[1])


def in_front(text):
    """The sheet's name in front of an address, or None, and the rest."""
    found = SHEET.match(text)
    if not found:
        return None, text
    name = found[1] if found[1] is not None else found[2].replace("''", "'")
    return name, text[found.end():]


def place(text):
    sheet, rest = in_front(text)
    return Span(sheet, *corner(rest))


def block(text):
    sheet, rest = in_front(text)
    first, colon, second = rest.partition(":")
    row, col = corner(first)
    last_row, last_col = corner(second) if colon else (row, col)
    return Span(
        sheet, min(row, last_row), min(col, last_col),
        abs(row - last_row) + 1, abs(col - last_col) + 1,
    )


def word(text):
    return text


def name_word(text):
    """The word of a named expression."""
    return text


def formula_text(text):
    """A text that may be a formula."""
    return text


# What the fields of scripts of version 1 are today.
MIGRATED = {name_word: grammar.migrated_name, formula_text: grammar.migrated}


def version_field(text):
    return form(r"[12]", text)[0]


def row_field(text):
    return int(form(r"[1-9][0-9]{0,6}", text)[0])


def column_field(text):
    return grammar.column_number(form(r"[A-Za-z]{1,3}", text)[0])


def count(text):
    return int(form(r"[0-9]{1,7}", text)[0])


# Commands: the forms of the fields, and what is done. What is answered isn't None, where that
# isn't `ok` alone.

COMMANDS = {
    "set": ((place, formula_text), Session.set),
    "clear": ((block,), Session.clear),
    "insert-rows": ((word, row_field, count), lambda s, *f: s.insert("row", *f)),
    "delete-rows": ((word, row_field, count), lambda s, *f: s.delete("row", *f)),
    "move-rows": ((word, row_field, count, row_field), lambda s, *f: s.move("row", *f)),
    "insert-cols": ((word, column_field, count), lambda s, *f: s.insert("col", *f)),
    "delete-cols": ((word, column_field, count), lambda s, *f: s.delete("col", *f)),
    "move-cols": ((word, column_field, count, column_field), lambda s, *f: s.move("col", *f)),
    "move-block": ((block, place), Session.move_block),
    "add-sheet": ((word,), lambda s, name: f"ok {s.add_sheet(name)}"),
    "drop-sheet": ((word,), Session.drop_sheet),
    "rename-sheet": ((word, word), Session.rename_sheet),
    "clear-sheet": ((word,), Session.clear_sheet),
    "add-name": ((name_word, word, formula_text), Session.add_name),
    "change-name": ((name_word, word, formula_text), Session.change_name),
    "remove-name": ((name_word, word), Session.remove_name),
    "paste": ((place,), Session.paste),
    "copy": ((block,), Session.copy),
    "cut": ((block,), Session.cut),
    "undo": ((), Session.undo),
    "redo": ((), Session.redo),
    "begin": ((), Session.begin),
    "commit": ((), Session.commit),
    "suspend": ((), Session.suspend),
    "resume": ((), Session.resume),
    "value": ((place,), Session.value),
    "formula": ((place,), Session.formula),
    "content": ((place,), Session.content),
    "precedents": ((place,), Session.precedents),
    "dependents": ((place,), Session.dependents),
    "name-value": ((name_word, word), Session.name_value),
    "try": ((word, formula_text), Session.try_formula),
}
# Of a script's first record alone.
VERSION = ((version_field,), lambda s, version: None)


class NoCommand(Exception):
    """A record is no command, for this cause."""


def command(record, number=2, is_old=False):
    """What the record of this number asks for in a script that is of version 1 or not: what is done, and its fields."""
    try:
        name = record[0].decode()
        forms, action = VERSION if number == 1 and name == "version" else COMMANDS[name]
    except (UnicodeDecodeError, KeyError):
        raise NoCommand("unknown command") from None
    if len(record) - 1 != len(forms):
        raise NoCommand("field count")
    fields = []
    for at, (field, form_) in enumerate(zip(record[1:], forms), 1):
        try:
            read = form_(field.decode())
            fields.append(MIGRATED[form_](read) if is_old and form_ in MIGRATED else read)
        except (UnicodeDecodeError, BadField):
            raise NoCommand(f"bad field {at}") from None
    return action, fields


def line(text):
    """A line of output."""
    return text.replace("\\", "\\\\").replace("\n", "\\n").replace("\r", "\\r")


def answer(session, action, fields):
    """The reply to a command, and whether it was refused."""
    try:
        reply = action(session, *fields)
        return "ok" if reply is None else reply, False
    except Refused as refused:
        cause = str(refused)
        return f"refused {REFUSALS[cause]} {cause}", True


def run(session, script, strict, write):
    """Answers each command of a script by `write`, and answers the status."""
    is_old = False
    for at, record in enumerate(records(script), 1):
        try:
            action, fields = command(record, at, is_old)
            is_old = is_old or (action is VERSION[1] and fields == ["1"])
        except NoCommand as cause:
            write(line(f"record {at}: {cause}"))
            return 3
        reply, refused = answer(session, action, fields)
        write(line(reply))
        if refused and strict:
            return 1
    return 0
