"""Books and scripts that are files."""

import os

import workbook
from grammar import COLUMNS, ROWS
from script import records

FILE_BYTES = 64 * 1024 * 1024


class Ends(Exception):
    """The run ends with a status and a last line."""

    def __init__(self, status, line):
        super().__init__(status, line)
        self.status = status
        self.line = line


def content(kind, name):
    """The bytes of a file."""
    try:
        with open(name, "rb") as file:
            data = file.read(FILE_BYTES + 1)
    except FileNotFoundError:
        raise Ends(4, f"{kind} {name}: missing") from None
    except (OSError, ValueError):
        raise Ends(5, "read fault") from None
    return within_limit(data)


def standard_input(read):
    """The bytes that `read` gives."""
    try:
        return within_limit(read())
    except OSError:
        raise Ends(5, "read fault") from None


def within_limit(data):
    if len(data) > FILE_BYTES:
        raise Ends(8, "input too long")
    return data


def sheet_name(name):
    return os.path.basename(name).removesuffix(".csv")


def add_books(session, names):
    """Begins the session's workbook with the sheets of these books."""
    book = session.book
    texts = []
    filled = 0
    for name in names:

        def must(holds, cause):
            if not holds:
                raise Ends(4, f"book {name}: {cause}")

        data = content("book", name)
        try:
            data.decode()
        except UnicodeDecodeError:
            must(False, "not UTF-8")
        title = sheet_name(name)
        must(workbook.sheet_name_is_valid(title), "sheet name invalid")
        must(book.sheet_number(title) is None, "sheet name taken")
        must(session.last_sheet < workbook.SHEETS, "too many sheets")
        session.last_sheet += 1
        book.sheets += ((session.last_sheet, title),)
        for row, record in enumerate(records(data), 1):
            for col, field in enumerate(record, 1):
                must(row <= ROWS, "too many rows")
                must(col <= COLUMNS, "too many columns")
                if not field:
                    continue
                must(len(field) <= workbook.TEXT_BYTES, "field too long")
                filled += 1
                must(filled <= workbook.CELLS, "too many cells")
                texts.append(((session.last_sheet, row, col), field.decode()))
    for place, text in texts:
        book.put(place, book.meaning(text, place[0]))
