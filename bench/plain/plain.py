"""The plain machine for `sheetrun`: the same words, the script on standard input or in a file."""

import datetime
import os
import re
import sys

import files
import script
from days import DAY_ZERO
from workbook import Session

USAGE = ("usage: sheetrun [--undo-limit N] [--strict] [--script FILE] [--generate N]"
         " [BOOK.csv ...]")
WITH_ARGUMENT = ("--undo-limit", "--script", "--generate")


class NoMeaning(Exception):
    """The words say nothing that can be done."""


class NoOutput(Exception):
    """Standard output can't be written."""


def must(holds):
    if not holds:
        raise NoMeaning


def read_words(words):
    """The options by their word, and the books."""
    options, books = {}, []
    words = list(words)
    while words:
        word = words.pop(0)
        if word == "--":
            books += words
            break
        if not word.startswith("-"):
            books.append(word)
            continue
        option, equals, argument = word.partition("=")
        must(option not in options)
        if option in WITH_ARGUMENT:
            must(equals or words)
            options[option] = argument if equals else words.pop(0)
        else:
            must(word == "--strict")
            options[word] = True
    must(not any(book.startswith("-") for book in books))
    limit = options.get("--undo-limit", "20")
    must(re.fullmatch("[0-9]{1,4}", limit) and int(limit) <= 1000)
    name = options.get("--script")
    must(name is None or name and not name.startswith("-"))
    if "--generate" in options:
        generated = options["--generate"]
        must(re.fullmatch("[0-9]{1,5}", generated) and 1 <= int(generated) <= 10000)
        must(not books and name is None)
    return int(limit), "--strict" in options, name, "--generate" in options, books


def run(words, read, write):
    """Does what the words say, and answers the status. `read` gives standard input, and `write`
    writes a line; both may raise OSError."""

    def write_or_end(line):
        try:
            write(line)
        except OSError:
            raise NoOutput from None

    try:
        return answered(words, read, write_or_end)
    except NoOutput:
        return 6


def answered(words, read, write):
    """The same, where what is written ends it with NoOutput, if it must."""
    try:
        for word in words:
            word.encode()
        limit, strict, name, generate, books = read_words(words)
    except (NoMeaning, UnicodeEncodeError):
        write(USAGE)
        return 2
    if generate:
        sys.exit("the plain machine generates no commands")
    today = datetime.datetime.now(datetime.timezone.utc).date().toordinal() - DAY_ZERO
    session = Session(limit, today)
    try:
        if books:
            files.add_books(session, books)
        else:
            session.add_sheet("Sheet1")
            session.done.clear()
        if name is None:
            data = files.standard_input(read)
        else:
            data = files.content("script", name)
    except files.Ends as end:
        write(script.line(end.line))
        return end.status
    return script.run(session, data, strict, write)


def main():
    def write(line):
        data = line.encode() + b"\n"
        while data:
            data = data[os.write(1, data):]

    def read():
        with open(0, "rb", closefd=False) as stdin:
            return stdin.read(files.FILE_BYTES + 1)

    return run(sys.argv[1:], read, write)


if __name__ == "__main__":
    sys.exit(main())
