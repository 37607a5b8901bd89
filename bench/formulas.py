"""Times the built program on formulas: reading, printing, sharing and values.

    python3 bench/formulas.py [PROGRAM]

PROGRAM is crates/sheetrun/out/sheetrun where no word is given. Each row gives the seconds and the peak
memory of a run, and beside them its script's size; rows of many formulas also what one formula takes.
"""
import sys
import tempfile
import os

from first_path import last_line, measured

REPEATS = 400
MANY = 100_000
ROWS = 40_000


def again(text, printed):
    """A formula set, and printed where wanted, so many times."""
    for _ in range(REPEATS):
        yield f'set,A1,"{text}"\n'
        if printed:
            yield "formula,A1\n"


def arguments(size):
    """A call with arguments, of so many bytes."""
    return "=SUM(" + "1," * ((size - 7) // 2) + "1)"


def opened(size):
    """Parentheses that open and don't close."""
    return "=" + "(" * (size - 1)


def negated(size):
    """Minus signs in front of a number."""
    return "=" + "-" * (size - 2) + "1"


def added(size):
    """More terms than a formula may have."""
    return "=" + "1+" * ((size - 2) // 2) + "1"


def name(size):
    """One name."""
    return "=" + "n" * (size - 1)


def place(index):
    """The places of a sheet, column by column."""
    return f"{'ABCDEFGH'[index // ROWS]}{index % ROWS + 1}"


def different(index, size):
    """A formula of so many bytes, unlike every other."""
    front = f"=SUM(A{index % ROWS + 1}:$C$9,{index}.5)*(Rate"
    return front + "+$B$12" * ((size - len(front) - 1) // 6) + ")"


def equal(index, size):
    """A formula of about so many bytes that is equal to all others as seen from its home."""
    row = index % ROWS + 1
    front = f"=SUM({'CDEFGHIJ'[index // ROWS]}{row}:$C$9,0.5)*(Rate"
    return front + "+$B$12" * ((size - len(front) - 1) // 6) + ")"


def many(make, size, printed):
    """So many formulas set, each at its own place, and each printed where wanted."""
    yield from (f'set,{place(index)},"{make(index, size)}"\n' for index in range(MANY))
    if printed:
        yield from (f"formula,{place(index)}\n" for index in range(MANY))


def read_back(count):
    """Formulas set in a column, and each printed."""
    yield from (f"set,B{row},=A{row}*2+$C$1\n" for row in range(1, count + 1))
    yield from (f"formula,B{row}\n" for row in range(1, count + 1))


def chain(count, upward):
    """Each formula one more than the next, in one order or the other."""
    if upward:
        yield from (f"set,A{row},=A{row + 1}+1\n" for row in range(1, count))
        yield f"set,A{count},1\nvalue,A1\n"
    else:
        yield "set,A1,1\n"
        yield from (f"set,A{row},=A{row - 1}+1\n" for row in range(2, count + 1))
        yield f"value,A{count}\n"


def cycle(count):
    """One cycle through all formulas."""
    yield from (f"set,A{row},=A{row % count + 1}+1\n" for row in range(1, count + 1))
    yield "value,A1\n"


def cases():
    """Titles, scripts, and how many formulas one has where that is worth a figure of its own."""
    for make in (arguments, opened, negated, added, name):
        for size in (2048, 4096, 8192):
            yield f"{REPEATS} times {make.__name__}, {size} bytes", again(make(size), make in (arguments, name)), 0
    for size in (40, 200):
        yield f"{MANY:,} texts of {size} bytes", many(lambda index, size: "x" * (size - len(str(index))) + str(index), size, False), MANY
        for make in (different, equal):
            yield f"{MANY:,} {make.__name__}, {size} bytes", many(make, size, False), MANY
            yield f"{MANY:,} {make.__name__}, {size} bytes, printed", many(make, size, True), MANY
    yield "10,000 formulas, printed", read_back(10_000), 10_000
    yield "a chain of 10,000 downward", chain(10_000, False), 0
    yield "a chain of 10,000 upward", chain(10_000, True), 0
    yield "a cycle through 2,000", cycle(2_000), 0


def main(words):
    here = os.path.dirname(os.path.abspath(__file__))
    program = words[0] if words else os.path.join(here, "..", "crates", "sheetrun", "out", "sheetrun")
    with tempfile.TemporaryDirectory() as folder:
        script, output = os.path.join(folder, "script.csv"), os.path.join(folder, "output")
        for title, lines, count in cases():
            with open(script, "w", encoding="ascii") as file:
                file.writelines(lines)
            size = os.path.getsize(script) / 1_048_576
            seconds, memory, status = measured(program, script, output)
            each = f"{seconds / count * 1e6:6.2f} us a formula" if count else last_line(output)[-40:]
            print(f"{title:42} {seconds:7.3f} s  {memory:7.1f} MiB of {size:5.1f} MiB  status {status}  {each}")


if __name__ == "__main__":
    main(sys.argv[1:])
