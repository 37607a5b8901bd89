"""The functions. Each gets the formula that calls it and its arguments as trees, and reads them
all, from the left, before it tests what they are."""

import days
import numbers
import values
from values import NOTHING, Fault, Number, Stop, Text, Truth

# Word: least number of arguments, greatest or None, and the function.
KNOWN = {}


def function(word, least, most):
    def keep(body):
        KNOWN[word] = (least, most, body)
        return body

    return keep


def call(formula, word, arguments):
    if word not in KNOWN:
        return values.NAME
    least, most, body = KNOWN[word]
    if len(arguments) < least or most is not None and len(arguments) > most:
        return values.NA
    return body(formula, *arguments)


# Arithmetic that operators and functions share.


def quotient(left, right):
    if right == 0:
        raise Stop(values.DIV)
    return values.number(numbers.over(left, right))


def power(base, exponent):
    if not numbers.is_whole(exponent) or abs(exponent) > 1000 * numbers.ONE:
        raise Stop(values.NUM)
    if base == 0 and exponent < 0:
        raise Stop(values.DIV)
    product = numbers.ONE
    for _ in range(abs(numbers.cut(exponent))):
        product = values.number(numbers.times(product, base)).millionths
    if exponent < 0:
        return quotient(numbers.ONE, product)
    return values.number(product)


# Arguments.


def is_area(argument):
    return hasattr(argument, "rows")


def number(formula, tree):
    return values.as_number(formula.single(tree))


def integer(formula, tree):
    """The whole part of a number."""
    return numbers.cut(number(formula, tree))


def text(formula, tree):
    return values.as_text(formula.single(tree))


def truth(formula, tree):
    return values.as_truth(formula.single(tree))


def block(formula, tree):
    """A block or a reference."""
    argument = formula.argument(tree)
    if is_area(argument):
        return argument
    values.no_fault(argument)
    raise Stop(values.VALUE)


def filled(formula, area):
    return formula.evaluation.filled_values(area)


def whole_from(found, least):
    """A whole number that was read, where it isn't below the least one."""
    if found < least:
        raise Stop(values.VALUE)
    return found


def all_numbers(formula, arguments):
    """The numbers of a list: those in blocks, and what single values are as numbers."""
    found = []
    for tree in arguments:
        argument = formula.argument(tree)
        if is_area(argument):
            for value in filled(formula, argument):
                if isinstance(values.no_fault(value), Number):
                    found.append(value.millionths)
        else:
            found.append(values.as_number(argument))
    return found


# Sums and counts.


@function("SUM", 1, None)
def sum_(formula, *arguments):
    return values.number(sum(all_numbers(formula, arguments)))


@function("AVERAGE", 1, None)
def average(formula, *arguments):
    found = all_numbers(formula, arguments)
    if not found:
        return values.DIV
    return values.number(numbers.nearest(sum(found), len(found)))


@function("MIN", 1, None)
def least(formula, *arguments):
    return Number(min(all_numbers(formula, arguments), default=0))


@function("MAX", 1, None)
def greatest(formula, *arguments):
    return Number(max(all_numbers(formula, arguments), default=0))


@function("COUNT", 1, None)
def count(formula, *arguments):
    counted = 0
    for tree in arguments:
        argument = formula.argument(tree)
        if is_area(argument):
            counted += sum(isinstance(v, Number) for v in filled(formula, argument))
        else:
            try:
                values.as_number(argument)
                counted += 1
            except Stop:
                pass
    return values.whole(counted)


@function("COUNTA", 1, None)
def count_all(formula, *arguments):
    counted = 0
    for tree in arguments:
        argument = formula.argument(tree)
        if is_area(argument):
            counted += sum(v is not NOTHING for v in filled(formula, argument))
        else:
            counted += argument is not NOTHING
    return values.whole(counted)


@function("COUNTBLANK", 1, 1)
def count_blank(formula, tree):
    area = block(formula, tree)
    kept = sum(v is not NOTHING for v in filled(formula, area))
    return values.whole(area.rows * area.cols - kept)


@function("PRODUCT", 1, None)
def product(formula, *arguments):
    found = all_numbers(formula, arguments)
    if not found:
        return Number(0)
    result = numbers.ONE
    for one in found:
        result = values.number(numbers.times(result, one)).millionths
    return Number(result)


def criterion(value):
    """What a value asks of another one, as a function that tells whether it is so."""
    mark, wanted = "=", value
    if value is NOTHING:
        wanted = Number(0)
    if isinstance(value, Text):
        mark = next((m for m in ("<=", ">=", "<>", "<", ">", "=") if value.text.startswith(m)), "")
        rest = value.text[len(mark):]
        mark = mark or "="
        spelled = numbers.spelled(rest)
        wanted = Text(rest) if spelled is None else Number(spelled)

    def equals(other):
        if other is NOTHING:
            return wanted == Text("")
        return type(other) is type(wanted) and values.compare(other, wanted) == 0

    def holds(other):
        if isinstance(other, Fault):
            return False
        if mark in ("=", "<>"):
            return equals(other) == (mark == "=")
        if type(other) is not type(wanted):
            return False
        order = values.compare(other, wanted)
        return {"<": order < 0, ">": order > 0, "<=": order <= 0, ">=": order >= 0}[mark]

    return holds


def asked_for(formula, tree):
    """What a criterion as an argument asks."""
    return criterion(values.no_fault(formula.single(tree)))


def offsets(formula, area):
    """The filled places of an area, as rows and columns from 0."""
    places = formula.evaluation.filled(area)
    return [(row - area.row, col - area.col) for _, row, col in places]


@function("SUMIF", 2, 3)
def sum_if(formula, tested, asked, summed=None):
    area = block(formula, tested)
    holds = asked_for(formula, asked)
    added = area if summed is None else block(formula, summed)
    if (added.rows, added.cols) != (area.rows, area.cols):
        return values.VALUE
    result = 0
    for row, col in offsets(formula, added):
        if holds(formula.evaluation.at(area, row, col)):
            other = values.no_fault(formula.evaluation.at(added, row, col))
            if isinstance(other, Number):
                result += other.millionths
    return values.number(result)


@function("COUNTIF", 2, 2)
def count_if(formula, tested, asked):
    area = block(formula, tested)
    holds = asked_for(formula, asked)
    found = filled(formula, area)
    empty = area.rows * area.cols - len(found)
    return values.whole(sum(map(holds, found)) + empty * holds(NOTHING))


# Numbers.


@function("ABS", 1, 1)
def absolute(formula, tree):
    return Number(abs(number(formula, tree)))


@function("SIGN", 1, 1)
def sign(formula, tree):
    found = number(formula, tree)
    return values.whole((found > 0) - (found < 0))


@function("INT", 1, 1)
def whole_below(formula, tree):
    return values.whole(numbers.floor(number(formula, tree)))


def at_digits(found, digits, rounding):
    """The number rounded so that this many digits stay after the point."""
    if digits >= 6:
        return Number(found)
    if digits < -12:
        digits = -13
    unit = 10 ** (6 - digits)
    return values.number(rounding(found, unit) * unit)


def away(top, bottom):
    steps = -(-abs(top) // bottom)
    return steps if top >= 0 else -steps


def toward(top, bottom):
    steps = abs(top) // bottom
    return steps if top >= 0 else -steps


def rounds(word, rounding):
    @function(word, 1, 2)
    def body(formula, tree, digits=None):
        found = number(formula, tree)
        return at_digits(found, 0 if digits is None else integer(formula, digits), rounding)


rounds("ROUND", numbers.nearest)
rounds("ROUNDUP", away)
rounds("ROUNDDOWN", toward)
rounds("TRUNC", toward)


@function("MOD", 2, 2)
def modulo(formula, left, right):
    left, right = number(formula, left), number(formula, right)
    if right == 0:
        return values.DIV
    return Number(left % right)


@function("QUOTIENT", 2, 2)
def whole_quotient(formula, left, right):
    left, right = number(formula, left), number(formula, right)
    if right == 0:
        return values.DIV
    result = abs(left) // abs(right)
    return values.whole(result if (left < 0) == (right < 0) else -result)


@function("POWER", 2, 2)
def power_of(formula, left, right):
    left = number(formula, left)
    return power(left, number(formula, right))


@function("ISEVEN", 1, 1)
def is_even(formula, tree):
    return Truth(integer(formula, tree) % 2 == 0)


@function("ISODD", 1, 1)
def is_odd(formula, tree):
    return Truth(integer(formula, tree) % 2 == 1)


# Looking up.


def position(wanted, line, kind):
    """Where in a list of values the wanted one stands, from 0: exactly, or in ascending order the
    last that isn't greater, or in descending order the last that isn't smaller."""
    best = None
    for at, value in enumerate(line):
        if value is NOTHING or isinstance(value, Fault) or type(value) is not type(wanted):
            continue
        order = values.compare(value, wanted)
        if kind == 0 and order == 0:
            return at
        if kind > 0:
            if order > 0:
                break
            best = at
        if kind < 0:
            if order < 0:
                break
            best = at
    if best is None:
        raise Stop(values.NA)
    return best


def column_of(formula, area, col):
    return [formula.evaluation.at(area, row, col) for row in range(area.rows)]


def row_of(formula, area, row):
    return [formula.evaluation.at(area, row, col) for col in range(area.cols)]


def wanted_value(formula, tree):
    value = values.no_fault(formula.single(tree))
    return Number(0) if value is NOTHING else value


@function("MATCH", 2, 3)
def match(formula, tree, where, kind=None):
    wanted = wanted_value(formula, tree)
    area = block(formula, where)
    kind = numbers.ONE if kind is None else number(formula, kind)
    if area.rows == 1:
        line = row_of(formula, area, 0)
    elif area.cols == 1:
        line = column_of(formula, area, 0)
    else:
        return values.VALUE
    if kind not in (-numbers.ONE, 0, numbers.ONE):
        return values.NA
    return values.whole(position(wanted, line, kind) + 1)


@function("VLOOKUP", 3, 4)
def lookup_down(formula, tree, where, col, sorted_=None):
    wanted = wanted_value(formula, tree)
    area = block(formula, where)
    col = integer(formula, col)
    ascending = True if sorted_ is None else truth(formula, sorted_)
    if col < 1:
        return values.VALUE
    if col > area.cols:
        return values.REF
    row = position(wanted, column_of(formula, area, 0), 1 if ascending else 0)
    return formula.evaluation.at(area, row, col - 1)


@function("HLOOKUP", 3, 4)
def lookup_right(formula, tree, where, row, sorted_=None):
    wanted = wanted_value(formula, tree)
    area = block(formula, where)
    row = integer(formula, row)
    ascending = True if sorted_ is None else truth(formula, sorted_)
    if row < 1:
        return values.VALUE
    if row > area.rows:
        return values.REF
    col = position(wanted, row_of(formula, area, 0), 1 if ascending else 0)
    return formula.evaluation.at(area, row - 1, col)


@function("INDEX", 2, 3)
def index(formula, where, row, col=None):
    area = block(formula, where)
    row = integer(formula, row)
    if col is not None:
        col = integer(formula, col)
    elif area.rows == 1:
        row, col = 1, row
    else:
        col = 1
    for at, size in ((row, area.rows), (col, area.cols)):
        if at < 1:
            return values.VALUE
        if at > size:
            return values.REF
    return formula.evaluation.at(area, row - 1, col - 1)


@function("CHOOSE", 2, None)
def choose(formula, which, *arguments):
    at = integer(formula, which)
    if not 1 <= at <= len(arguments):
        return values.VALUE
    return formula.single(arguments[at - 1])


# Texts.


@function("LEN", 1, 1)
def length(formula, tree):
    return values.whole(len(text(formula, tree)))


@function("LEFT", 1, 2)
def left(formula, tree, count_=None):
    found = text(formula, tree)
    kept = 1 if count_ is None else integer(formula, count_)
    return Text(found[:whole_from(kept, 0)])


@function("RIGHT", 1, 2)
def right(formula, tree, count_=None):
    found = text(formula, tree)
    kept = 1 if count_ is None else integer(formula, count_)
    return Text(found[max(len(found) - whole_from(kept, 0), 0):])


@function("MID", 3, 3)
def middle(formula, tree, start, count_):
    found = text(formula, tree)
    start, count_ = integer(formula, start), integer(formula, count_)
    start = whole_from(start, 1) - 1
    return Text(found[start:start + whole_from(count_, 0)])


@function("CONCATENATE", 1, None)
def concatenate(formula, *arguments):
    return values.text("".join([text(formula, tree) for tree in arguments]))


@function("TRIM", 1, 1)
def trim(formula, tree):
    return Text(" ".join(part for part in text(formula, tree).split(" ") if part))


@function("REPT", 2, 2)
def repeat(formula, tree, count_):
    found = text(formula, tree)
    times = whole_from(integer(formula, count_), 0)
    if len(found.encode()) * times > values.TEXT_BYTES:
        return values.VALUE
    return Text(found * times if found else "")


@function("EXACT", 2, 2)
def exact(formula, one, other):
    one = text(formula, one)
    return Truth(one == text(formula, other))


@function("FIND", 2, 3)
def find(formula, wanted, within, start=None):
    wanted = text(formula, wanted)
    within = text(formula, within)
    start = 1 if start is None else integer(formula, start)
    at = within.find(wanted, whole_from(start, 1) - 1)
    return values.VALUE if at < 0 else values.whole(at + 1)


@function("SUBSTITUTE", 3, 4)
def substitute(formula, tree, old, new, which=None):
    found, old, new = text(formula, tree), text(formula, old), text(formula, new)
    if which is None:
        return values.text(found.replace(old, new) if old else found)
    which = whole_from(integer(formula, which), 1)
    at = -1
    if old:
        parts = found.split(old)
        if which < len(parts):
            at = len(old.join(parts[:which]))
    if at < 0:
        return Text(found)
    return values.text(found[:at] + new + found[at + len(old):])


@function("VALUE", 1, 1)
def value_of(formula, tree):
    found = numbers.spelled(text(formula, tree))
    return values.VALUE if found is None else Number(found)


# Days.


@function("DATE", 3, 3)
def date(formula, year, month, day):
    year, month, day = (integer(formula, tree) for tree in (year, month, day))
    if not 0 <= year <= 9999:
        return values.NUM
    return days.shown(days.serial(year + 1900 if year < 1900 else year, month, day))


def part_of_day(word, part):
    @function(word, 1, 1)
    def body(formula, tree):
        return values.whole(part(days.day(integer(formula, tree))))


part_of_day("YEAR", lambda day: day.year)
part_of_day("MONTH", lambda day: day.month)
part_of_day("DAY", lambda day: day.day)


@function("WEEKDAY", 1, 2)
def weekday(formula, tree, kind=None):
    found = integer(formula, tree)
    kind = numbers.ONE if kind is None else number(formula, kind)
    found = days.day(found)
    if kind == numbers.ONE:
        return values.whole(found.isoweekday() % 7 + 1)
    if kind == 2 * numbers.ONE:
        return values.whole(found.isoweekday())
    if kind == 3 * numbers.ONE:
        return values.whole(found.weekday())
    return values.NUM


@function("DAYS", 2, 2)
def days_between(formula, end, start):
    end, start = integer(formula, end), integer(formula, start)
    days.day(end)
    days.day(start)
    return values.whole(end - start)


@function("EDATE", 2, 2)
def same_day(formula, start, months):
    start, months = integer(formula, start), integer(formula, months)
    found = days.day(start)
    month = found.month + months
    last = days.last_of(found.year, month)
    return days.shown(min(days.serial(found.year, month, found.day), last))


@function("EOMONTH", 2, 2)
def month_end(formula, start, months):
    start, months = integer(formula, start), integer(formula, months)
    found = days.day(start)
    return days.shown(days.last_of(found.year, found.month + months))


@function("TODAY", 0, 0)
def today(formula):
    return values.whole(formula.today)


# Logic.


def truths(formula, arguments):
    found = []
    for tree in arguments:
        argument = formula.argument(tree)
        if is_area(argument):
            for value in filled(formula, argument):
                if isinstance(values.no_fault(value), (Number, Truth)):
                    found.append(values.as_truth(value))
        else:
            found.append(values.as_truth(argument))
    if not found:
        raise Stop(values.VALUE)
    return found


@function("AND", 1, None)
def all_true(formula, *arguments):
    return Truth(all(truths(formula, arguments)))


@function("OR", 1, None)
def any_true(formula, *arguments):
    return Truth(any(truths(formula, arguments)))


@function("XOR", 1, None)
def odd_true(formula, *arguments):
    return Truth(sum(truths(formula, arguments)) % 2 == 1)


@function("NOT", 1, 1)
def negation(formula, tree):
    return Truth(not truth(formula, tree))


@function("TRUE", 0, 0)
def true(formula):
    return Truth(True)


@function("FALSE", 0, 0)
def false(formula):
    return Truth(False)


@function("NA", 0, 0)
def not_available(formula):
    return values.NA


def tells(word, holds):
    @function(word, 1, 1)
    def body(formula, tree):
        return Truth(holds(formula.single(tree)))


tells("ISERROR", lambda value: isinstance(value, Fault))
tells("ISERR", lambda value: isinstance(value, Fault) and value != values.NA)
tells("ISNA", lambda value: value == values.NA)
tells("ISNUMBER", lambda value: isinstance(value, Number))
tells("ISTEXT", lambda value: isinstance(value, Text))
tells("ISLOGICAL", lambda value: isinstance(value, Truth))
tells("ISBLANK", lambda value: value is NOTHING)


@function("IF", 2, 3)
def if_(formula, asked, then, otherwise=None):
    if truth(formula, asked):
        return formula.single(then)
    return Truth(False) if otherwise is None else formula.single(otherwise)


@function("IFERROR", 2, 2)
def if_error(formula, tree, instead):
    value = formula.single(tree)
    return formula.single(instead) if isinstance(value, Fault) else value


@function("IFNA", 2, 2)
def if_not_available(formula, tree, instead):
    value = formula.single(tree)
    return formula.single(instead) if value == values.NA else value


# Places.


@function("ROW", 0, 1)
def row_number(formula, tree=None):
    return values.whole(formula.place[1] if tree is None else block(formula, tree).row)


@function("COLUMN", 0, 1)
def column_number(formula, tree=None):
    return values.whole(formula.place[2] if tree is None else block(formula, tree).col)


@function("ROWS", 1, 1)
def row_count(formula, tree):
    return values.whole(block(formula, tree).rows)


@function("COLUMNS", 1, 1)
def column_count(formula, tree):
    return values.whole(block(formula, tree).cols)


# The program's own.


@function("POSTAGE", 1, 1)
def postage(formula, weight):
    found = number(formula, weight)
    price = None
    for limit, rate in ((0, 1_500_000), (500_000, 2_750_000), (2_000_000, 5_400_000),
                        (10_000_000, 9_900_000)):
        if found >= limit:
            price = Number(rate)
    return values.NA if price is None else price


@function("LEVY", 1, 1)
def levy(formula, amount):
    found = number(formula, amount)
    if found < 0:
        return values.NUM
    low, high = 1000 * numbers.ONE, 5000 * numbers.ONE
    hundredths = (
        10 * min(found, low) + 20 * max(min(found, high) - low, 0) + 25 * max(found - high, 0)
    )
    return values.number(numbers.nearest(hundredths, 100))
