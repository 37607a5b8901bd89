"""Values: nothing, numbers, texts, truth values and faults; what they are as others, and their order."""

import string
from dataclasses import dataclass

import numbers

TEXT_BYTES = 32768


@dataclass(frozen=True)
class Number:
    millionths: int


@dataclass(frozen=True)
class Text:
    text: str


@dataclass(frozen=True)
class Truth:
    truth: bool


@dataclass(frozen=True)
class Fault:
    spelling: str


# An empty cell.
NOTHING = None

DIV = Fault("#DIV/0!")
NAME = Fault("#NAME?")
VALUE = Fault("#VALUE!")
NUM = Fault("#NUM!")
NA = Fault("#N/A")
CYCLE = Fault("#CYCLE!")
REF = Fault("#REF!")
ERROR = Fault("#ERROR!")
FAULTS = (DIV, NAME, VALUE, NUM, NA, CYCLE, REF, ERROR)


class Stop(Exception):
    """A fault that decides what is being worked out."""

    def __init__(self, fault):
        super().__init__(fault)
        self.fault = fault


def whole(integer):
    """The number of this size, where it is in range."""
    return number(integer * numbers.ONE)


def number(millionths):
    if not numbers.in_range(millionths):
        raise Stop(NUM)
    return Number(millionths)


def text(characters):
    if len(characters.encode()) > TEXT_BYTES:
        raise Stop(VALUE)
    return Text(characters)


CAPITALS, SMALL = string.ascii_uppercase, string.ascii_lowercase
TO_SMALL, TO_CAPITAL = str.maketrans(CAPITALS, SMALL), str.maketrans(SMALL, CAPITALS)


def small(characters):
    """The text with its ASCII capitals as small letters."""
    return characters.translate(TO_SMALL)


def capital(characters):
    """The text with its small ASCII letters as capitals."""
    return characters.translate(TO_CAPITAL)


def truth_spelled(characters):
    """TRUE or FALSE in any case, or None."""
    return {"true": True, "false": False}.get(small(characters))


def as_number(value):
    """What the value is as a number, in millionths."""
    if value is NOTHING:
        return 0
    if isinstance(value, Number):
        return value.millionths
    if isinstance(value, Truth):
        return numbers.ONE if value.truth else 0
    if isinstance(value, Text):
        spelled = numbers.spelled(value.text)
        if spelled is None:
            raise Stop(VALUE)
        return spelled
    raise Stop(value)


def as_text(value):
    """What the value is as a text."""
    if isinstance(value, Fault):
        raise Stop(value)
    return shown(value)


def as_truth(value):
    """What the value is as a truth value."""
    if value is NOTHING:
        return False
    if isinstance(value, Number):
        return value.millionths != 0
    if isinstance(value, Truth):
        return value.truth
    if isinstance(value, Text):
        truth = truth_spelled(value.text)
        if truth is None:
            raise Stop(VALUE)
        return truth
    raise Stop(value)


def shown(value):
    """The text of a value."""
    if value is NOTHING:
        return ""
    if isinstance(value, Number):
        return numbers.shown(value.millionths)
    if isinstance(value, Truth):
        return "TRUE" if value.truth else "FALSE"
    if isinstance(value, Text):
        return value.text
    return value.spelling


def no_fault(value):
    if isinstance(value, Fault):
        raise Stop(value)
    return value


def key(value):
    """Where the value stands in the order of all values."""
    if isinstance(value, Number):
        return (0, value.millionths)
    if isinstance(value, Text):
        return (1, small(value.text).encode())
    return (2, value.truth)


def beside(value, other):
    """What nothing is beside another value."""
    if value is not NOTHING:
        return value
    if isinstance(other, Text):
        return Text("")
    if isinstance(other, Truth):
        return Truth(False)
    return Number(0)


def compare(left, right):
    """-1, 0 or 1: the order of two values that aren't faults."""
    a, b = key(beside(left, right)), key(beside(right, left))
    return (a > b) - (a < b)
