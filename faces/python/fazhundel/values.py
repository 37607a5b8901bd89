"""Places, values and links."""
from decimal import Context, Decimal
from enum import IntEnum
from typing import NamedTuple, Optional, Union

MILLION = 1_000_000
LEAST, GREATEST = -(2**63), 2**63 - 1

# Enough digits for every number of 64 bits, whatever the program's own context says.
EXACT = Context(prec=19)


class Place(NamedTuple):
    """A cell: the number of its sheet, its row and its column, both counted from 0."""

    sheet: int
    row: int
    col: int


class Block(NamedTuple):
    """A rectangle of cells, by its first and last row and column."""

    sheet: int
    top: int
    left: int
    bottom: int
    right: int


class Name(NamedTuple):
    """A named expression: its scope, which is a sheet's number or None for the whole workbook, and its word in capitals."""

    scope: Optional[int]
    word: str


class Fault(IntEnum):
    """Why a cell has no value."""

    DIV0 = 1
    NAME = 2
    VALUE = 3
    NUM = 4
    NA = 5
    CYCLE = 6
    REF = 7
    ERROR = 8


class Kind(IntEnum):
    """What kind of content a cell has."""

    EMPTY = 0
    NUMBER = 1
    TEXT = 2
    TRUTH = 3
    FORMULA = 5
    #: A formula that has no tree, kept as its text.
    UNREADABLE = 6


#: What a cell shows: None where it is empty.
Value = Union[None, Decimal, str, bool, Fault]

#: What a formula needs, or what needs a cell.
Link = Union[Place, Block, Name]


def decimal(millionths: int) -> Decimal:
    """The number of so many millionths, without zeros behind it."""
    whole, rest = divmod(millionths, MILLION)
    return Decimal(whole) if not rest else EXACT.normalize(EXACT.scaleb(Decimal(millionths), -6))


def millionths(number: Union[Decimal, int]) -> int:
    """The number as a whole number of millionths. ValueError where it is none of 64 bits, TypeError for any other type."""
    if type(number) is int:
        scaled, rest = number * MILLION, 0
    elif not isinstance(number, (Decimal, int)) or isinstance(number, bool):
        raise TypeError(f"a Decimal or an int was expected, not {type(number).__name__}")
    else:
        above, below = number.as_integer_ratio()
        scaled, rest = divmod(above * MILLION, below)
    if rest or not LEAST <= scaled <= GREATEST:
        raise ValueError(f"{number} is no number of millionths")
    return scaled
