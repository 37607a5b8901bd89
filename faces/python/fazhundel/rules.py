"""Custom functions of one value, as rules."""
from decimal import Decimal
from typing import Mapping, NamedTuple, Sequence, Tuple, Union

from . import library
from .values import millionths

Number = Union[Decimal, int]


class Bands(NamedTuple):
    """Answers the second number of the last pair whose first one isn't above the value; #N/A below the first pair."""

    pairs: Sequence[Tuple[Number, Number]]


class Tiers(NamedTuple):
    """Answers the sum over all tiers of the rate times the part of the value in the tier; the first begins at 0."""

    pairs: Sequence[Tuple[Number, Number]]


class Table(NamedTuple):
    """Rules as the library takes them."""

    rules: "library.Array"
    pairs: "library.Array"
    words: bytes


def table(rules: Mapping[str, Union[Bands, Tiers]]) -> Table:
    """The table of functions by their words."""
    rows, pairs, words = [], [], b""
    for word, rule in rules.items():
        named = word.encode()
        rows.append(library.Rule(len(words), len(named), len(pairs), len(rule.pairs), isinstance(rule, Tiers)))
        words += named
        pairs += [library.Pair(millionths(start), millionths(gives)) for start, gives in rule.pairs]
    return Table((library.Rule * len(rows))(*rows), (library.Pair * len(pairs))(*pairs), words)
