"""Exact decimals: a number is a whole number of millionths, below 10^12 in absolute value."""

import re

ONE = 10**6
BOUND = 10**18
SPELLING = re.compile(r"(?:([0-9]+)(?:\.([0-9]*))?|\.([0-9]+))")


def in_range(number):
    return -BOUND < number < BOUND


def nearest(top, bottom):
    """The whole number nearest to top / bottom; a half goes away from zero."""
    whole, rest = divmod(abs(top), abs(bottom))
    if 2 * rest >= abs(bottom):
        whole += 1
    return whole if (top < 0) == (bottom < 0) else -whole


def spelled_without_sign(text):
    """The number that these digits and at most one point spell, or None."""
    found = SPELLING.fullmatch(text)
    if not found:
        return None
    whole = (found[1] or "").lstrip("0")
    decimals = (found[2] or found[3] or "")
    if len(whole) > 12:
        return None
    # The seventh decimal alone says to which side a half goes.
    number = nearest(int((whole or "0") + decimals[:7].ljust(7, "0")), 10)
    return number if in_range(number) else None


def spelled(text):
    """The number that a text spells, with at most one sign, or None."""
    if text[:1] in ("+", "-"):
        number = spelled_without_sign(text[1:])
        return number if number is None or text[0] == "+" else -number
    return spelled_without_sign(text)


def shown(number):
    """The shortest text of a number."""
    whole, rest = divmod(abs(number), ONE)
    text = str(whole)
    if rest:
        text += ("." + str(rest).rjust(6, "0")).rstrip("0")
    return "-" + text if number < 0 else text


def times(left, right):
    return nearest(left * right, ONE)


def over(left, right):
    """The quotient; the right side isn't 0."""
    return nearest(left * ONE, right)


def is_whole(number):
    return number % ONE == 0


def cut(number):
    """The whole part, as a Python integer, without the decimals."""
    return number // ONE if number >= 0 else -(-number // ONE)


def floor(number):
    return number // ONE
