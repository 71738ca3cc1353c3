"""Reads whole numbers, with or without groups of three digits."""

import itertools
import re
from typing import Sequence

from ._text import quote

# One separator between all groups of a number: a comma, an apostrophe, a low line or a space of any width.
_NUMBER = re.compile(
    "0|[1-9][0-9]*|[1-9][0-9]{0,2}(?:([,'\u2019_ \u00a0\u2009\u202f])[0-9]{3})(?:\\1[0-9]{3})*"
)

_DIGITS = re.compile("[0-9]{1,99}")
# The most words of four numbers below 2^64, which have seven groups.
_MOST_WORDS = 28
# A number times a power of ten, with or without decimals.
_POWER = re.compile("(?:([0-9]{1,15})(?:\\.([0-9]{1,15}))?[eE]\\+?|10\\^)([0-9]{1,2})")


def number_of(text: str) -> int:
    """The number of a text, with or without groups of three digits. Raises ValueError.

    >>> number_of("47,176,870")
    47176870
    """
    if _NUMBER.fullmatch(text) is None:
        raise ValueError("%s is no number" % quote(text))
    return int(re.sub("[^0-9]", "", text))


def whole_number(text: str) -> int:
    """The number of an option: `1000000`, `1,000,000`, `1_000_000`, `1e6`, `10^6`, with or without a sign. Raises
    ValueError.

    >>> whole_number("1e6"), whole_number("-1,000")
    (1000000, -1000)
    """
    plain = text.strip()
    sign = -1 if plain.startswith("-") else 1
    digits = re.sub("^[+-]", "", plain)
    power = _POWER.fullmatch(digits)
    if power is not None and int(power[3]) >= len(power[2] or ""):
        whole, part = power[1] or "1", power[2] or ""
        return sign * int(whole + part + "0" * (int(power[3]) - len(part)))
    if _DIGITS.fullmatch(digits) is None and _NUMBER.fullmatch(digits) is None:
        raise ValueError("%s is no whole number" % quote(text))
    return sign * int(re.sub("[^0-9]", "", digits))


def option_number(text: str) -> int:
    """The number of an option, for argparse. Raises ArgumentTypeError, with advice."""
    try:
        return whole_number(text)
    except ValueError as error:
        # Its import takes a while.
        from argparse import ArgumentTypeError

        raise ArgumentTypeError("%s; 1000000, 1,000,000, 1_000_000 and 1e6 are" % error) from None


def numbers_in(words: Sequence[str], counts: Sequence[int]) -> list[int]:
    """The numbers of these words. Raises ValueError unless one way to read them gives so many numbers."""
    ways: list[list[str]] = []
    for count in counts if len(words) <= _MOST_WORDS else ():
        for cuts in itertools.combinations(range(1, len(words)), count - 1):
            parts = [" ".join(words[start:end]) for start, end in zip((0, *cuts), (*cuts, len(words)))]
            ways += [parts] if all(map(_NUMBER.fullmatch, parts)) else []
    if len(ways) != 1:
        raise ValueError("%s can be read as numbers in %d ways" % (quote(" ".join(words)), len(ways)))
    return [number_of(text) for text in ways[0]]
