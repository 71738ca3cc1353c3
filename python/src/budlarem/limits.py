"""The limits of a run and its deciders."""

import dataclasses
import operator
import re
from typing import Any, ClassVar

from ._text import LONGEST_VALUE
from .numbers import whole_number


class LimitsError(ValueError):
    """A limit is out of its range.

    `limit` is its name, `lowest` and `highest` its range, `given` the value. The highest `depth` depends on the
    cells: 2 * depth - 1 may be at most the cells.
    """

    def __init__(self, limit: str, lowest: int, highest: int, given: int) -> None:
        super().__init__(limit, lowest, highest, given)
        self.limit, self.lowest, self.highest, self.given = limit, lowest, highest, given

    def __str__(self) -> str:
        text = f"{self.limit} is {self.given:,}, but may be {self.lowest:,} to {self.highest:,}"
        if self.limit == "depth" and 0 <= self.given <= 10_000:
            text += " with so few cells: 2 * depth - 1 may be at most the cells"
        return text


def whole(name: str, given: Any) -> int:
    """A whole number of any integral type. Raises TypeError."""
    if isinstance(given, bool):
        raise TypeError("%s is %r, but must be a whole number" % (name, given))
    try:
        return operator.index(given)
    except TypeError:
        parts = (name, LONGEST_VALUE, given, type(given).__name__)
        raise TypeError("%s is %.*r of type %s, but must be a whole number" % parts) from None


def in_range(name: str, given: Any, lowest: int, highest: int) -> int:
    """A whole number within a range. Raises TypeError, LimitsError."""
    number = whole(name, given)
    if not lowest <= number <= highest:
        raise LimitsError(name, lowest, highest, number)
    return number


@dataclasses.dataclass(frozen=True)
class Limits:
    """The limits of a run.

    `steps`: of one simulation, 0 to 1,000,000,000,000. `cells`: of one tape, 1 to 67,108,864; a thread has three
    tapes of as many bytes. `depth`: levels of the backward tree, 0 to 10,000. `nodes`: of that tree, 0 to
    1,000,000,000,000. 2 * depth - 1 must be at most `cells`. The defaults are the program's.

    Raises LimitsError for a number out of its range, TypeError for anything else.

    >>> Limits(steps=1_000).steps
    1000
    >>> Limits(cells=0)
    Traceback (most recent call last):
    budlarem.limits.LimitsError: cells is 0, but may be 1 to 67,108,864
    """

    steps: int = 1_000_000
    cells: int = 65_536
    depth: int = 300
    nodes: int = 1_000_000

    RANGES: ClassVar[dict[str, tuple[int, int]]] = {
        "steps": (0, 1_000_000_000_000),
        "cells": (1, 67_108_864),
        "depth": (0, 10_000),
        "nodes": (0, 1_000_000_000_000),
    }

    def __post_init__(self) -> None:
        for name, (lowest, highest) in self.RANGES.items():
            object.__setattr__(self, name, in_range(name, getattr(self, name), lowest, highest))
        if 2 * self.depth - 1 > self.cells:
            raise LimitsError("depth", 0, (self.cells + 1) // 2, self.depth)

    def numbers(self) -> tuple[int, int, int, int]:
        return self.steps, self.cells, self.depth, self.nodes


# The greatest limits, which refuse no claim.
GREATEST = Limits(**{name: highest for name, (_, highest) in Limits.RANGES.items()})


def words_of(limits: Limits) -> str:
    """The value of `--pass` for limits."""
    return "steps=%d,cells=%d,depth=%d,nodes=%d" % limits.numbers()


def limits_of(words: str) -> Limits:
    """The limits of words as `steps=1000,cells=1024`, else the program's. Raises ValueError, LimitsError."""
    found: dict[str, int] = {}
    # A comma may also separate groups of digits.
    for word in re.split(",(?![0-9]{3}(?:,|$))", words):
        name, _, number = word.partition("=")
        try:
            if name not in Limits.RANGES or name in found or number.startswith("-"):
                raise ValueError
            found[name] = whole_number(number)
        except ValueError:
            form = "steps=1000,cells=1024,depth=40,nodes=10000, each at most once"
            raise ValueError(f"--pass {words}: {word!r} is no limit; a pass is as {form}") from None
    return Limits(**found)


@dataclasses.dataclass(frozen=True)
class Plan:
    """The deciders in use, in their order. Raises TypeError for anything but True and False."""

    cyclers: bool = True
    translated: bool = True
    backward: bool = True

    def __post_init__(self) -> None:
        for field in dataclasses.fields(self):
            given = getattr(self, field.name)
            if not isinstance(given, bool):
                parts = (field.name, LONGEST_VALUE, given, type(given).__name__)
                raise TypeError("%s is %.*r of type %s, but must be True or False" % parts)

    def switches(self) -> tuple[bool, bool, bool]:
        return self.cyclers, self.translated, self.backward
