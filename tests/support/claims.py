"""Verdict lines, true and false, for checkers to answer alike: changed verdicts, and claims of plain runs."""

import itertools
import random
from typing import Callable, Iterable, Iterator, Sequence

from .machines import SWAPPED, table_of
from .simulation import simulate

KINDS = ("halt", "cycler", "translated L", "translated R", "backward", "undecided", "refused")
# Numbers that no verdict has, or that are none, also digits of other alphabets.
ODD_NUMBERS = ["00", "01", "+1", "-1", "", " ", "1e3", "1_0", "1.0", "9" * 40, "\xb2", "\xd9\xa1"]
ODD_NUMBERS += [str(2**64 - 1), str(2**64)]
# What a text may get in place of a character.
CHARACTERS = "0123456789LRABCDEYZ-_ \r\t\0\x7f\x80\xff"
# A text longer than any line, so many bytes and more.
LONG = 1_023


def pairs_of(text: str, steps: int) -> Iterator[str]:
    """Claims of all pairs of records of a side, and of steps at one position, with equal states."""
    run = list(simulate(text, steps))
    for side, out in (("R", 1), ("L", -1)):
        tops = [max(0, *(out * now.head for now in run[:n])) if n else 0 for n in range(len(run))]
        made = [n for n, now in enumerate(run) if out * now.head > tops[n]]
        for a, b in itertools.combinations(made, 2):
            if run[a].state == run[b].state:
                yield "%s translated %s %d %d" % (text, side, a, b)
    for a, b in itertools.combinations(range(len(run)), 2):
        if run[a].state == run[b].state and run[a].head == run[b].head:
            yield "%s cycler %d %d" % (text, a, b)


def trees_of(text: str, levels: int, nodes: int) -> Iterator[str]:
    """Claims of all trees up to so many levels and nodes; at most one of them holds."""
    for h in range(levels + 1):
        for k in range(h, nodes + 1):
            yield "%s backward %d %d" % (text, h, k)


def with_number(source: random.Random, fields: list[str], more: Sequence[int] = (-1, 1)) -> list[str]:
    """A number one up or down, or changed by another of these."""
    places = [k for k, field in enumerate(fields) if k and field.isdecimal()]
    if places:
        at = source.choice(places)
        fields[at] = str(abs(int(fields[at]) + source.choice(more)))
    return fields


def with_odd_number(source: random.Random, fields: list[str]) -> list[str]:
    """A number that no verdict has, or what is none."""
    fields[-1] = source.choice(ODD_NUMBERS)
    return fields


def with_side(_: random.Random, fields: list[str]) -> list[str]:
    """The other side."""
    return [fields[0], *(field.translate(SWAPPED) for field in fields[1:])]


def with_pair(source: random.Random, fields: list[str]) -> list[str]:
    """Another pair of the machine: a later or longer one, one turned round, or one without its extent."""
    at = {"cycler": 2, "translated": 3}.get(fields[1], 0)
    if not at:
        return fields
    a, b = int(fields[at]), int(fields[at + 1])
    pairs = [(b, 2 * b - a), (a, 2 * b - a), (a + 1, b + 1), (max(a - 1, 0), b - 1), (b, a), (a, a), (a, b)]
    return [*fields[:at], *map(str, source.choice(pairs)), *fields[at + 2 :][: source.choice((0, 1, 2))]]


def with_kind(source: random.Random, fields: list[str]) -> list[str]:
    """The same numbers as a claim of another kind."""
    numbers = [field for field in fields[1:] if field.isdecimal()]
    return [fields[0], *source.choice(KINDS).split(" "), *numbers[: source.choice((1, 2, 2, 2, 4))]]


def with_text(source: random.Random, fields: list[str]) -> list[str]:
    """A line of which a character is another, one more, or gone."""
    text = " ".join(fields)
    at = source.randrange(len(text))
    return [text[:at] + source.choice(("", source.choice(CHARACTERS))) + text[at + source.choice((0, 1)) :]]


def with_machine(source: random.Random, fields: list[str]) -> list[str]:
    """A machine of which an entry is another one of it, or undefined."""
    groups = table_of(fields[0])
    entries = [entry for group in groups for entry in group]
    group = source.choice(groups)
    group[source.randrange(len(group))] = source.choice([*entries, "---"])
    return ["_".join("".join(group) for group in groups), *fields[1:]]


def lengthen(source: random.Random, fields: list[str]) -> list[str]:
    """A line that is longer than any is, or just not."""
    text = " ".join(fields)
    return [text + source.choice(" 0") * (LONG - len(text) + source.choice((-1, 0, 1, 100)))]


# The changes, and how often each is made beside the others.
CHANGES: dict[Callable[[random.Random, list[str]], list[str]], int] = {
    **{with_number: 6, with_pair: 5, with_odd_number: 1, lengthen: 1},
    **dict.fromkeys((with_side, with_kind, with_machine, with_text), 2),
}


def forge(source: random.Random, lines: Sequence[str], count: int) -> Iterator[str]:
    """So many lines, each made of one of these by a change."""
    for change in source.choices(list(CHANGES), list(CHANGES.values()), k=count):
        yield " ".join(change(source, source.choice(lines).split(" ")))


def with_other_number(line: str, source: random.Random) -> str:
    """A verdict line with one number changed."""
    return " ".join(with_number(source, line.split(" "), (-2, -1, 1, 2, 1000)))


def refusals(numbers: Iterable[int]) -> Iterator[str]:
    """Lines that refuse at these columns, and the same with a zero in front."""
    for number in numbers:
        yield "refused %d" % number
        yield "refused 0%d" % number


def tight_limits(line: str) -> Iterator[tuple[Sequence[int], str]]:
    """A line of a run, with limits of steps and cells that are just enough, and just not."""
    fields = line.split(" ")
    at = {"halt": 2, "cycler": 3, "translated": 4}.get(fields[1])
    if at is None:
        return
    last = int(fields[at])
    *_, end = simulate(fields[0], last)
    wide = end.high - end.low + 1
    for steps, cells in ((last, wide), (last, wide + 1), (last, wide - 1), (last - 1, wide)):
        if steps >= 0 and cells >= 1:
            yield (steps, cells, 0, 0), line
