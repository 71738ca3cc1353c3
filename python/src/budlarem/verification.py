"""Checks lists of verdict lines, and explains why a line isn't confirmed."""

from __future__ import annotations

import collections
import dataclasses
import re
from typing import Callable, Iterator, NamedTuple, Sequence, TypeVar

from ._calls import BinaryReader, whole_lines
from ._library import cost_of_check
from ._text import LONGEST_SHOWN
from .engine import check, decide, recurrences
from .limits import Limits, Plan
from .verdicts import Answer, Backward, Cycler, Halt, RecurrenceReply, Translated, Verdict, parse

Found = TypeVar("Found")

# With so few cells a call costs little.
FEW_CELLS = 65_536
# The bytes read at once where nothing is checked.
_BLOCK = 1 << 20
_RECURRENCE = re.compile(rb"[^ \n]+ recurs [^\n]+")


class Unconfirmed(NamedTuple):
    """A line that the checker doesn't confirm: its number, text and answer."""

    number: int
    line: str
    answer: Answer

    def sentence(self, name: str, limits: Limits) -> str:
        """The line in a file, and why it isn't confirmed under these limits."""
        parts = (name, self.number, self.answer, LONGEST_SHOWN, self.line)
        return "%s:%d: %s: %.*s: %s" % (*parts, explain(self.line, self.answer, limits))


@dataclasses.dataclass
class CheckSummary:
    """The count of each answer, a recurrence as `OK`; the first unconfirmed line; the quasihalting ones."""

    counts: collections.Counter[Answer] = dataclasses.field(default_factory=collections.Counter)
    first: Unconfirmed | None = None
    quasihalts: int = 0

    def add(self, lines: bytes, replies: bytes) -> None:
        answers = _RECURRENCE.sub(b"ok", replies)
        if self.first is None:
            self.first = find_unconfirmed(lines, answers, sum(self.counts.values()))
        for answer in Answer:
            # No answer ends as another.
            self.counts[answer] += answers.count(b"%s\n" % str(answer).encode())
        self.quasihalts += replies.count(b" quasihalts ")


class CheckCost(NamedTuple):
    """The most that checking a file can cost: steps and nodes of all lines, the steps and nodes of the most
    expensive line together, and its number; 0 if no line costs anything."""

    steps: int
    nodes: int
    most: int
    number: int

    def sentence(self, name: str) -> str:
        """The cost as one line, with the most expensive line of the file."""
        whole = "at most {:,} steps and {:,} nodes".format(self.steps, self.nodes)
        if self.number == 0:
            return "%s: %s" % (name, whole)
        return "{}: {}; the most on line {:,}: {:,}".format(name, whole, self.number, self.most)


def cost_of_file(file: BinaryReader, limits: Limits) -> CheckCost:
    """The most that checking a file can cost under these limits, from the numbers in its lines."""
    cost, before = CheckCost(0, 0, 0, 0), 0
    for lines in whole_lines(iter(lambda: file.read(_BLOCK), b"")):
        steps, nodes, most, line = cost_of_check(limits.numbers(), lines)
        dearest = (most, before + line + 1) if most > cost.most else (cost.most, cost.number)
        cost = CheckCost(cost.steps + steps, cost.nodes + nodes, *dearest)
        before += lines.count(b"\n")
    return cost


def find_unconfirmed(lines: bytes, answers: bytes, before: int) -> Unconfirmed | None:
    """The first line that is neither `ok` nor `open`, with `before` lines before these."""
    words = answers.split(b"\n")[:-1]
    if words.count(b"ok") + words.count(b"open") == len(words):
        return None
    place = next(place for place, word in enumerate(words) if word not in (b"ok", b"open"))
    line = lines.split(b"\n")[place].decode("utf-8", "surrogateescape")
    return Unconfirmed(before + place + 1, line, Answer(words[place].decode()))


def explain(line: str, answer: Answer, limits: Limits) -> str:
    """Why the checker gives this answer to a line under these limits."""
    try:
        verdict = parse(line)
    except ValueError:
        return "it is no verdict line"
    if answer is Answer.OVER:
        return _exceeded_limit(verdict, limits)
    return _wrong_part(verdict, limits) if answer is Answer.BAD else "its claim holds"


def _exceeded_limit(verdict: Verdict, limits: Limits) -> str:
    named: list[tuple[str, str, int]] = []
    if isinstance(verdict, Halt):
        named = [("steps", "steps", verdict.steps)]
    elif isinstance(verdict, (Cycler, Translated)):
        named = [("steps", "steps", max(verdict.first, verdict.second))]
    elif isinstance(verdict, Backward):
        named = [("depth", "levels", verdict.levels), ("nodes", "nodes", verdict.nodes)]
    for limit, unit, number in named:
        most = getattr(limits, limit)
        if number > most:
            return "it names {:,} {}, but the limit is {:,}".format(number, unit, most)
    return "its run needs more cells than the limit of {:,}".format(limits.cells)


def _wrong_part(verdict: Verdict, limits: Limits) -> str:
    if isinstance(verdict, Halt):
        bounds = Limits(verdict.steps, limits.cells, 0, 0)
        (found,) = decide([verdict.machine], bounds, Plan(False, False, False))
        if isinstance(found, Halt):
            return "it halts after {:,} steps with {:,} cells that aren't 0".format(found.steps, found.score)
        return "it doesn't halt within {:,} steps".format(verdict.steps)
    if isinstance(verdict, (Cycler, Translated)) and verdict.first >= verdict.second:
        return "its first step isn't before its second"
    if isinstance(verdict, Cycler):
        return "the configurations at its two steps aren't the same"
    if isinstance(verdict, Translated):
        extent = "" if verdict.extent is None else ", or shift and length are others"
        return "its two steps make no records of its side that agree" + extent
    return "the tree doesn't end in so many levels and nodes, or the start fits one of them"


def answers_of(claims: Sequence[Verdict], limits: Limits, threads: int) -> list[Answer]:
    return _replies_to(claims, check, limits, threads)


def recurrences_of(claims: Sequence[Verdict], limits: Limits, threads: int) -> list[RecurrenceReply]:
    return _replies_to(claims, recurrences, limits, threads)


def _replies_to(
    claims: Sequence[Verdict], call: Callable[..., Iterator[Found]], limits: Limits, threads: int
) -> list[Found]:
    """The reply to each claim. Claims that need more than a few cells are checked twice."""
    depth = min(limits.depth, FEW_CELLS // 2)
    few = Limits(limits.steps, min(limits.cells, FEW_CELLS), depth, limits.nodes)
    replies = list(call(claims, few, threads=threads))
    over = [place for place, reply in enumerate(replies) if reply is Answer.OVER and few != limits]
    for place, reply in zip(over, call([claims[place] for place in over], limits, threads=threads)):
        replies[place] = reply
    return replies
