"""Judges the starts and periods that others give, by the exact ones.

The laws in `crates/laws_of_recurrence` say what follows. A run repeats from a step on with a period exactly if the
step is at least the exact start, and the period a multiple of the exact one. If the head is at the same position a
period later, the configuration comes again. Otherwise the first record of the head's side, a period after the step
or later, agrees with the step one period later; it comes before the head is beyond all positions visited by then.
"""

from __future__ import annotations

import dataclasses
import itertools
from typing import Iterable, Sequence, Union

from ._text import Words
from .claims import Claim
from .engine import Configuration, decide, trace
from .limits import Limits, Plan
from .normal_forms import forms_of
from .verdicts import Answer, Cycler, Recurrence, RecurrenceReply, Translated, Verdict
from .verification import FEW_CELLS, recurrences_of

# The most claims that are looked at together, and the most rows of a trace in a search.
_TOGETHER, _ROWS = 4_096, 64


class Exactness(Words):
    """`EXACT`: the numbers are the exact ones. `TRUE`: the run repeats so, but it begins earlier or has a smaller
    period. `FALSE`: it doesn't repeat so."""

    EXACT = "exact"
    TRUE = "true"
    FALSE = "false"


@dataclasses.dataclass(frozen=True)
class Finding:
    """Whether the numbers of a claim hold (None if unknown), the reason, and the exact ones if known."""

    exactness: Exactness | None
    reason: str
    exact: Recurrence | None = None


class _Over(Exception):
    """A run needs more steps or cells than the limits."""


class _Refuted(Exception):
    """A run doesn't repeat as claimed; the text has the reason."""


Pair = Union[Cycler, Translated]
_PAIRS = (Cycler, Translated)


@dataclasses.dataclass(frozen=True)
class NumbersJudge:
    """Judges starts and periods. `limits`: those of our verdicts; `checker`: of the pairs made from a claim;
    `offset`: how much later each start is given."""

    limits: Limits
    checker: Limits
    offset: int
    threads: int

    def findings(self, claims: Sequence[tuple[Claim, Verdict]]) -> list[Finding]:
        made = [ours if isinstance(ours, _PAIRS) else self._pair_of(claim) for claim, ours in claims]
        replies: dict[int, RecurrenceReply] = {}
        for of_ours, limits in ((True, self.limits), (False, self.checker)):
            those = ((k, pair) for k, pair in enumerate(made) if (pair is claims[k][1]) is of_ours)
            pairs = {k: pair for k, pair in those if not isinstance(pair, Finding)}
            replies.update(zip(pairs, recurrences_of([*pairs.values()], limits, self.threads)))
        return [
            pair if isinstance(pair, Finding) else self._finding(claim, pair, replies[place])
            for place, (pair, (claim, _)) in enumerate(zip(made, claims))
        ]

    def _finding(self, claim: Claim, pair: Pair, reply: RecurrenceReply) -> Finding:
        words = self._words(claim)
        if not isinstance(reply, Recurrence):
            if reply is not Answer.BAD:
                return Finding(None, words + ": over the checker's limits")
            refuted = str(pair).partition(" ")[2]
            return Finding(Exactness.FALSE, "%s: false; the checker refutes %s" % (words, refuted))
        start = reply.start if claim.start is None else claim.start - self.offset
        period = reply.period if claim.period is None else claim.period
        if (start, period) == (reply.start, reply.period):
            return Finding(Exactness.EXACT, words + ": exact", reply)
        holds = start >= reply.start and period > 0 and period % reply.period == 0
        kind = Exactness.TRUE if holds else Exactness.FALSE
        right = "start %d, period %d, shift %d" % (reply.start, reply.period, reply.shift)
        return Finding(kind, "%s: %s; the exact ones are %s" % (words, kind, right), reply)

    def _words(self, claim: Claim) -> str:
        numbers = (("start", claim.start), ("period", claim.period))
        words = ", ".join("%s %d" % (name, number) for name, number in numbers if number is not None)
        has_offset = self.offset and claim.start is not None
        return words + " with an offset of %d" % self.offset if has_offset else words

    def _pair_of(self, claim: Claim) -> Pair | Finding:
        """The pair that holds if the claim does, where our verdict is none."""
        machine, words = claim.reading.machine, self._words(claim)
        if machine is None or claim.start is None or claim.period is None:
            return Finding(None, words + ": no pair of steps, and ours has none")
        start, period = claim.start - self.offset, claim.period
        if start < 0 or period == 0:
            return Finding(Exactness.FALSE, words + ": false; no run repeats so")
        try:
            return _claimed_pair(machine, start, period, self.checker)
        except _Over:
            return Finding(None, words + ": over the checker's limits")
        except _Refuted as error:
            return Finding(Exactness.FALSE, "%s: false; %s" % (words, error))


def _claimed_pair(machine: str, start: int, period: int, limits: Limits) -> Pair:
    """The pair that is true if the machine repeats from `start` on with this period. Raises _Over, _Refuted."""
    last = start + period
    first, second = _rows(machine, start, last, period, limits)
    shift = second.position - first.position
    if shift == 0:
        return Cycler(machine, start, last)
    side, out = ("R", 1) if shift > 0 else ("L", -1)
    before = _rows(machine, last - 1, last, 1, limits)[0]
    beyond = _extent(before, out) - out * second.position
    until = last + period * (beyond // abs(shift) + 1)
    record = _first_record(machine, last - 1, until, out, limits)
    if record + period > limits.steps:
        raise _Over
    return Translated(machine, side, record, record + period)


def _extent(row: Configuration, out: int) -> int:
    """How far out the cells visited by then go on a side."""
    return row.low + len(row.cells) - 1 if out > 0 else -row.low


def _first_record(machine: str, before: int, until: int, out: int, limits: Limits) -> int:
    """The first record of a side after the step `before`, `until` at the latest. Raises _Over, _Refuted."""
    (row,) = _rows(machine, before, before, 1, limits)
    extent = _extent(row, out)
    while until - before > 1:
        every = max((until - before) // _ROWS, 1)
        rows = _rows(machine, before, until, every, limits)
        place = next((k for k, row in enumerate(rows) if _extent(row, out) > extent), len(rows))
        until = min(before + place * every, until)
        before = before + (place - 1) * every
    if _extent(_rows(machine, until, until, 1, limits)[0], out) <= extent:
        raise _Refuted("the head doesn't move on so")
    return until


def _rows(machine: str, start: int, upto: int, every: int, limits: Limits) -> list[Configuration]:
    """The configurations from a step to another. Raises _Over, _Refuted if the machine halts before."""
    if upto > limits.steps:
        raise _Over
    for cells in (min(FEW_CELLS, limits.cells), limits.cells):
        rows = trace(machine, upto, cells, start, every)
        found = list(rows)
        if not rows.cut:
            if len(found) <= (upto - start) // every or found[-1].state == "Z":
                raise _Refuted("it halts before step %d" % upto)
            return found
    raise _Over


def find_start_offset(claims: Iterable[Claim], limits: Limits, plan: Plan, threads: int) -> int:
    """How much later each start is than the exact one: the same number for all, above 0, on two or more machines
    of different canonical forms; else 0."""
    given = (claim for claim in claims if claim.start is not None and claim.reading.machine is not None)
    offsets: set[int] = set()
    forms: set[str] = set()
    while batch := list(itertools.islice(given, _TOGETHER)):
        verdicts = decide([str(claim.reading.machine) for claim in batch], limits, plan, threads=threads)
        pairs = [pair for pair in zip(batch, verdicts) if isinstance(pair[1], (Cycler, Translated))]
        found = recurrences_of([ours for _, ours in pairs], limits, threads)
        for (claim, _), exact in zip(pairs, found):
            if not isinstance(exact, Recurrence) or claim.start is None:
                continue
            offsets.add(claim.start - exact.start)
            if len(offsets) > 1 or min(offsets) <= 0:
                return 0
            if len(forms) < 2:
                forms.update(form.text for form in forms_of([exact.machine]))
    return offsets.pop() if len(forms) > 1 else 0
