"""Exact recurrences by brute force: each period and each start is tried, from the definitions alone."""

from __future__ import annotations

from typing import NamedTuple, Sequence

from .machines import LETTERS, table_of
from .simulation import simulate

# The last of 25 states comes again at each step, and no line is longer than its reply.
GREATEST = "_".join("0R%s" % LETTERS[min(state + 1, 24)] + "---" * 9 for state in range(25))
_USES = [*map(str, range(24)), "*"]
GREATEST_REPLY = "%s recurs 24 1 1 %s quasihalts 24 entries" % (GREATEST, " ".join(_USES))
GREATEST_REPLY += "".join(" " + use + " -" * 9 for use in _USES)


class Step(NamedTuple):
    """A step of a run: its state and symbol, and the head's position before it."""

    state: int
    symbol: int
    head: int


class Numbers(NamedTuple):
    """The numbers of a `recurs` line: the last uses are those of the states, then those of the entries."""

    start: int
    period: int
    shift: int
    states: list[str]
    quasihalt: int | None
    entries: list[str]

    def line_of(self, machine: str, with_entries: bool) -> str:
        words = [machine, "recurs", self.start, self.period, self.shift, *self.states]
        words += [] if self.quasihalt is None else ["quasihalts", self.quasihalt]
        return " ".join(map(str, words + (["entries", *self.entries] if with_entries else [])))


def steps_of(machine: str, count: int) -> list[Step]:
    """The first steps of a machine's run, and one more unless it halts."""
    run = simulate(machine, count)
    return [Step(now.state, now.tape.get(now.head, 0), now.head) for now in run if now.state is not None]


def numbers_of(machine: str, steps: Sequence[Step], start: int, period: int) -> Numbers:
    """The numbers of a run that repeats from a start on; each part used later is used in these steps."""
    table, used, run = table_of(machine), [step[:2] for step in steps], [step.state for step in steps]
    states = [last_use(run, state, start) for state in range(len(table))]
    parts = [(state, symbol) for state, row in enumerate(table) for symbol in range(len(row))]
    last = max((int(use) for use in states if use.isdecimal()), default=None)
    shift = steps[start + period].head - steps[start].head
    entries = [last_use(used, part, start) for part in parts]
    return Numbers(start, period, shift, states, None if last is None else last + 1, entries)


def numbers_of_pair(line: str) -> Numbers:
    """The numbers of a true pair. From the pair's first step on, its distance is a period."""
    machine, *words = line.split(" ")
    first, second = map(int, words[2 if words[0] == "translated" else 1 :][:2])
    steps, distance = steps_of(machine, 2 * second), second - first
    used = [step[:2] for step in steps]
    period = next(p for p in range(1, distance + 1) if repeats(used, first, p, distance))
    start = next(s for s in range(first + 1) if repeats(used, s, period, second - s))
    return numbers_of(machine, steps, start, period)


def reply_to_pair(line: str, entries: bool = False) -> str:
    """The reply of `recurrence` to a true pair."""
    return numbers_of_pair(line).line_of(line.split(" ")[0], entries)


def repeats(used: Sequence[object], start: int, period: int, count: int) -> bool:
    """Whether so many steps from `start` on use what the step a period later uses."""
    return used[start : start + count] == used[start + period : start + period + count]


def last_use(used: Sequence[object], part: object, start: int) -> str:
    """The last step that uses a part of the table; `*` if one after the start does, `-` for none."""
    steps = [step for step, one in enumerate(used) if one == part]
    return "-" if not steps else "*" if steps[-1] >= start else str(steps[-1])
