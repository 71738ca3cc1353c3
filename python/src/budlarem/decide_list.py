"""Decides the machines of a list, and keeps the other fields of each line."""

from __future__ import annotations

import collections
import dataclasses
from typing import Iterable, Iterator

from ._text import escape_controls
from .engine import decide
from .limits import Limits, Plan
from .reading import Form, Reading, read
from .list_files import Source
from .verdicts import Verdict, is_machine


@dataclasses.dataclass(frozen=True)
class DecidedLine:
    """A verdict, and the reading of its line. Its text is the verdict line, followed by a tab and the other
    fields of the line, if any."""

    verdict: Verdict
    reading: Reading

    @property
    def fields(self) -> str:
        """The other fields of the line; empty for a refusal."""
        return self.reading.fields

    def __str__(self) -> str:
        fields = escape_controls(self.fields)
        return "%s\t%s" % (self.verdict, fields) if fields else str(self.verdict)


def decide_lines(
    lines: Source,
    limits: Limits = Limits(),
    plan: Plan = Plan(),
    *,
    threads: int = 1,
    form: Form | None = None,
) -> Iterator[DecidedLine]:
    """Decides the machine of each line, as `read` finds it, and keeps the other fields. A line without a machine
    gets `Refused`, with the column at which `bb` refuses it.

    Takes what `read` takes. Raises what `read` and `decide` do.

    >>> [str(line) for line in decide_lines(["1RB1LB_1LA1RZ, the champion", "1RA1RA", "x"])]
    ['1RB1LB_1LA1RZ halt 6 4\\tthe champion', '1RA1RA translated R 1 2 1 1', 'refused 1']
    """
    return decide_readings(read(lines, form), limits, plan, threads=threads)


def decide_readings(
    readings: Iterable[Reading], limits: Limits = Limits(), plan: Plan = Plan(), *, threads: int = 1
) -> Iterator[DecidedLine]:
    waiting: collections.deque[Reading] = collections.deque()

    def machines() -> Iterator[str]:
        for reading in readings:
            waiting.append(reading)
            # A machine that the list's form doesn't allow there is refused by a space before it.
            is_refused = reading.machine is None and is_machine(reading.line)
            yield " " + reading.line if is_refused else reading.machine or reading.line

    verdicts = decide(machines(), limits, plan, threads=threads)
    return (DecidedLine(verdict, waiting.popleft()) for verdict in verdicts)
