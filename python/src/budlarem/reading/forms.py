"""The form of a list, given or detected, and the readings of its lines."""

from __future__ import annotations

import collections
import itertools
from typing import Iterable, Iterator

from ..list_files import Lines, Numbered, Source
from .lines import SPACES, read_line, verdict_in
from .readings import Form, Reading, Skipped

# The lines that decide the form of a list; skipped lines don't count.
FIRST_LINES = 100


def find_form(lines: Iterable[Numbered], ahead: list[Numbered]) -> Form | None:
    """The form of the first lines, which are added to `ahead`; None if there are none."""
    alone: list[str] = []
    verdicts = 0
    for number, line in lines:
        ahead.append((number, line))
        reading = read_line(number, line, Form.MACHINES)
        if isinstance(reading, Skipped):
            continue
        if reading.machine is not None:
            alone.append(reading.machine)
        elif verdict_in(reading.line.strip(SPACES)) is not None:
            verdicts += 1
        else:
            return Form.TEXT
        if alone and verdicts:
            return Form.TEXT
        if len(alone) + verdicts == FIRST_LINES:
            break
    if verdicts or not alone:
        return Form.VERDICTS if verdicts else None
    # Rows of dashes among machines of another length are rules.
    lengths = {len(machine) for machine in alone if machine.strip("-")}
    rows = {len(machine) for machine in alone if not machine.strip("-")}
    return Form.TEXT if lengths and rows - lengths else Form.MACHINES


class Readings(Iterator[Reading]):
    """The readings of a list's lines. `skips` counts so far the skipped lines, and `non_utf8_lines` those that
    aren't UTF-8. `is_found` says whether the form was detected."""

    def __init__(self, lines: Source, form: Form | None = None) -> None:
        if form in (Form.TABLE, Form.CSV, Form.TSV):
            raise ValueError("the form %s is of claims; the machine of a line needs no columns" % form)
        self._source = Lines(lines)
        self._given, self.is_found = form, False
        self._ahead: list[Numbered] = []
        self._skips: collections.Counter[Skipped] = collections.Counter()
        self._readings = self._read()

    @property
    def form(self) -> Form:
        """The form of the list, for which its first lines are read. Raises what `read` does."""
        if self._given is None:
            found = find_form(self._source, self._ahead)
            self._given, self.is_found = found or Form.TEXT, found is not None
        return self._given

    @property
    def skips(self) -> collections.Counter[Skipped]:
        """The number of skipped lines of each kind so far."""
        return self._skips + collections.Counter({Skipped.EMPTY: self._source.empty})

    @property
    def non_utf8_lines(self) -> int:
        """The number of lines so far that aren't UTF-8."""
        return self._source.non_utf8_lines

    def __next__(self) -> Reading:
        return next(self._readings)

    def _read(self) -> Iterator[Reading]:
        form = self.form
        for number, line in itertools.chain(self._ahead, self._source):
            reading = read_line(number, line, form, self.is_found)
            if isinstance(reading, Skipped):
                self._skips[reading] += 1
            else:
                yield reading
