"""Progress on standard error: a line on a terminal, and one line a minute of a run elsewhere."""

from __future__ import annotations

import os
import shutil
import sys
import time
from typing import Callable, TextIO

from .._text import escape_message

# Seconds between two lines, on a terminal and elsewhere.
_OFTEN, _SELDOM = 0.5, 60.0
# A pass of more seconds than this is announced, once there are so many chunks or seconds to estimate from.
_LONG, _CHUNKS, _ENOUGH = 3_600.0, 16, 5.0


def duration(seconds: float) -> str:
    """A time in one unit.

    >>> duration(5), duration(600), duration(8000), duration(3e5)
    ('5 s', '10 min', '2.2 h', '3.5 days')
    """
    if seconds < 120:
        return "%.0f s" % seconds
    if seconds < 7_200:
        return "%.0f min" % (seconds / 60)
    return "%.1f h" % (seconds / 3_600) if seconds < 48 * 3_600 else "%.1f days" % (seconds / 86_400)


def short_count(number: float) -> str:
    """A count in few characters.

    >>> short_count(9_999), short_count(858_909), short_count(88_664_064)
    ('9999', '858k', '88M')
    """
    if number < 10_000:
        return "%d" % number
    return "%dk" % (number // 1_000) if number < 10_000_000 else "%dM" % (number // 1_000_000)


class TerminalLine:
    """A line of text on standard error, or another stream, that is written over, if that is a terminal. `is_beside`:
    the command writes its output meanwhile, so nothing is shown if that goes to a terminal too."""

    def __init__(self, is_beside: bool = True, stream: TextIO | None = None) -> None:
        self._stream = sys.stderr if stream is None else stream
        self.is_shown = self._stream.isatty() and not (is_beside and sys.stdout.isatty())
        self._width, self._next = 0, time.monotonic() + _OFTEN

    def show(self, text: Callable[[], str]) -> None:
        """Shows the first characters of a text, if the last one was shown long enough ago."""
        if self.is_shown and time.monotonic() >= self._next:
            line = text()[: shutil.get_terminal_size().columns - 1]
            self.write("\r" + line.ljust(self._width))
            self._width, self._next = len(line), time.monotonic() + _OFTEN

    def tick(self, status: str = "") -> None:
        """Shows the progress, with a status of its work, if that is due."""

    def print_line(self, text: str) -> None:
        """Prints a message on a line of its own, its invisible characters escaped."""
        self.write(self.erase_sequence() + "budlarem: %s\n" % escape_message(text))
        self._width = 0

    def erase_sequence(self) -> str:
        """The characters that erase the line."""
        return "\r%s\r" % (" " * self._width) if self._width else ""

    def clear(self) -> None:
        """Erases the line."""
        self.write(self.erase_sequence())
        self._width = 0

    def write(self, text: str) -> None:
        """Writes text; after an error nothing more is written."""
        try:
            self._stream.write(text)
            self._stream.flush()
        except OSError:
            self._stream, self.is_shown, self._width = open(os.devnull, "w"), False, 0

    def __enter__(self) -> TerminalLine:
        return self

    def __exit__(self, *error: object) -> None:
        self.clear()


class Progress(TerminalLine):
    """The progress of a run: a line on a terminal, elsewhere one a minute."""

    def __init__(self, stream: TextIO | None = None) -> None:
        super().__init__(False, stream)
        self._pass, self._passes = 0, 0
        self._total: Callable[[], float | None] = lambda: None
        self._reset()

    def _reset(self) -> None:
        self._started, self._is_announced = time.monotonic(), False
        self._resumed, self._decided, self._chunks = 0, 0, 0
        self._due = self._started + _SELDOM

    def start(self, number: int, passes: int, total: Callable[[], float | None]) -> None:
        """Starts a pass. `total` estimates the total number of lines, or returns None."""
        self._reset()
        self._pass, self._passes, self._total = number, passes, total

    def add_resumed(self, lines: int) -> None:
        self._resumed += lines
        if not self._decided:
            self._started = time.monotonic()

    def add_decided(self, lines: int) -> None:
        """Counts a chunk that was decided or checked."""
        self._decided += lines
        self._chunks += 1

    def remaining_seconds(self) -> float | None:
        """The seconds to the end of the pass at the present pace; None if unknown."""
        total = self._total()
        if total is None or not self._decided:
            return None
        left = max(total - self._resumed - self._decided, 0)
        return left * (time.monotonic() - self._started) / self._decided

    def text(self) -> str:
        self._announce_long()
        seconds = max(time.monotonic() - self._started, 1e-3)
        done = self._resumed + self._decided
        parts = ["pass %d of %d" % (self._pass, self._passes), "%d chunks" % self._chunks]
        total, remaining = self._total(), self.remaining_seconds()
        parts.append("%s lines" % short_count(done))
        if total:
            parts.append("%d%%" % min(100 * done / total, 100))
        parts.append("%s lines/s" % short_count(self._decided / seconds))
        if remaining is not None:
            parts.append("%s left" % duration(remaining))
        return ", ".join(parts)

    def tick(self, status: str = "") -> None:
        """Shows the line when due, and announces once that a pass takes long."""

        def line() -> str:
            return ", ".join(filter(None, [self.text(), status]))

        self.show(line)
        if not self.is_shown and time.monotonic() >= self._due:
            self._due = time.monotonic() + _SELDOM
            self.print_line(line())

    def _announce_long(self) -> None:
        remaining = self.remaining_seconds()
        is_old = time.monotonic() - self._started > _ENOUGH
        is_known = self._chunks >= _CHUNKS or (self._chunks and is_old)
        if remaining is not None and remaining >= _LONG and is_known and not self._is_announced:
            self._is_announced = True
            parts = (self._pass, duration(remaining), short_count(self._decided))
            self.print_line("pass %d takes about %s, by the pace of its first %s lines" % parts)
