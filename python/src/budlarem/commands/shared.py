"""The options that several commands share, and what they print of a list on standard error."""

from __future__ import annotations

import argparse
import contextlib
import dataclasses
import os
import signal
import sys
import textwrap
from types import FrameType
from typing import TYPE_CHECKING, BinaryIO, Callable, Iterable, Iterator, Mapping, TypeVar

from .._text import escape_hidden, escape_message, pluralize
from ..claim_lists import Columns, ListForm
from ..claims import WORDS, Translation, read_words
from ..limits import GREATEST, Limits
from ..numbers import option_number
from ..reading import Form, Reading, Readings, Skipped
from ..runner.progress import TerminalLine, short_count

if TYPE_CHECKING:
    Subcommands = argparse._SubParsersAction[argparse.ArgumentParser]
else:
    Subcommands = argparse._SubParsersAction
Kind = TypeVar("Kind")
# The width of a help page.
WIDTH = 79
# The forms of a list, for the help of the commands that read one.
LIST_HELP = """A line's machine is its one machine text, whatever stands around it: other fields, backticks, a link,
the template {{TM|MACHINE|..}}. A line with two different machines, or with entries beside its machine, is refused.

FILE is a list in one of three forms. machines: a machine a line, and nothing else. verdicts: verdict lines. text:
anything else. The form is detected in the first hundred lines and printed on standard error. A later line of another
form is read as text. --form FORM overrides this, and refuses lines of another form.

Each rewritten or refused line is printed on standard error with file and number, as is a count of the skipped
lines. Only lines without a machine are skipped: empty lines, comments, which begin with # or //, code fences, rules
and headers of tables. Gzip is detected by its first bytes."""
# The columns of a table: the option for each, and its help.
_ROLES = {
    "machine": ("--machine", "the column of machines"),
    "verdict": ("--verdict", "the column of verdicts, or of words such as halt and nonhalt"),
    "steps": ("--steps-column", "the column of the steps of a halt"),
    "score": ("--score", "the column of the scores"),
    "start": ("--start", "the column of the first steps of recurrences"),
    "period": ("--period", "the column of their periods"),
}


def handle_signals(handle: Callable[[int, FrameType | None], object]) -> None:
    """Has a function handle SIGINT, SIGTERM and SIGHUP, except ignored ones."""
    for number in (signal.SIGINT, signal.SIGTERM, signal.SIGHUP):
        if signal.getsignal(number) is not signal.SIG_IGN:
            signal.signal(number, handle)


def end_at_signals(line_of: Callable[[str], str]) -> None:
    """Has these signals end the process at once, with the line of a description of the signal."""

    def end(number: int, frame: FrameType | None) -> None:
        what = "interrupted" if number == signal.SIGINT else "ended by " + signal.Signals(number).name
        with contextlib.suppress(OSError):
            os.write(2, line_of(what).encode("utf-8", "replace"))
        os._exit(128 + number)

    handle_signals(end)


def counts_text(counts: Mapping[Kind, int], kinds: Iterable[Kind]) -> str:
    return ", ".join("%s %s" % (short_count(counts[kind]), kind) for kind in kinds if counts[kind])


def source_of(path: str | None) -> str | BinaryIO:
    """The path of a FILE, or standard input."""
    return sys.stdin.buffer if path is None or path == "-" else path


class ListReader:
    """Reads a list by the options. Prints its form, and rewritten, refused and skipped lines."""

    def __init__(
        self, path: str | None, asked: argparse.Namespace | None, progress: TerminalLine | None = None
    ) -> None:
        self.name = "standard input" if path is None or path == "-" else escape_hidden(path)
        self.source = source_of(path)
        self.form = None if asked is None or asked.form is None else Form(asked.form)
        self.columns = Columns(**{role: getattr(asked, "column_" + role, None) for role in _ROLES})
        self._word_file: str | None = getattr(asked, "words", None)
        self.words = WORDS if self._word_file is None else read_words(self._word_file)
        self._progress = progress
        self.taken, self.rewritten, self.refused = 0, 0, 0

    def readings(self) -> Readings:
        """The reading of each line that isn't skipped. Raises OSError, ValueError."""
        return _PrintedReadings(self)

    def machines(self) -> Iterator[str]:
        return (reading.machine for reading in self.readings() if reading.machine is not None)

    def print_line(self, text: str, number: int | None = None) -> None:
        """Prints a message on the list, or on a line of it."""
        if self._progress is not None:
            self._progress.clear()
        place = "" if number is None else ":%d" % number
        print("%s%s: %s" % (self.name, place, escape_message(text)), file=sys.stderr)

    def print_form(self, form: ListForm) -> None:
        if form.is_found:
            is_given = self.form is not None or self.columns != Columns()
            self.print_line(str(form) if is_given else "%s; --form overrides it" % form)

    def print_words(self, form: ListForm, translation: Translation | None) -> None:
        """Prints the translation of a table's words, or that the file of `--words` isn't used in this form."""
        for line in translation.lines if translation is not None else ():
            self.print_line(line)
        if self._word_file is not None and form.layout is None:
            self.print_line("--words is for tables; nothing is translated in the form %s" % form.form)

    def print_skips(self, skipped: Mapping[Skipped, int], non_utf8_lines: int) -> None:
        """Prints the number of skipped lines, and of lines that aren't UTF-8."""
        counts = ", ".join("%s %d" % (kind, skipped[kind]) for kind in Skipped if skipped.get(kind))
        if counts:
            self.print_line("%s skipped: %s" % (pluralize(sum(skipped.values()), "line", "lines"), counts))
        if non_utf8_lines:
            total = pluralize(non_utf8_lines, "line", "lines")
            self.print_line("%s with bytes that are no UTF-8; iconv converts a list" % total)

    def print_rewritten(self, reading: Reading) -> None:
        if reading.rewritten:
            self.rewritten += 1
            self.print_line(str(reading), reading.number)

    def refuse(self, number: int, text: str) -> None:
        self.refused += 1
        self.print_line(text, number)

    @property
    def status(self) -> int:
        return 1 if self.refused else 0


class _PrintedReadings(Readings):
    """The readings of a list, each printed by its reader, between the form and the counts."""

    def __init__(self, reader: ListReader) -> None:
        super().__init__(reader.source, reader.form)
        self._reader = reader

    def __iter__(self) -> Iterator[Reading]:
        self._reader.print_form(ListForm(self.form, None, self.is_found))
        for reading in self._readings:
            if reading.machine is None:
                self._reader.refuse(reading.number, str(reading))
            else:
                self._reader.taken += 1
                self._reader.print_rewritten(reading)
            yield reading
        self._reader.print_skips(self.skips, self.non_utf8_lines)


def add_form(
    parser: argparse.ArgumentParser, forms: Iterable[Form] = (Form.MACHINES, Form.VERDICTS, Form.TEXT)
) -> None:
    """Adds the option for the form of a list."""
    names = [str(form) for form in forms]
    parser.add_argument("--form", choices=names, help="the list's form (default: by its first lines)")


def add_claims_form(parser: argparse.ArgumentParser) -> None:
    """Adds the options for the form of a list of claims, and the columns and words of a table."""
    add_form(parser, Form)
    for role, (name, holds) in _ROLES.items():
        help = "%s in a table, by its name or number" % holds
        parser.add_argument(name, dest="column_" + role, metavar="COLUMN", help=help)
    help = "words of a table: lines such as `halting: yes, true`, `never halting: no` and `nothing: open`"
    parser.add_argument("--words", metavar="FILE", help=help)


def add_passes(parser: argparse.ArgumentParser, help: str) -> None:
    """Adds `--pass`, the limits of a pass; it may be repeated."""
    metavar = "steps=N,cells=N,depth=N,nodes=N"
    parser.add_argument("--pass", action="append", dest="passes", metavar=metavar, help=help)


def limits_in(asked: argparse.Namespace) -> Limits:
    return Limits(asked.steps, asked.cells, asked.depth, asked.nodes)


def add_number(
    parser: argparse.ArgumentParser, name: str, help: str, default: int | None = None, metavar: str = "N"
) -> None:
    help += "" if default is None else " (default: {:,})".format(default)
    parser.add_argument(name, type=option_number, default=default, metavar=metavar, help=help)


def add_limits(parser: argparse.ArgumentParser, names: Iterable[str], are_greatest: bool = False) -> None:
    """Adds the options of limits, whose defaults are the program's or the greatest."""
    ending = " (default: the greatest)" if are_greatest else ""
    for name in names:
        help = "{:,} to {:,}".format(*Limits.RANGES[name]) + ending
        add_number(parser, "--" + name, help, None if are_greatest else getattr(Limits(), name))


def greatest_limits(asked: argparse.Namespace) -> Limits:
    """The given limits; the others are the greatest that go with the cells. Raises LimitsError."""
    named = {name: getattr(asked, name, None) for name in Limits.RANGES}
    given = {name: number for name, number in named.items() if number is not None}
    highest = dataclasses.asdict(GREATEST)
    cells = given.get("cells", highest["cells"])
    highest["depth"] = max(min(highest["depth"], (cells + 1) // 2), 0)
    return Limits(**{**highest, **given})


def add_file(parser: argparse.ArgumentParser) -> None:
    parser.add_argument("file", nargs="?", metavar="FILE", help="default: standard input")


def add_command(
    commands: Subcommands,
    name: str,
    do: Callable[[argparse.Namespace], int],
    help: str,
    text: str,
    columns: Iterable[tuple[str, str]] = (),
    separator: str = "a tab",
) -> argparse.ArgumentParser:
    """Adds a command and its help page, for a terminal of 80 characters; `columns` are of its output."""
    texts, rows = [textwrap.fill(" ".join(part.split()), WIDTH) for part in text.split("\n\n")], list(columns)
    if rows:
        width = max(len(column) for column, _ in rows) + 4
        lines = ["Columns, with %s between them:" % separator if len(rows) > 1 else "Column:"]
        for column, holds in rows:
            start = ("  %s" % column).ljust(width)
            lines.append(textwrap.fill(holds, WIDTH, initial_indent=start, subsequent_indent=" " * width))
        texts.append("\n".join(lines))
    shape, description = argparse.RawDescriptionHelpFormatter, "\n\n".join(texts)
    parser = commands.add_parser(name, help=help, description=description, formatter_class=shape)
    parser.set_defaults(do=do)
    return parser
