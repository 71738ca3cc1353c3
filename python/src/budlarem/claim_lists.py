"""Lists of claims: their form, tables with a machine in one column and what is said of it in others, and their lines
to be read more than once."""

from __future__ import annotations

import contextlib
import csv
import dataclasses
import itertools
import os
import re
import stat
import tempfile
import weakref
from typing import IO, Any, Iterable, Iterator, NamedTuple, Sequence

from ._text import pluralize, quote
from .list_files import Lines, Numbered, Source
from .verdicts import is_machine
from .reading.forms import FIRST_LINES, find_form
from .reading.lines import MACHINE_NAMES, SPACES, Line, plain_name, read_line
from .reading.readings import Form, Reading, Reason, Skipped

# The separators of cells; a space only where nothing else separates.
_SEPARATORS = ("\t", ",", ";", "|", " ", "")
_OF_FORMS = {Form.CSV: (",",), Form.TSV: ("\t",)}
_SEPARATOR_NAMES = {"\t": "tab", ",": "comma", ";": "semicolon", "|": "|", " ": "space", "": "none"}
_NAMES: dict[str, frozenset[str]] = {
    "machine": MACHINE_NAMES,
    "verdict": frozenset("verdict verdicts status result decision halts".split()),
    "steps": frozenset("steps step stepcount numberofsteps".split()),
    "score": frozenset("score ones sigma".split()),
    "start": frozenset("start preperiod".split()),
    "period": frozenset({"period"}),
}
# The records of Coq-BB5 and the like, which have no header: a machine, a word, and maybe the name of a decider.
_PLAIN = re.compile(r"([^,]+),(?:halt|nonhalt|undecided)(?:,[A-Za-z_][^,]*)?")


@dataclasses.dataclass(frozen=True)
class Columns:
    """The columns of a table, each by its name or its number from 1 on; None is looked up in the header."""

    machine: str | None = None
    verdict: str | None = None
    steps: str | None = None
    score: str | None = None
    start: str | None = None
    period: str | None = None


@dataclasses.dataclass(frozen=True)
class Layout:
    """The layout of a table: its separator, the cells of a record, the names of the columns, none without a
    header, and the index of each known column by its role. `doubts` has a sentence for each role that several
    columns may have."""

    separator: str
    width: int
    names: tuple[str, ...]
    columns: dict[str, int]
    header: int | None = None
    doubts: tuple[str, ...] = ()

    def __str__(self) -> str:
        parts = ["separator %s" % _SEPARATOR_NAMES[self.separator]]
        for role, place in self.columns.items():
            name = " (%s)" % quote(self.names[place]) if self.names else ""
            parts.append("%s in column %d%s" % (role, place + 1, name))
        return ", ".join(parts)


def is_table(lines: Sequence[Numbered]) -> bool:
    """Whether the first of these lines is a header without a machine that names a column of machines, or a record
    `MACHINE,halt` or `MACHINE,nonhalt,DECIDER`."""
    records = _records_of(lines)
    return _is_plain(records) or any(_fits(records, one, None) for one in _SEPARATORS)


def find_layout(lines: Sequence[Numbered], form: Form, columns: Columns) -> Layout:
    """The layout of the table with these first lines. Raises ValueError if it isn't known."""
    records, separators = _records_of(lines), _OF_FORMS.get(form, _SEPARATORS)
    if columns == Columns() and "," in separators and _is_plain(records):
        columns, separators = Columns("1", "2"), (",",)
    if not records:
        return Layout(",", 0, (), {"machine": 0})
    fitting = [one for one in separators if _fits(records, one, columns.machine)]
    fitting = [one for one in fitting if one.strip(" ")] or fitting[:1]
    if not fitting and columns.machine is None:
        raise ValueError("no header names a column of machines: give it by --machine")
    if not fitting:
        raise ValueError("no separator gives each record a column %s with machines" % columns.machine)
    if len(fitting) > 1:
        names = " or ".join(_SEPARATOR_NAMES[one] for one in fitting)
        raise ValueError("the separator may be %s: write the cells in quotes" % names)
    return _layout_of(records[0], fitting[0], columns)


class _Record(NamedTuple):
    """A line of a table, and whether it has no entry of a machine."""

    number: int
    bare: str
    is_header: bool


def _records_of(lines: Sequence[Numbered]) -> list[_Record]:
    """The lines that aren't skipped, and headers, also behind #."""
    records: list[_Record] = []
    for number, line in lines:
        reading, bare = read_line(number, line), line.lstrip("\ufeff").strip(SPACES)
        if reading is Skipped.COMMENT and not records:
            bare = bare.lstrip("#").strip(SPACES)
            reading = read_line(number, bare)
            reading = reading if reading is Skipped.HEADER else Skipped.COMMENT
        if isinstance(reading, Reading):
            is_header = reading.reason is not None and reading.reason.kind == "none"
            records.append(_Record(number, bare, is_header))
        elif reading is Skipped.HEADER:
            records.append(_Record(number, bare, True))
    return records


def _is_plain(records: Sequence[_Record]) -> bool:
    found = _PLAIN.fullmatch(records[0].bare) if records else None
    return found is not None and is_machine(found[1])


def _fits(records: Sequence[_Record], separator: str, given: str | None) -> bool:
    """Whether a separator gives the header one column of machines, or some records machines in the given one."""
    rows = [_cells_of(record.bare, separator) for record in records]
    if not rows or not rows[0] or (len(rows[0]) == 1) != (separator == ""):
        return False
    if given is None:
        named = [name for name in rows[0] if plain_name(name) in MACHINE_NAMES]
        return records[0].is_header and len(named) == 1 and separator != " "
    with contextlib.suppress(ValueError):
        place = _place_of(given, rows[0])
        found = (_machine_in(0, row[place]) for row in rows if len(row) == len(rows[0]))
        return any(one.machine is not None and not one.fields for one in found)
    return False


def _layout_of(first: _Record, separator: str, columns: Columns) -> Layout:
    """The layout of a table by its first record. Raises ValueError if that hasn't the given columns."""
    row = _cells_of(first.bare, separator)
    found: dict[str, int] = {}
    doubts: list[str] = []
    for role, given in dataclasses.asdict(columns).items():
        names = [place for place, name in enumerate(row) if plain_name(name) in _NAMES[role]]
        if given is not None:
            found[role] = _place_of(given, row)
        elif first.is_header and len(names) == 1:
            found[role] = names[0]
        elif first.is_header and names:
            both = " and ".join(quote(row[place]) for place in names)
            doubts.append("the columns %s may each be that of the %s" % (both, role))
    if first.is_header:
        return Layout(separator, len(row), row, found, first.number, tuple(doubts))
    return Layout(separator, len(row), (), found)


def _place_of(given: str, row: Sequence[str]) -> int:
    """The index of a column with this number or name. Raises ValueError."""
    if re.fullmatch("[0-9]+", given):
        place = int(given) - 1
        if 0 <= place < len(row):
            return place
        cells = pluralize(len(row), "cell", "cells")
        raise ValueError("there is no column %s: the first record has %s" % (given, cells))
    places = [place for place, name in enumerate(row) if plain_name(name) == plain_name(given)]
    if len(places) == 1:
        return places[0]
    raise ValueError("%s columns have the name %s" % (len(places) or "no", quote(given)))


def _cells_of(bare: str, separator: str) -> tuple[str, ...]:
    """The cells of a record, without spaces at their ends; none of a text that is no record."""
    if separator in (" ", ""):
        return tuple(bare.split()) if separator else (bare,)
    if separator == "|":
        bare = bare[bare.startswith("|") : len(bare) - bare.endswith("|")]
    try:
        (row,) = csv.reader([bare], delimiter=separator, strict=True, skipinitialspace=True)
    except csv.Error:
        return ()
    return tuple(cell.strip(SPACES) for cell in row)


def _machine_in(number: int, cell: str) -> Reading:
    """The reading of a cell; `before` and `behind` are beside the machine in the cell."""
    found = Reading(number, cell, cell) if is_machine(cell) else read_line(number, cell)
    if isinstance(found, Skipped):
        return Reading(number, cell, None, reason=Reason("column", "no machine in this cell", 1))
    return found


def read_row(number: int, line: str, layout: Layout) -> Line:
    """The reading of a record, or why it is skipped."""
    whole = read_line(number, line)
    if number == layout.header or (isinstance(whole, Skipped) and whole is not Skipped.HEADER):
        return Skipped.HEADER if number == layout.header else whole
    if isinstance(whole, Reading) and whole.reason is not None and whole.reason.kind in ("long", "comment"):
        return whole
    line = line.lstrip("\ufeff").rstrip("\r")
    row = _cells_of(line.strip(SPACES.replace(layout.separator or " ", "")), layout.separator)
    if len(row) != layout.width:
        what = "no record: the quotes of a cell are wrong"
        if row:
            what = "the record has %s, not %d" % (pluralize(len(row), "cell", "cells"), layout.width)
        place = len(line) - len(line.lstrip(SPACES)) + 1
        return Reading(number, line, None, reason=Reason("row", what, place), row=row)
    cell = row[layout.columns["machine"]]
    found = _machine_in(number, cell)
    if (reason := found.reason) is not None:
        reason = dataclasses.replace(reason, place=max(line.find(cell), 0) + reason.place)
    return dataclasses.replace(found, line=line, reason=reason, row=row)


@dataclasses.dataclass(frozen=True)
class ListForm:
    """The form of a list, the layout of a table, and whether the form was detected."""

    form: Form
    layout: Layout | None = None
    is_found: bool = False

    def __str__(self) -> str:
        return "form %s" % self.form if self.layout is None else "form %s: %s" % (self.form, self.layout)

    def read(self, number: int, line: str) -> Line:
        """The reading of a line, or why it is skipped."""
        if self.layout is not None:
            return read_row(number, line, self.layout)
        return read_line(number, line, self.form, self.is_found)


def form_of(
    lines: Iterable[Numbered], ahead: list[Numbered], form: Form | None, columns: Columns
) -> ListForm:
    """The form of a list, given or by its first lines. Raises ValueError for an unknown layout of a table."""
    given = form
    if form is None and columns != Columns():
        form = Form.TABLE
    if form is None:
        form = find_form(lines, ahead)
        if form in (None, Form.TEXT):
            form = Form.TABLE if is_table(ahead) else form
        if form is None:
            return ListForm(Form.TEXT)
    if form in (Form.MACHINES, Form.VERDICTS, Form.TEXT):
        if columns != Columns():
            raise ValueError("columns are of the forms table, csv and tsv, not of %s" % form)
        return ListForm(form, None, given is None)
    ahead += itertools.islice(lines, FIRST_LINES)
    return ListForm(form, find_layout(ahead, form, columns), True)


# The bytes of a list that are held. A regular file is read again; more of another source goes to the disk.
_MOST_BUFFERED = 8_000_000


class RereadableList:
    """The non-empty lines of a list, to be read more than once. `counted` are those of the last reading."""

    def __init__(self, source: Source, form: Form | None = None, columns: Columns = Columns()) -> None:
        self._source: Any = source
        self.counted = Lines(source)
        self._ahead: list[Numbered] = []
        self._copy: IO[bytes] | None = None
        self._is_started = False
        self.form: ListForm = form_of(self.counted, self._ahead, form, columns)

    def once(self) -> Iterator[Numbered]:
        """The lines, for the last time."""
        return self.lines() if self._is_started else itertools.chain(self._ahead, self.counted)

    def lines(self) -> Iterator[Numbered]:
        """The lines, from the first on. Raises OSError."""
        self._is_started = True
        is_path = isinstance(self._source, (str, os.PathLike))
        if is_path and stat.S_ISREG(os.stat(self._source).st_mode):
            self.counted = Lines(self._source)
            yield from self.counted
            return
        if self._copy is None:
            self._copy = tempfile.SpooledTemporaryFile(_MOST_BUFFERED)
            weakref.finalize(self, self._copy.close)
            for number, line in itertools.chain(self._ahead, self.counted):
                self._copy.write(b"%d %s\n" % (number, line.encode("utf-8", "surrogatepass")))
        self._copy.seek(0)
        for record in self._copy:
            place, _, text = record[:-1].partition(b" ")
            yield int(place), text.decode("utf-8", "surrogatepass")
