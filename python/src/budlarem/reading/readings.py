"""The reading of a line: its one machine, or the reason why there is none."""

from __future__ import annotations

import dataclasses

from .._text import Words
from ..engine import column_of


class Rewriting(Words):
    """A spelling that was rewritten for `bb`, in the order of printing; `sentence` describes it."""

    sentence: str

    def __new__(cls, value: str, sentence: str) -> Rewriting:
        made = object.__new__(cls)
        made._value_, made.sentence = value, sentence
        return made

    SMALL_LETTERS = "small-letters", "small letters read as capital ones"
    HALTING_STATE = "halting-state", "H read as Z, the halting state"
    HALTING_ENTRIES = "halting-entries", "_ read as Z, the halting state"
    UNDEFINED_ENTRIES = "undefined-entries", "... read as ---, an undefined entry"
    SPACES = "spaces", "spaces between groups read as _"
    UNDERSCORES = "underscores", "_ put between the groups"
    ESCAPES = "escapes", "\\_ read as _"
    ENTRIES = "entries", "spaces between entries left out"
    ARRAYS = "arrays", "arrays of entries read as groups"


class Form(Words):
    """The form of a list.

    `TEXT`: a machine a line, whatever stands around it. `MACHINES`: a machine a line, and nothing else.
    `VERDICTS`: verdict lines. The others are of claims alone: a `TABLE` has columns, `CSV` with a comma and `TSV`
    with a tab between them.
    """

    MACHINES = "machines"
    VERDICTS = "verdicts"
    TEXT = "text"
    TABLE = "table"
    CSV = "csv"
    TSV = "tsv"


class Skipped(Words):
    """The kind of a skipped line, which has neither a machine nor a refusal."""

    EMPTY = "empty lines"
    COMMENT = "comments"
    FENCE = "code fences"
    RULE = "table rules"
    HEADER = "table headers"


# The advice for each kind of reason.
ADVICE = {
    "none": "a machine is written as 1RB1LB_1LA1RZ",
    "rule": "in the form machines a row of 6, 9, .. or 30 dashes is a machine",
    "rule-or-group": "write _ between the groups, or leave the row out",
    "entry": "an entry is a digit, L or R and a letter, or --- where it is undefined",
    "lost": "write --- for an undefined entry, or Z for a step that halts",
    "empty-group": "write one _ between two groups, none before or behind them",
    "groups": "each group has an entry for each symbol, so all have as many",
    "symbols": "a machine has 2 to 10 symbols, and a group has an entry for each",
    "states": "a machine has 1 to 25 states, and a group for each",
    "symbol": "write an entry for each symbol in each group",
    "state": "write a group for each state; the halting state is Z",
    "halting-state": "write Z for the halting state throughout",
    "division": "write _ between the groups",
    "divisions": "write _ between the groups",
    "dots": "write --- for an undefined entry, or leave the dots out",
    "words": "write one machine a line, or _ between the groups of one",
    "part": "write one machine a line, with _ between its groups",
    "two": "write one machine a line",
    "long": "write one machine a line",
    "comment": "leave # out if the machine is meant, or the machine if it is a comment",
    "state-line": "write the groups of a machine in one line, with _ between them",
    "hidden": "take out the character",
    "beside": "read the list as the form text, or write the machine alone",
    "verdict": "a verdict line is written as 1RB1LB_1LA1RZ halt 6 4",
    "row": "write a record a line, with the separator of the others",
    "column": "write a machine into the column",
}


@dataclasses.dataclass(frozen=True)
class Reason:
    """Why a line has no machine: the kind, a sentence, and the character, from 1 on, perhaps past the end."""

    kind: str
    text: str
    place: int

    def __str__(self) -> str:
        return self.text

    @property
    def advice(self) -> str:
        """A correction."""
        return ADVICE[self.kind]


@dataclasses.dataclass(frozen=True)
class Reading:
    """A line of a list, and its one machine or the reason why there is none.

    `number` is the line's, from 1 on; `line` is its text, without byte order mark and line end. `machine` is
    written as `bb` reads it. `before` and `behind` are the other texts of the line, without spaces at their ends and
    a comma or semicolon beside the machine; in a record, of the machine's cell. `row` has the cells of a record.
    """

    number: int
    line: str
    machine: str | None
    rewritten: tuple[Rewriting, ...] = ()
    before: str = ""
    behind: str = ""
    reason: Reason | None = None
    row: tuple[str, ...] | None = None

    @property
    def fields(self) -> str:
        """The other texts of the line, with a tab between them."""
        return "\t".join(part for part in (self.before, self.behind) if part)

    @property
    def column(self) -> int | None:
        """The column at which `bb` refuses the line as it stands; None if there is a machine, or `bb` reads one
        that the list's form doesn't allow there. Raises LibraryError."""
        return column_of(self.line) if self.machine is None else None

    def __str__(self) -> str:
        if self.reason is not None:
            column = self.column
            place = "character %d" % self.reason.place
            place += "" if column is None else " (for bb column %d)" % column
            return "refused: %s, at %s; %s" % (self.reason, place, self.reason.advice)
        sentences = "; ".join(rewriting.sentence for rewriting in self.rewritten)
        return "%s: %s" % (self.machine, sentences) if sentences else str(self.machine)
