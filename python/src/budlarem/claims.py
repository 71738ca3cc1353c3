"""The claim of a line of a list: a verdict, or the word and numbers of a record; and the translation of a
table's words."""

from __future__ import annotations

import collections
import contextlib
import dataclasses
import re
from typing import Iterable, Iterator

from ._text import LONGEST_LINE, Words, quote
from .claim_lists import Layout, ListForm, RereadableList
from .numbers import number_of, numbers_in
from .reading import Form, Reading, Skipped
from .reading.lines import SPACES, verdict_in
from .verdicts import Halt, Refused, Undecided, Verdict, verdict_of, whole_number


class Word(Words):
    """The meaning of a word for a machine."""

    HALTS = "halts"
    NEVER_HALTS = "never halts"
    DECIDED = "decided"
    UNDECIDED = "undecided"


_HALTS = "halt halts halted halting"
# Plain words first, then the names of deciders and of behaviours.
_NEVER_HALTS = """nonhalt nonhalts nonhalting neverhalts doesnothalt infinite
    loop loops looper loopers linrecurrence cycler cyclers translated translatedcycler translatedcyclers
    backward backwardreasoning haltingsegment bouncer bouncers counter counters
    far finiteautomatareduction wfar weightedfiniteautomatareduction mitmwfar
    cps ngramcps closedpositionset repwl repeatedwordlist ctl closedtapelanguage"""
_UNDECIDED = "undecided unknown unsolved holdout holdouts"
# The known words in small letters, without spaces, hyphens and low lines.
WORDS: dict[str, Word] = {
    **dict.fromkeys(_HALTS.split(), Word.HALTS),
    **dict.fromkeys(_NEVER_HALTS.split(), Word.NEVER_HALTS),
    **dict.fromkeys(_UNDECIDED.split(), Word.UNDECIDED),
    "decided": Word.DECIDED,
}
# The kinds of our verdicts, and how many numbers each may have.
_KINDS = {"halt": (2,), "cycler": (2,), "backward": (2,), "translated": (2, 4)}
# Signs that may surround a verdict beside a machine: none that denies or compares. A dash has a space at its side.
_MARKS = SPACES + ",;:|()[]`*\"'"
_DASH = re.compile("^[-\u2013\u2014](?:\\s+|$)|(?:^|(?<!\\s)\\s+)[-\u2013\u2014]$")


@dataclasses.dataclass(frozen=True)
class Claim:
    """A line and its claim: a verdict, or the `word` of a record with the numbers beside it, or neither.
    `start` and `period` are those of a recurrence, in a record that has one of them. `trouble` is the reason why
    nothing is judged; `unjudged` has the cells of numbers that mean nothing beside the word. A refusal has its
    verdict, and no machine."""

    reading: Reading
    verdict: Verdict | None = None
    word: Word | None = None
    trouble: str | None = None
    steps: int | None = None
    score: int | None = None
    unjudged: tuple[str, ...] = ()
    start: int | None = None
    period: int | None = None

    @property
    def has_recurrence(self) -> bool:
        """Whether it claims a start or a period, and nothing forbids judging them."""
        return self.trouble is None and (self.start, self.period) != (None, None)


class Claims(Iterable[Claim]):
    """The claims of a list by its form, with the translation `words` of a table; what was skipped so far."""

    def __init__(self, source: RereadableList, words: dict[str, Word], is_last: bool = False) -> None:
        self.form = source.form
        self.translation: Translation | None = None
        self._lines = source.once() if is_last else source.lines()
        self._source, self._words = source, words
        self._skips: collections.Counter[Skipped] = collections.Counter()

    @property
    def skips(self) -> collections.Counter[Skipped]:
        """The number of skipped lines of each kind so far."""
        return self._skips + collections.Counter({Skipped.EMPTY: self._source.counted.empty})

    @property
    def non_utf8_lines(self) -> int:
        """The number of lines so far that aren't UTF-8."""
        return self._source.counted.non_utf8_lines

    def __iter__(self) -> Iterator[Claim]:
        for number, line in self._lines:
            claim = claim_of(number, line, self.form, self._words)
            if isinstance(claim, Skipped):
                self._skips[claim] += 1
            else:
                yield claim


def claim_of(number: int, line: str, form: ListForm, words: dict[str, Word]) -> Claim | Skipped:
    """The claim of a line, or why it is skipped."""
    is_ours = form.layout is None and (form.is_found or form.form is not Form.MACHINES)
    if is_ours and len(line) <= LONGEST_LINE:
        claim = _of_verdict_line(number, line)
        is_rule = form.form is Form.TEXT and not line.partition(" ")[0].strip("-")
        if claim is not None and not is_rule:
            return claim
    reading = form.read(number, line)
    if isinstance(reading, Skipped) or reading.machine is None:
        return reading if isinstance(reading, Skipped) else Claim(reading)
    if form.layout is not None:
        return _of_row(reading, form.layout, words)
    if form.form is Form.MACHINES and not reading.fields:
        return Claim(reading, trouble="a list of machines claims nothing")
    return _of_text(reading)


def _of_verdict_line(number: int, line: str) -> Claim | None:
    """The claim of a verdict line, which may have fields behind a tab; None for another line."""
    bare, _, fields = line.rstrip("\r").partition("\t")
    verdict = verdict_in(bare)
    if verdict is None or isinstance(verdict, Refused):
        return None if verdict is None else Claim(Reading(number, line, None), verdict)
    text = bare[len(verdict.machine) + 1 :]
    reading = Reading(number, line, verdict.machine, (), "", text + ("\t" + fields if fields else ""))
    own = Word.HALTS if isinstance(verdict, Halt) else Word.NEVER_HALTS
    own = Word.UNDECIDED if isinstance(verdict, Undecided) else own
    for field in fields.split("\t") if fields else ():
        if WORDS.get(plain_word(field), Word.DECIDED) not in (Word.DECIDED, own):
            return Claim(reading, trouble=_two_statements(text, field))
    return Claim(reading, verdict)


def _two_statements(first: str, second: str) -> str:
    return "the line says two things: %s, and %s" % (quote(first), quote(second))


def _of_text(reading: Reading) -> Claim:
    """The claim of a line of a text: the rest of the line, if that is one verdict."""
    assert reading.machine is not None
    rest = [_DASH.sub("", part.strip(_MARKS)).strip(_MARKS) for part in (reading.before, reading.behind)]
    rest = list(filter(None, rest))
    if not rest:
        return Claim(reading, trouble="nothing is said of the machine")
    with contextlib.suppress(ValueError):
        if len(rest) == 1:
            return Claim(reading, _verdict_in(reading.machine, rest[0]))
    return Claim(reading, trouble="the rest of the line is no verdict of ours: %s" % quote(" ".join(rest)))


def _verdict_in(machine: str, text: str) -> Verdict:
    """The verdict of a text, whose numbers may have groups of three digits. Raises ValueError."""
    text = text[:-1] if text.endswith(".") else text
    kind, *words = text.split(" ")
    words = [word for word in words if word]
    if kind not in _KINDS:
        return verdict_of(machine, " ".join([kind, *words]), whole_number)
    side, numbers = (words[:1], words[1:]) if kind == "translated" else ([], words)
    if len(numbers) not in _KINDS[kind] or not all(word.isdigit() for word in numbers):
        numbers = list(map(str, numbers_in(numbers, _KINDS[kind])))
    return verdict_of(machine, " ".join([kind, *side, *numbers]), whole_number)


def _of_row(reading: Reading, layout: Layout, words: dict[str, Word]) -> Claim:
    assert reading.row is not None
    if reading.fields:
        beside = " and ".join(quote(part) for part in (reading.before, reading.behind) if part)
        return Claim(reading, trouble="the cell of the machine has more: %s" % beside)
    cells = {role: reading.row[place] for role, place in layout.columns.items()}
    texts = {role: cells[role] for role in ("start", "period") if cells.get(role)}
    claim = _of_verdict_cell(reading, cells, words)
    if not texts or (cells.get("verdict") and claim.trouble is not None):
        return claim
    if claim.word in (Word.HALTS, Word.UNDECIDED) or isinstance(claim.verdict, (Halt, Undecided)):
        said = " ".join("%s %s" % pair for pair in texts.items())
        return Claim(reading, trouble=_two_statements(cells["verdict"], said))
    word = Word.NEVER_HALTS if claim.verdict is None else None
    try:
        numbers = {role: number_of(text) for role, text in texts.items()}
        return dataclasses.replace(claim, word=word, trouble=None, **numbers)
    except ValueError as error:
        return Claim(reading, trouble=str(error))


def _of_verdict_cell(reading: Reading, cells: dict[str, str], words: dict[str, Word]) -> Claim:
    """The claim of a record by its verdict, and the steps and score of a halt."""
    assert reading.machine is not None
    if not (cell := cells.get("verdict", "")):
        return Claim(reading, trouble="no word says whether it halts")
    word, verdict = words.get(plain_word(cell)), None
    if word is None:
        with contextlib.suppress(ValueError):
            verdict = _verdict_in(reading.machine, cell)
    if verdict is not None and not isinstance(verdict, Halt):
        return Claim(reading, verdict)
    numbers = tuple(cells[role] for role in ("steps", "score") if cells.get(role))
    if word is Word.NEVER_HALTS:
        return Claim(reading, word=word, unjudged=numbers)
    if verdict is None and word is not Word.HALTS:
        trouble = None if word is not None else "%s says neither" % quote(cell)
        return Claim(reading, word=word, trouble=trouble)
    try:
        steps, score = (number_of(cells[role]) if cells.get(role) else None for role in ("steps", "score"))
        return _of_halt(reading, verdict, steps, score)
    except ValueError as error:
        return Claim(reading, trouble=str(error))


def _of_halt(reading: Reading, halt: Halt | None, steps: int | None, score: int | None) -> Claim:
    """The claim of a record with numbers beside a word for halting, or beside a halt. Raises ValueError."""
    assert reading.machine is not None
    if halt is None and steps is not None and score is not None:
        return Claim(reading, verdict_of(reading.machine, "halt %d %d" % (steps, score), whole_number))
    if halt is None:
        return Claim(reading, word=Word.HALTS, steps=steps, score=score)
    for number, own in ((steps, halt.steps), (score, halt.score)):
        if number not in (None, own):
            return Claim(reading, trouble=_two_statements(str(halt).partition(" ")[2], str(number)))
    return Claim(reading, halt)


def plain_word(text: str) -> str:
    """A word in small letters, without hyphens and spaces inside, and without marks at its end."""
    return re.sub(r"(?<=\w)[\s_-]+(?=\w)", "", text.lower().strip()).rstrip(".!")


# The names of the meanings in a file of words.
MEANINGS = {"halting": Word.HALTS, "never halting": Word.NEVER_HALTS, "nothing": Word.UNDECIDED}
# The most words printed of a meaning, and the most different words counted.
_MOST_PRINTED, _MOST_COUNTED = 20, 100_000
# The most characters of a file of words.
_MOST_READ = 1_000_000


def read_words(path: str) -> dict[str, Word]:
    """The known words, with those of a file in place of the package's. Each line of the file is `halting`,
    `never halting` or `nothing`, a colon, and words with commas between them. Raises OSError, ValueError."""
    words = dict(WORDS)
    given: dict[str, str] = {}
    with open(path, encoding="utf-8") as file:
        text = file.read(_MOST_READ + 1)
    if len(text) > _MOST_READ:
        raise ValueError(f"{path} has more than {_MOST_READ:,} characters, and is no file of words")
    for number, line in enumerate(text.split("\n"), 1):
        if not line.strip() or line.startswith("#"):
            continue
        name, colon, texts = line.partition(":")
        meaning = name.strip().lower()
        if not colon or meaning not in MEANINGS:
            names = ", ".join(MEANINGS)
            raise ValueError("%s:%d: a line begins with one of %s, and a colon" % (path, number, names))
        for text in texts.split(","):
            word = plain_word(text)
            if given.setdefault(word, meaning) != meaning:
                raise ValueError("%s:%d: %s has two meanings" % (path, number, quote(text.strip())))
            if word:
                words[word] = MEANINGS[meaning]
    return words


@dataclasses.dataclass(frozen=True)
class Translation:
    """The count of each word of a column, by its meaning."""

    counts: dict[str, collections.Counter[str]]

    @property
    def lines(self) -> list[str]:
        """A line for each meaning, the most frequent words first."""
        lines = []
        for name, counts in self.counts.items():
            parts = ["%s %d" % (quote(word), count) for word, count in counts.most_common(_MOST_PRINTED)]
            if len(counts) > len(parts):
                parts.append("and %d more words" % (len(counts) - len(parts)))
            lines.append("%s: %s" % (name, ", ".join(parts) or "no word"))
        return lines


def translation_of(claims: Iterable[Claim], layout: Layout, words: dict[str, Word]) -> Translation:
    """The translation of the words in a table's column of verdicts. Whole verdicts in it are no words."""
    column = layout.columns["verdict"]
    counts: dict[str, collections.Counter[str]] = {name: collections.Counter() for name in MEANINGS}
    for claim in claims:
        row = claim.reading.row
        if row is None or claim.reading.machine is None or claim.reading.fields or not row[column]:
            continue
        word = words.get(plain_word(row[column]))
        if word is not None or claim.verdict is None:
            meaning = next((name for name in MEANINGS if MEANINGS[name] is word), "nothing")
            if row[column] in counts[meaning] or len(counts[meaning]) < _MOST_COUNTED:
                counts[meaning][row[column]] += 1
    return Translation(counts)
