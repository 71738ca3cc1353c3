"""Reads a line of a list: its one machine and the text around it, or why there is none.

A line's machine is its one machine text. Words with only spaces between them are one text; two texts are one
machine only if they are the same. The page's `line-reader.mjs` is alike.
"""

from __future__ import annotations

import re
import string
from typing import Iterator, NamedTuple, Sequence, Union

from .._text import LONGEST_LINE, code_point, is_hidden, quote
from ..verdicts import Verdict, is_machine, parse
from .machines import ENTRY, Found, Outcome, Word, parse_groups, parse_word
from .readings import Form, Reading, Reason, Rewriting, Skipped

# The spaces: those of JavaScript's \s.
SPACES = "\t\n\v\f\r \u00a0\u1680\u2028\u2029\u202f\u205f\u3000\ufeff"
SPACES += "".join(map(chr, range(0x2000, 0x200B)))
_QUOTES = "`\"'\u2018\u2019\u201a\u201c\u201d\u201e\u00ab\u00bb"
# The characters that end an address; and those that end a word, too.
_ENDS = re.escape(SPACES + ",;|()[]{}<>*" + _QUOTES)
_WORD = re.compile("[^%s:=#~/?!&]+" % _ENDS)
_TOKEN = re.compile(
    r"(?P<address>(?:[A-Za-z][A-Za-z0-9+.-]*://|[A-Za-z][A-Za-z0-9-]*(?:\.[A-Za-z0-9-]+)+/)(?:(?!~~)[^%s])*)|%s"
    % (_ENDS, _WORD.pattern)
)
_ENTRIES = re.compile(r"(?:%s|_)*(?:%s)_*" % (ENTRY.pattern, ENTRY.pattern))
# Fragments of machines that occur in nothing else.
_FRAGMENTS = re.compile(
    r"[0-9][LR](?:[A-Z_.-]|$)|[0-9][lr][a-z](?=[0-9_])|(?<=[a-z_])[0-9][lr][a-z]|^[0-9][lr][_-]|---_|_---"
)
# A word that looks like an entry.
_ORDINAL = "3rd"
_ROW = re.compile(r"[-.]+")
# The number of a list item right before an entry.
_NUMBER = re.compile(r"[0-9]+\.(?=[0-9-])")
# Groups as arrays of quoted entries, as JSON and Python write them.
_QUOTED = re.compile(r"""["'](?:%s)["']""" % ENTRY.pattern)
_ARRAY = r"\[[{0}]*%s(?:[{0}]*,[{0}]*%s)*[{0}]*\]".format(re.escape(SPACES))
_GROUP = re.compile(_ARRAY % (_QUOTED.pattern, _QUOTED.pattern))
_ARRAYS = re.compile(_ARRAY % (_GROUP.pattern, _GROUP.pattern))
# The characters between the words of a text.
_TOGETHER = " \u00a0"
# The name of a state before a group: a capital letter, q and a digit, or a small letter before small letters or a sign.
_STATE = re.compile(
    "(?:^|[^A-Za-z0-9'\u2019-])(?:[QqSs]_?)?([A-Ya-y]|(?<=[QqSs])[0-9]|(?<=[QqSs]_)[0-9])([^A-Za-z0-9]*)\\Z"
)
_SIGNS = frozenset(":=|>\u2192")
_PAIRS = "`` \"\" '' () [] {} <> ** ~~ \u201c\u201d \u2018\u2019 \u00ab\u00bb".split()
# The characters of machines, in any spelling.
OF_MACHINES = frozenset(string.ascii_letters + string.digits + "_-.\\" + SPACES)
_COMMENT = ("#", "//")
_EMPTY = re.compile("")
_FENCE = re.compile(r"(?:`{3,}|~{3,})[A-Za-z0-9_+#.{}= -]*")
# Lines between the rows of a table: `|-`, `|---|---|`, `---|---`, `+---+`, and `{|`, `|}` about it.
_RULE = re.compile(
    r"[|+](?:[-|+:=]|[{0}])*|:?-(?:[-:]|[{0}])*\|(?:[-|:]|[{0}])*|\|\}}|\{{\|.*".format(re.escape(SPACES))
)
_NO_MACHINE = "no machine in this line"
_CELLS = re.compile(r"[|\t,;]|!!")
_LONGEST_NAME = 40
# The names of a column of machines, as `plain_name` writes them.
MACHINE_NAMES = frozenset(("machine", "machines", "tm", "turingmachine", "turingmachines", "code"))


class Text(NamedTuple):
    """Words with only spaces between them, or arrays; `groups` are those of entries that are words, by the
    rewriting `kind`. `begin` and `end` are its place in the line, with an address around it. `row` is a row of
    dashes beside it that may be a group of it."""

    words: Sequence[Word]
    groups: Sequence[Sequence[Word]]
    kind: Rewriting | None
    begin: int
    end: int
    row: Word | None = None

    @property
    def written(self) -> str:
        return " ".join(word.text for word in self.words)

    @property
    def is_set_apart(self) -> bool:
        """Whether nothing beside it may be a part of it."""
        return self.kind is Rewriting.ARRAYS or self.words[0].address is not None or "_" in self.written


# A text of the line, and its machine or reason.
Read = tuple[Text, Outcome]
Line = Union[Reading, Skipped]


def read_line(number: int, line: str, form: Form = Form.TEXT, is_found: bool = False) -> Line:
    """The reading of a line without its newline, in any form but a table's, or why it is skipped. A line of
    another form than that of the first lines, which `is_found`, is read as a text."""
    line = line.lstrip("\ufeff").rstrip("\r")
    bare = line.strip(SPACES)
    if len(line) > LONGEST_LINE:
        reason = Reason("long", f"the line has more than {LONGEST_LINE:,} characters", LONGEST_LINE + 1)
        return Reading(number, line, None, reason=reason)
    # A verdict line in a text is read faster so.
    is_plain = form is Form.TEXT and bare.count(" ") > 1 and "\t" not in bare
    verdict = verdict_in(bare) if form is Form.VERDICTS or is_plain else None
    if verdict is not None and verdict.machine is not None and (not is_plain or "_" in verdict.machine):
        return Reading(number, line, verdict.machine, behind=bare[len(verdict.machine) + 1 :])
    if is_machine(bare) and (form is Form.MACHINES or form is Form.TEXT and bare.strip("-")):
        return Reading(number, line, bare)
    form = Form.TEXT if is_found and verdict is None else form
    plain, places = _unescape(line)
    read = _read_texts(plain)
    if isinstance(read, Skipped):
        return read
    if form is Form.VERDICTS:
        text = ("none", _NO_MACHINE) if verdict is not None else ("verdict", "this is no verdict line")
        return Reading(number, line, None, reason=Reason(*text, len(line) - len(line.lstrip(SPACES)) + 1))
    if isinstance(read, Reason):
        return Reading(number, line, None, reason=Reason(read.kind, read.text, places[read.place - 1] + 1))
    return _reading_of(number, line, form, read, [places[place] for place in _span(plain, read)])


def _reading_of(number: int, line: str, form: Form, read: list[Read], span: list[int]) -> Reading:
    start, end = span
    before = re.sub("[,;]$", "", line[:start].strip(SPACES)).rstrip(SPACES)
    behind = re.sub("^[,;]", "", line[end:].strip(SPACES)).lstrip(SPACES)
    found = read[0][1]
    assert isinstance(found, Found)
    if form is Form.MACHINES and (before or behind or not OF_MACHINES.issuperset(line)):
        reason = Reason("beside", f"the line has more than the machine {quote(found.machine)}", 1)
        return Reading(number, line, None, reason=reason)
    rewritten = found.rewritten | ({Rewriting.ESCAPES} if "\\_" in line[start:end] else set())
    kinds = tuple(kind for kind in Rewriting if kind in rewritten)
    return Reading(number, line, found.machine, kinds, before, behind)


def verdict_in(bare: str) -> Verdict | None:
    """The verdict of a verdict line, which may have fields behind a tab; None of another line."""
    try:
        return parse(bare.partition("\t")[0])
    except ValueError:
        return None


def plain_name(text: str) -> str:
    """The name of a column in small letters, without signs and spaces."""
    return re.sub("[^a-z0-9]", "", text.lower())


def _unescape(line: str) -> tuple[str, Sequence[int]]:
    r"""The line with `_` for `\_`, and the place in the line of each of its places, its end too."""
    if "\\_" not in line:
        return line, range(len(line) + 1)
    kept = [place for place, _ in enumerate(line) if line[place : place + 2] != "\\_"]
    return "".join(line[place] for place in kept), [*kept, len(line)]


def _read_texts(line: str) -> list[Read] | Reason | Skipped:
    """The texts of a line that are its one machine, or why there is none."""
    texts, rows = _tokenize(line)
    bare = line.strip(SPACES)
    if bare.startswith(_COMMENT):
        if all(len(text.written) == 3 for text in texts):
            return Skipped.COMMENT
        return Reason("comment", "a machine in a line that begins as a comment", texts[0].begin + 1)
    if not texts:
        return _no_text(line, bare, rows)
    found: list[Read] = []
    end = 0
    for text in texts:
        if not text.is_set_apart and (reason := _state_line(line, end, text)) is not None:
            return reason
        read = _read_text(text)
        if text.row is not None and not text.is_set_apart and isinstance(read[0][1], Found):
            what = f"{quote(text.row.text)} may be a rule or a group of the machine"
            return Reason("rule-or-group", what, text.row.begin + 1)
        found += read
        end = text.end
    return _single_machine(found)


def _no_text(line: str, bare: str, rows: list[Word]) -> Reason | Skipped:
    """Why a line without entries has no machine, or is skipped."""
    for pattern, kind in ((_EMPTY, Skipped.EMPTY), (_FENCE, Skipped.FENCE), (_RULE, Skipped.RULE)):
        if pattern.fullmatch(bare):
            return kind
    for row in rows:
        if len(row.text) >= 6 or row.text == bare:
            what = "dashes" if "-" in row.text else "dots"
            return Reason("rule", "a row of %s is a rule here, no machine" % what, row.begin + 1)
    cells = [cell.strip(SPACES) for cell in _CELLS.split(bare)]
    is_named = any(plain_name(cell) in MACHINE_NAMES for cell in cells)
    if bare.startswith("!") or (is_named and max(map(len, cells)) <= _LONGEST_NAME):
        return Skipped.HEADER
    place = line.index(bare) + 1
    if all(map(is_hidden, bare)):
        return Reason("hidden", "%s in this line, a character that doesn't show" % code_point(bare[0]), place)
    return Reason("none", _NO_MACHINE, place)


def _tokenize(line: str) -> tuple[list[Text], list[Word]]:
    """The texts of a line, and its rows of dashes or dots."""
    texts = list(_arrays_of(line)) if "[" in line else []
    line = _ARRAYS.sub(lambda match: "|" * len(match.group()), line) if texts else line
    # The words in runs with only spaces between them.
    runs: list[list[Word]] = []
    for match in _TOKEN.finditer(line):
        address = match.span() if match["address"] is not None else None
        for part in _WORD.finditer(line, *match.span()) if address else (match,):
            word = _trim(Word(part.start(), part.group(), address))
            if not _ROW.fullmatch(word.text) and not _has_entries(word.text):
                continue
            if not runs or line[runs[-1][-1].end : word.begin].strip(_TOGETHER):
                runs.append([])
            runs[-1].append(word)
    texts += (text for run in runs for text in _texts_of(run))
    rows = [word for run in runs for word in run if _ROW.fullmatch(word.text)]
    return sorted(texts, key=lambda text: text.words[0].begin), rows


def _arrays_of(line: str) -> Iterator[Text]:
    """The machines written as arrays of entries."""
    for match in _ARRAYS.finditer(line):
        spans = [group.span() for group in _GROUP.finditer(line, *match.span())]
        quoted = [_QUOTED.finditer(line, *span) for span in spans]
        groups = [[Word(one.start() + 1, one.group()[1:-1]) for one in entries] for entries in quoted]
        written = "_".join("".join(word.text for word in group) for group in groups)
        yield Text([Word(match.start(), written)], groups, Rewriting.ARRAYS, *match.span())


def _trim(word: Word) -> Word:
    """A word without the number of a list item before it and a full stop behind it."""
    begin, text, address = word
    number = _NUMBER.match(text)
    if number is not None and _ENTRIES.fullmatch(text[number.end() :].rstrip(".")):
        begin, text = begin + number.end(), text[number.end() :]
    is_stopped = text.endswith(".") and not text.endswith("..") and len(text) > 1
    return Word(begin, text[:-1] if is_stopped else text, address)


def _has_entries(text: str) -> bool:
    """Whether a word has entries, or fragments of them."""
    return text != _ORDINAL and bool(_ENTRIES.fullmatch(text) or _FRAGMENTS.search(text))


def _texts_of(run: list[Word]) -> Iterator[Text]:
    """The texts of a run. Rows are no part of them, unless they are entries among words of one entry each."""
    rows = [_ROW.fullmatch(word.text) is not None for word in run]
    if all(rows):
        return
    wide = [k for k in range(1, len(run)) if run[k].begin - run[k - 1].end > 1]
    if 0 < len(wide) < len(run) - 1 and all(len(word.text) == 3 for word in run):
        groups = [run[k:m] for k, m in zip([0, *wide], [*wide, len(run)])]
        yield _text(run, groups)
        return
    first, last = rows.index(False), len(rows) - rows[::-1].index(False)
    is_entry = [word.text == "---" or (len(word.text) == 3 and not row) for word, row in zip(run, rows)]
    is_whole = all(is_entry[first:last])
    starts = [k for k in range(first, last) if not rows[k] and (k == 0 or rows[k - 1])]
    for k in starts[:1] if is_whole else starts:
        m = last if is_whole else next((m for m in range(k, last) if rows[m]), last)
        beside = [run[at] for at in (k - 1, m) if 0 <= at < len(run)]
        may_be = (row for row in beside if len(row.text) == len(run[k].text))
        yield _text(run[k:m], [run[k:m]])._replace(row=next(may_be, None))


def _text(words: list[Word], groups: list[list[Word]]) -> Text:
    begin, end = (words[0].address or (words[0].begin, 0))[0], (words[-1].address or (0, words[-1].end))[1]
    is_entries = len(words) > 1 and all(len(word.text) == 3 for word in words)
    return Text(words, groups, Rewriting.ENTRIES if is_entries else None, begin, end)


def _state_line(line: str, start: int, text: Text) -> Reason | None:
    """Why a text behind the name of a state is no machine: it is the line of that state."""
    if (found := _STATE.search(line[start : text.begin])) is None:
        return None
    letter, signs = found.groups()
    if letter.islower() and text.written == text.written.upper() and _SIGNS.isdisjoint(signs):
        return None
    what = f"{letter} before {quote(text.written)}: a machine of a state a line isn't read"
    return Reason("state-line", what, start + found.start(1) + 1)


def _read_text(text: Text) -> list[Read]:
    """The machine of a text; its words by themselves if each is a machine and the text can't be one."""
    if text.kind is not None:
        return [(text, parse_groups(text.groups, text.kind))]
    if len(text.words) == 1:
        return [(text, _read_word(text.words[0]))]
    alone: list[Read] = [(_text([word], [[word]]), parse_word(word)) for word in text.words]
    if "_" in text.written:
        return alone
    is_each = all(isinstance(outcome, Found) for _, outcome in alone)
    together = parse_groups([[word] for word in text.words], Rewriting.SPACES)
    if is_each and isinstance(together, Found):
        return [(text, _several_machines(len(alone), text.words[1].begin + 1))]
    return alone if is_each else [(text, together)]


def _read_word(word: Word) -> Outcome:
    """The machine of a word. Dots at an end may be no part of it, unless the groups are set apart."""
    found, dots = parse_word(word), 0 if word.text.startswith("...") else len(word.text) - 3
    if isinstance(found, Found) and "_" not in word.text and word.text[dots : dots + 3] == "...":
        what = "... may be an undefined entry, or no part of the machine"
        return Reason("dots", what, word.begin + dots + 1)
    return found


def _several_machines(count: int, place: int) -> Reason:
    what = f"each of {count} words is a machine by itself, and they may be one together"
    return Reason("words", what, place)


def _single_machine(found: list[Read]) -> list[Read] | Reason:
    """The texts that are one machine, or why they aren't."""
    read = [(text, outcome) for text, outcome in found if isinstance(outcome, Found)]
    reasons = [(text, outcome) for text, outcome in found if isinstance(outcome, Reason)]
    if not read:
        return max(reasons, key=lambda other: len(other[0].written))[1]
    machine = read[0][1].machine
    for other, _ in reasons:
        what = f"{quote(other.written)} beside the machine {quote(machine)} may be a part of it"
        return Reason("part", what, other.words[0].begin + 1)
    for text, outcome in read:
        if outcome.machine != machine:
            what = f"two different machines: {quote(machine)} and {quote(outcome.machine)}"
            return Reason("two", what, text.words[0].begin + 1)
    plain = [text for text, _ in read if not text.is_set_apart]
    return _several_machines(len(plain), plain[1].begin + 1) if len(plain) > 1 else found


def _span(line: str, read: list[Read]) -> tuple[int, int]:
    """The machine's place in a line, with pairs of characters around it, and the address of its link."""
    start, end = read[0][0].begin, read[0][0].end
    while start > 0 and end < len(line) and line[start - 1] + line[end] in _PAIRS:
        start, end = start - 1, end + 1
    if len(read) > 1 and line[start : start + 1] == "[" and line[end : read[1][0].begin] == "(":
        end = read[1][0].end + 1 if line[read[1][0].end : read[1][0].end + 1] == ")" else end
    return start, end
