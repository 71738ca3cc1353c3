"""Verdicts on machines, the answers of the checker, exact recurrences, and their lines."""

from __future__ import annotations

import dataclasses
import functools
import re
from typing import Callable, ClassVar, Iterable, Iterator, Union

from ._text import LONGEST_SHOWN, LONGEST_VALUE, Words
from .limits import whole

STATES = "ABCDEFGHIJKLMNOPQRSTUVWXY"
# The side for each side, and that of the mirror image.
SIDES = ({"L": "L", "R": "R"}, {"L": "R", "R": "L"})
MOST_SYMBOLS = 10
# The length of the longest machine.
LONGEST = len(STATES) * (3 * MOST_SYMBOLS + 1) - 1
_NUMBER = re.compile("0|[1-9][0-9]*")
_TOO_GREAT = 2**64


class Answer(Words):
    """The checker's answer to a verdict line: the first of these that applies.

    `UNREAD`: it is no verdict line. `OPEN`: it claims nothing. `OVER`: it exceeds the limits, or its run needs
    more cells. `OK`: its claim holds. `BAD`: its claim doesn't hold.
    """

    OK = "ok"
    BAD = "bad"
    OVER = "over"
    OPEN = "open"
    UNREAD = "unread"


@dataclasses.dataclass(frozen=True)
class Halt:
    """The machine halts after `steps` steps, with `score` cells that aren't 0."""

    machine: str
    steps: int
    score: int
    kind: ClassVar[str] = "halt"

    def __str__(self) -> str:
        return "%s halt %d %d" % (self.machine, self.steps, self.score)


@dataclasses.dataclass(frozen=True)
class Cycler:
    """The machine never halts: the configurations at steps `first` and `second` are the same."""

    machine: str
    first: int
    second: int
    kind: ClassVar[str] = "cycler"

    def __str__(self) -> str:
        return "%s cycler %d %d" % (self.machine, self.first, self.second)


@dataclasses.dataclass(frozen=True)
class Extent:
    """The extent of two records: the second is `shift` cells farther out, and `length` cells agree."""

    shift: int
    length: int


@dataclasses.dataclass(frozen=True)
class Translated:
    """The machine never halts: at steps `first` and `second` its head is farther out on `side` than ever before,
    with the same pattern behind it. Lines of other origin may have no extent."""

    machine: str
    side: str
    first: int
    second: int
    extent: Extent | None = None
    kind: ClassVar[str] = "translated"

    def __str__(self) -> str:
        text = "%s translated %s %d %d" % (self.machine, self.side, self.first, self.second)
        return text if self.extent is None else "%s %d %d" % (text, self.extent.shift, self.extent.length)


@dataclasses.dataclass(frozen=True)
class Backward:
    """The machine never halts: the configurations that can lead to a halt make a tree of so many levels and nodes,
    and the start fits none of them."""

    machine: str
    levels: int
    nodes: int
    kind: ClassVar[str] = "backward"

    def __str__(self) -> str:
        return "%s backward %d %d" % (self.machine, self.levels, self.nodes)


@dataclasses.dataclass(frozen=True)
class Undecided:
    """No decider found anything. `reason` is the limit that ended the run, `steps` or `cells`."""

    machine: str
    reason: str
    kind: ClassVar[str] = "undecided"

    def __str__(self) -> str:
        return "%s undecided %s" % (self.machine, self.reason)


@dataclasses.dataclass(frozen=True)
class Refused:
    """A line that is no machine. `column` is 1 plus the length, in bytes, of its longest prefix that starts a
    machine. `machine` is the input of `decide`, and None after `parse`; it isn't compared."""

    column: int
    machine: str | None = dataclasses.field(default=None, compare=False)
    kind: ClassVar[str] = "refused"

    def __str__(self) -> str:
        return "refused %d" % self.column


# The verdicts that have a machine.
MachineVerdict = Union[Halt, Cycler, Translated, Backward, Undecided]
Verdict = Union[MachineVerdict, Refused]
VERDICTS = (Halt, Cycler, Translated, Backward, Undecided, Refused)
_OfTwoNumbers = Callable[[str, int, int], Verdict]
_OF_TWO_NUMBERS: dict[str, _OfTwoNumbers] = {"halt": Halt, "cycler": Cycler, "backward": Backward}


def mirror_verdict(verdict: Verdict, is_mirrored: bool) -> Verdict:
    """The verdict on the mirror image of a machine if `is_mirrored`, else the verdict itself."""
    if not is_mirrored or not isinstance(verdict, Translated):
        return verdict
    return dataclasses.replace(verdict, side=SIDES[True][verdict.side])


def require_field_types(name: str, verdict: Verdict | Extent) -> None:
    """Raises TypeError if a field of the verdict `name` has the wrong type: its line would be another one."""
    for field in dataclasses.fields(verdict):
        given, kind = getattr(verdict, field.name), str(field.type)
        if kind == "int":
            whole("%s.%s" % (name, field.name), given)
        elif kind == "str" and not isinstance(given, str):
            parts = (name, field.name, LONGEST_VALUE, given, type(given).__name__)
            raise TypeError("%s.%s is %.*r of type %s, not str" % parts)
    if isinstance(verdict, Translated) and verdict.extent is not None:
        if not isinstance(verdict.extent, Extent):
            raise TypeError("%s.extent is of type %s, not Extent" % (name, type(verdict.extent).__name__))
        require_field_types(name + ".extent", verdict.extent)


@functools.lru_cache(maxsize=None)
def _shape(states: int, symbols: int) -> re.Pattern[str]:
    """The pattern of all machines of so many states and symbols."""
    entry = "(?:[0-%d][LR][%sZ]|---)" % (symbols - 1, STATES[:states])
    group = entry + "{%d}" % symbols
    return re.compile("%s(?:_%s){%d}" % (group, group, states - 1))


def size_of(machine: str) -> tuple[int, int]:
    """The states and symbols of a machine; any numbers for another text."""
    states = machine.count("_") + 1
    return states, ((len(machine) + 1) // states - 1) // 3


def is_machine(text: str) -> bool:
    """Whether a text is a machine of 1 to 25 states and 2 to 10 symbols. Raises TypeError.

    >>> is_machine("1RB1LB_1LA1RZ"), is_machine("1RB1LC_1LA1RZ")
    (True, False)
    """
    if not isinstance(text, str):
        raise TypeError("text is of type %s, not str" % type(text).__name__)
    states, symbols = size_of(text)
    if len(text) > LONGEST or states > len(STATES) or not 2 <= symbols <= MOST_SYMBOLS:
        return False
    return _shape(states, symbols).fullmatch(text) is not None


def whole_number(word: str) -> int:
    """The number of a word: below 2^64, without sign or leading zeros. Raises ValueError."""
    if len(word) > 20 or not _NUMBER.fullmatch(word) or int(word) >= _TOO_GREAT:
        raise ValueError
    return int(word)


def verdict_of(machine: str, words: str, number: Callable[[str], int] = int) -> Verdict:
    """The verdict on a machine with these words; `number` reads the numbers. Raises ValueError."""
    kind, *others = words.split(" ")
    if kind == "translated":
        side, first, second, *extent = others
        if side not in ("L", "R") or len(extent) not in (0, 2):
            raise ValueError
        found = Extent(number(extent[0]), number(extent[1])) if extent else None
        return Translated(machine, side, number(first), number(second), found)
    if kind in _OF_TWO_NUMBERS:
        first, second = others
        return _OF_TWO_NUMBERS[kind](machine, number(first), number(second))
    if kind != "undecided" or others not in (["steps"], ["cells"]):
        raise ValueError
    return Undecided(machine, others[0])


def parse(line: str) -> Verdict:
    """The verdict of a verdict line, without its newline; its `str` is the line.

    Raises ValueError for each text that the checker calls `unread`, TypeError for anything but a text.

    >>> parse("1RB1LB_1LA1RZ halt 6 4")
    Halt(machine='1RB1LB_1LA1RZ', steps=6, score=4)
    >>> str(parse("1RA1RA translated R 1 2 1 1"))
    '1RA1RA translated R 1 2 1 1'
    >>> parse("1RB1LB_1LA1RZ halt 06 4")
    Traceback (most recent call last):
    ValueError: no verdict line: '1RB1LB_1LA1RZ halt 06 4'
    """
    if not isinstance(line, str):
        raise TypeError("a verdict line is a str, not %s" % type(line).__name__)
    machine, _, words = line.partition(" ")
    try:
        if machine == "refused":
            column = whole_number(words)
            if not 1 <= column <= LONGEST + 1:
                raise ValueError
            return Refused(column)
        if not is_machine(machine):
            raise ValueError
        return verdict_of(machine, words, whole_number)
    except ValueError:
        raise ValueError("no verdict line: %.*r" % (LONGEST_SHOWN, line)) from None


def verdicts_of(items: Iterable[str | Verdict], name: str) -> Iterator[Verdict]:
    """The verdicts of verdicts and lines, maybe with fields behind a tab. Raises ValueError, TypeError."""
    for place, item in enumerate(items):
        if not isinstance(item, VERDICTS):
            try:
                item = parse(item.rstrip("\r\n").partition("\t")[0] if isinstance(item, str) else item)
            except (TypeError, ValueError) as error:
                raise type(error)("%s[%d]: %s" % (name, place, error)) from None
        yield item


_USES = "((?: (?:[0-9]+|[*-]))+)"
_RECURRENCE = re.compile(
    "([^ ]+) recurs ([0-9]+) ([0-9]+) (-?)([0-9]+)%s(?: quasihalts [0-9]+)?(?: entries%s)?" % (_USES, _USES)
)
_REPLIES = {str(answer): answer for answer in Answer if answer is not Answer.OK}


class UseKind(Words):
    """`NEVER`: no step uses it. `LAST`: a step uses it, and no later one. `FOREVER`: steps use it for ever."""

    NEVER = "never"
    LAST = "last"
    FOREVER = "forever"


@dataclasses.dataclass(frozen=True)
class LastUse:
    """The last use of a state or an entry. `step`, counted from 0, belongs to the kind `LAST` alone."""

    kind: UseKind
    step: int | None = None

    def __str__(self) -> str:
        return str(self.step) if self.kind is UseKind.LAST else "-" if self.kind is UseKind.NEVER else "*"


@dataclasses.dataclass(frozen=True)
class Recurrence:
    """The machine never halts, and repeats exactly from the step `start` on with the period `period`.

    `start`: the least step, counted from 0, from which on each step uses the transition of the step a period
    later; `period`: the least number of steps for which there is one. `shift`: how many cells the head is farther
    to the right after a period, negative to the left. `uses`: the last use of each state; `entries`: of each entry
    in the table's order, or None.
    """

    machine: str
    start: int
    period: int
    shift: int
    uses: tuple[LastUse, ...]
    entries: tuple[LastUse, ...] | None = None
    kind: ClassVar[str] = "recurs"

    @property
    def quasihalts(self) -> int | None:
        """The steps after which no other state is used for the last time; None if none is."""
        return max((use.step + 1 for use in self.uses if use.step is not None), default=None)

    def __str__(self) -> str:
        words = [self.machine, "recurs", self.start, self.period, self.shift, *self.uses]
        words += [] if self.quasihalts is None else ["quasihalts", self.quasihalts]
        words += [] if self.entries is None else ["entries", *self.entries]
        return " ".join(map(str, words))


# The reply to a verdict line: `OPEN` if its verdict is no pair.
RecurrenceReply = Union[Recurrence, Answer]


def _uses_of(text: str, count: int) -> tuple[LastUse, ...]:
    kinds = {"-": LastUse(UseKind.NEVER), "*": LastUse(UseKind.FOREVER)}
    words = text.split()
    if len(words) != count:
        raise ValueError
    return tuple(kinds.get(word) or LastUse(UseKind.LAST, whole_number(word)) for word in words)


def parse_recurrence(line: str) -> RecurrenceReply:
    """The recurrence or answer of a reply of `recurrence`, without its newline; its `str` is the line.

    Raises ValueError for a text that the program never prints, TypeError for anything but a text.

    >>> found = parse_recurrence("1RB---_1LB0RB recurs 4 1 -1 0 * quasihalts 1")
    >>> found.start, found.period, found.shift, found.quasihalts
    (4, 1, -1, 1)
    >>> parse_recurrence("open")
    <Answer.OPEN: 'open'>
    """
    if not isinstance(line, str):
        raise TypeError("a reply is a str, not %s" % type(line).__name__)
    if line in _REPLIES:
        return _REPLIES[line]
    try:
        return _recurrence_of(line)
    except ValueError:
        raise ValueError("no reply of recurrence: %.*r" % (LONGEST_SHOWN, line)) from None


def _recurrence_of(line: str) -> Recurrence:
    found = _RECURRENCE.fullmatch(line)
    if found is None or not is_machine(found[1]):
        raise ValueError
    machine, (states, symbols) = found[1], size_of(found[1])
    start, period, shift = map(whole_number, (found[2], found[3], found[5]))
    entries = None if found[7] is None else _uses_of(found[7], states * symbols)
    shift = -shift if found[4] else shift
    recurrence = Recurrence(machine, start, period, shift, _uses_of(found[6], states), entries)
    # A period of 0, a shift of -0, and quasihalting steps beside the last uses aren't printed.
    if period == 0 or str(recurrence) != line:
        raise ValueError
    return recurrence
