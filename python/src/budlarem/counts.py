"""The statistics of a list of verdict lines: the count of each kind, the greatest numbers, the longest runs."""

from __future__ import annotations

import collections
import re
from typing import Any, ClassVar, Iterator, Sequence, TypeVar

KINDS = ("halt", "cycler", "translated", "backward", "undecided steps", "undecided cells", "refused")
UNDECIDED = ("undecided steps", "undecided cells")
# The number of the longest runs of a kind that are kept.
LONGEST = 10
# The numbers of a verdict in the order of its line, and those whose greatest is kept.
_NUMBERS = {
    "halt": ("steps", "score"),
    "cycler": ("first", "second"),
    "translated": ("first", "second", "shift", "length"),
    "backward": ("levels", "nodes"),
}
_GREATEST = {**_NUMBERS, "cycler": ("second", "apart"), "translated": ("second", "shift", "length")}
Counts = TypeVar("Counts", bound="VerdictCounts")
_COUNTED = re.compile(rb" (?:halt|backward) [^\n]+")


def numbers_of(kind: str, words: Sequence[str]) -> dict[str, int]:
    """The numbers of a verdict by name; `words` follow its kind."""
    numbers = dict(zip(_NUMBERS.get(kind, ()), map(int, words[1:] if kind == "translated" else words)))
    if "second" in numbers:
        numbers["apart"] = numbers["second"] - numbers["first"]
    return numbers


class VerdictCounts:
    """`kinds` has the count of each kind; `greatest`, by name as `halt steps`, the greatest number and the first
    line with it; `longest`, for each kind with steps, the lines of the most."""

    # The kinds in the order of their counts.
    names: ClassVar[tuple[str, ...]] = KINDS

    def __init__(self) -> None:
        self.kinds: collections.Counter[str] = collections.Counter()
        self.greatest: dict[str, tuple[int, str]] = {}
        self.longest: dict[str, list[tuple[int, str]]] = {}
        self._known: set[bytes] = set()

    @classmethod
    def of_fields(cls: type[Counts], fields: dict[str, Any]) -> Counts:
        """The counts with these `fields`, also from JSON. Raises KeyError, TypeError, ValueError."""
        counts = cls()
        counts.kinds.update({str(kind): int(count) for kind, count in fields["counts"].items()})
        counts.greatest = {name: (int(most), str(line)) for name, (most, line) in fields["greatest"].items()}
        return counts

    def fields(self) -> dict[str, Any]:
        return {"counts": {kind: self.kinds[kind] for kind in self.names}, "greatest": self.greatest}

    def add(self, line: str) -> str:
        """Counts a verdict line; returns its machine, or an empty text for a refusal."""
        machine, kind, *words = line.split(" ")
        if machine == "refused":
            self.kinds[machine] += 1
            return ""
        self.kinds["%s %s" % (kind, words[0]) if kind == "undecided" else kind] += 1
        self._add_numbers(kind, numbers_of(kind, words), line)
        return machine

    def add_block(self, lines: bytes) -> bytes:
        """Counts whole verdict lines, with the numbers of halts and trees. Returns the undecided lines."""
        for kind in _NUMBERS:
            self.kinds[kind] += lines.count(b" %s " % kind.encode())
        new = set(_COUNTED.findall(lines)) - self._known
        self._known |= new
        for verdict in sorted(new):
            _, kind, *words = verdict.decode().split(" ")
            end = lines.index(verdict + b"\n") + len(verdict)
            line = lines[lines.rfind(b"\n", 0, end) + 1 : end]
            self._add_numbers(kind, numbers_of(kind, words), line.decode())
        undecided = b"".join(lines[start:end] for start, _, end in undecided_spans(lines))
        for kind in UNDECIDED:
            self.kinds[kind] += undecided.count(b" %s\n" % kind.encode())
        return undecided

    def merge(self, other: VerdictCounts) -> None:
        """Adds the counts and the greatest numbers of others, whose lines follow."""
        self.kinds.update(other.kinds)
        for name, (most, line) in other.greatest.items():
            if most > self.greatest.get(name, (-1, ""))[0]:
                self.greatest[name] = (most, line)

    def most(self, *names: str) -> int:
        """The greatest of the numbers with these names; 0 if no line has one."""
        return max((self.greatest[name][0] for name in names if name in self.greatest), default=0)

    def count_undecided(self) -> int:
        return sum(self.kinds[kind] for kind in UNDECIDED)

    def _add_numbers(self, kind: str, numbers: dict[str, int], line: str) -> None:
        for name in _GREATEST.get(kind, ()):
            key = "%s %s" % (kind, name)
            if numbers.get(name, -1) > self.greatest.get(key, (-1, ""))[0]:
                self.greatest[key] = (numbers[name], line)
        if (steps := numbers.get("steps", numbers.get("second"))) is None:
            return
        runs = self.longest.setdefault(kind, [])
        if len(runs) == LONGEST and steps <= runs[-1][0]:
            return
        runs.append((steps, line))
        runs.sort(key=lambda run: -run[0])
        if len(runs) > LONGEST:
            runs.remove(min(runs))


class RecurrenceCounts(VerdictCounts):
    """The same of replies of `recurrence`: the counts of recurrences, of those that quasihalt, and of answers; the
    greatest start, period, shift to any side, and number of steps after which one quasihalts."""

    names = ("recurs", "quasihalts", "bad", "over", "open", "unread")

    def add_block(self, lines: bytes) -> bytes:
        """Counts a block of whole replies; returns nothing."""
        found = {kind: lines.count(b" %s " % kind.encode()) for kind in ("recurs", "quasihalts")}
        found["open"] = lines.count(b"open\n")
        if found["recurs"] + found["open"] < lines.count(b"\n"):
            found.update({kind: lines.count(b"%s\n" % kind.encode()) for kind in ("bad", "over", "unread")})
        self.kinds.update(found)
        for name, words in _WORDS.items():
            most, _ = self.greatest.get(name, (-1, ""))
            pattern = " %s -?([0-9]{%d,})" % (words, len(str(max(most, 0))))
            for number in re.finditer(pattern.encode(), lines):
                if int(number[1]) > most:
                    most = int(number[1])
                    line = lines[lines.rfind(b"\n", 0, number.start()) + 1 : lines.index(b"\n", number.end())]
                    self.greatest[name] = (most, line.decode())
        return b""


# What stands before the numbers of a recurrence whose greatest is kept.
_WORDS = {
    "start": "recurs",
    "period": "recurs [0-9]+",
    "shift": "recurs [0-9]+ [0-9]+",
    "quasihalts": "quasihalts",
}


def find_all(word: bytes, lines: bytes) -> Iterator[int]:
    place = lines.find(word)
    while place >= 0:
        yield place
        place = lines.find(word, place + 1)


def undecided_spans(lines: bytes) -> Iterator[tuple[int, int, int]]:
    """Start of each undecided line, end of its machine, and end of the line with its newline."""
    for place in find_all(b" undecided ", lines):
        yield lines.rfind(b"\n", 0, place) + 1, place, lines.index(b"\n", place) + 1
