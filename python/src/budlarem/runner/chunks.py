"""Chunks of a list: the work of deciding and checking them, the validation of its output, and retention.

Output isn't trusted either: it has a line of the right form for each line of the chunk. Validation doesn't show that
a verdict is right; the checker does.
"""

from __future__ import annotations

import dataclasses
import re
from typing import Sequence

from .._library import validate_replies
from ..counts import KINDS, find_all
from ..engine import check_call, decide_call
from ..limits import Limits, Plan
from .errors import ReplyError, UsageError
from .replies import quote_line

Numbers = tuple[int, int, int, int]
Counts = dict[str, int]

_LEFT, _HALTS = "left", "halts="
_KEPT_WORDS = (b" undecided ", b"refused ")


def decide(lines: bytes, limits: Numbers) -> bytes:
    """The verdict lines of these lines. Raises what `budlarem.decide` does."""
    return decide_call(Limits(*limits), Plan())(lines).text


def check(lines: bytes, limits: Numbers) -> bytes:
    """The checker's answers to these verdict lines. Raises what `budlarem.check` does."""
    return check_call(Limits(*limits))(lines).text


def _split(lines: bytes, count: int, what: str) -> list[bytes]:
    """These lines without their newlines. Raises ReplyError unless there are `count` whole ones."""
    parts = lines.split(b"\n")
    if parts.pop() != b"":
        raise ReplyError("the last of the %s has no newline" % what)
    if len(parts) != count:
        raise ReplyError("%d %s came back for %d lines" % (len(parts), what, count))
    return parts


def validate_verdicts(given: bytes, verdicts: bytes) -> Counts:
    """The count of each kind. Raises ReplyError unless each verdict names or refuses its line's machine."""
    found = validate_replies(given, verdicts)
    if not found.fits:
        lines = given.split(b"\n")[:-1]
        reply = _split(verdicts, len(lines), "verdict lines")[found.lines]
        text = "%s came back for the line %s" % (quote_line(reply), quote_line(lines[found.lines]))
        raise ReplyError(text, found.lines)
    return dict(zip(KINDS, found.counts))


def validate_answers(count: int, answers: bytes) -> None:
    """Raises ReplyError for invalid answers to so many lines, with `line` set for an unconfirmed verdict."""
    if answers.replace(b"open\n", b"ok\n") == b"ok\n" * count:
        return
    lines = _split(answers, count, "answers")
    place = next(place for place, line in enumerate(lines) if line not in (b"ok", b"open"))
    if lines[place] not in (b"bad", b"over", b"unread"):
        raise ReplyError("%s is no answer of the checker" % quote_line(lines[place]))
    raise ReplyError(lines[place].decode(), place)


@dataclasses.dataclass(frozen=True)
class Retention:
    """Keeps all verdict lines, or holdouts, refusals, and halts after more than `halts_after` steps."""

    only_holdouts: bool = False
    halts_after: int | None = None

    def __str__(self) -> str:
        if not self.only_holdouts:
            return "all"
        return _LEFT if self.halts_after is None else "%s,%s%d" % (_LEFT, _HALTS, self.halts_after)

    def select(self, verdicts: bytes) -> bytes:
        if not self.only_holdouts:
            return verdicts
        places = [place for word in _KEPT_WORDS for place in find_all(word, verdicts)]
        if self.halts_after is not None:
            halts = re.finditer(b" halt ([0-9]{%d,}) " % len(str(self.halts_after)), verdicts)
            places += (halt.start() for halt in halts if int(halt[1]) > self.halts_after)
        starts = {verdicts.rfind(b"\n", 0, place) + 1 for place in places}
        return b"".join(verdicts[start : verdicts.index(b"\n", start) + 1] for start in sorted(starts))


def parse_retention(words: Sequence[str] | None) -> Retention:
    """The retention named by words such as `left` and `halts=1000` name. Raises UsageError."""
    parts = [part for word in words or () for part in word.split(",")]
    halts: int | None = None
    for part in parts:
        if part.startswith(_HALTS) and re.fullmatch("[0-9]{1,15}", part[len(_HALTS) :]):
            halts = int(part[len(_HALTS) :])
        elif part not in (_LEFT, "all") or (part == "all" and len(parts) > 1):
            raise UsageError("--keep %s: give left, halts=N, left,halts=N or all" % ",".join(parts))
    return Retention(bool(parts) and parts != ["all"], halts)
