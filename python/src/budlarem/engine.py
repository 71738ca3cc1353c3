"""Decides, checks, finds recurrences and traces by the library."""

from __future__ import annotations

import dataclasses
import functools
import itertools
from typing import Callable, Iterable, Iterator

from ._calls import MOST_BYTES, MOST_LINES, Batch, BatchPace, BinaryReader, Blocks, batch_bytes, batch_texts
from ._calls import map_in_order
from ._fork import forbid_fork
from ._library import NOT_CLEAN, SHORT, Reply, call_library, call_once, load_library
from ._text import LONGEST_GIVEN, LONGEST_SHOWN, LONGEST_VALUE
from .limits import Limits, Plan, in_range, whole
from .verdicts import VERDICTS, Answer, RecurrenceReply, Refused, Verdict, parse_recurrence
from .verdicts import require_field_types, verdict_of

# The most bytes of a block that is checked with large tapes; and the cells from which on a call costs the
# tapes, so that batches of claims are always large.
_LARGE, _LARGE_TAPES = 1 << 22, 1 << 20
# It makes a call over lines.
Call = Callable[[bytes], Reply]
# The most bytes of a reply beyond its line, and of an answer.
_BEYOND, _ANSWER = 98, 7
# The most bytes of replies on recurrences, for each byte of the list and for each line.
_RECURRENCE_FOLD, _RECURRENCE_BEYOND = 7, 90
# The most bytes of replies per byte of their lines, since a machine has six bytes or more and its line one
# more; and the bytes of verdict lines for each byte of answers.
_FOLD, _FOR_EACH = 15, 2
# The bytes of a trace that are asked for at once, unless a line is longer; and the most bytes that they would
# have if each line were as long as possible.
_TRACED, _TRACED_AT_WORST = 1 << 24, 1 << 28
_LONGEST_REFUSAL = len("refused 775\n")
# A run of so many steps ends before an interruption has to.
_SHORT_RUN = 100_000


class MachineError(ValueError):
    """A text is no machine. `machine` is the text, `column` is 1 plus the length of its longest prefix that
    starts a machine, `place` its place in a list, as `machines[2]`."""

    def __init__(self, machine: str, column: int, place: str = "") -> None:
        super().__init__(machine, column, place)
        self.machine, self.column, self.place = machine, column, place

    def __str__(self) -> str:
        text = "no machine, from column %d on: %.*r" % (self.column, LONGEST_SHOWN, self.machine)
        return "%s: %s" % (self.place, text) if self.place else text


def decide_call(limits: Limits, plan: Plan) -> Call:
    arguments = (*limits.numbers(), *plan.switches())
    return lambda lines: call_library("bb_decide", arguments, lines, _FOLD * len(lines) + _BEYOND)


def check_call(limits: Limits) -> Call:
    arguments = limits.numbers()
    return lambda lines: call_library("bb_check", arguments, lines, len(lines) // _FOR_EACH + _ANSWER)


def recurrence_call(limits: Limits, entries: bool = False) -> Call:
    """The call that finds the recurrences behind verdict lines; `entries` adds the last use of each entry."""
    arguments = (limits.steps, limits.cells, entries)

    def call(lines: bytes) -> Reply:
        room = _RECURRENCE_FOLD * len(lines) + _RECURRENCE_BEYOND * (lines.count(b"\n") + 1)
        return call_library("bb_recurrence", arguments, lines, room)

    return call


def _prepare(limits: Limits, plan: Plan, threads: int) -> int:
    """Raises an error for wrong arguments before anything is read; returns the number of threads."""
    for name, given, kind in (("limits", limits, Limits), ("plan", plan, Plan)):
        if not isinstance(given, kind):
            raise TypeError(f"{name} is of type {type(given).__name__}, not {kind.__name__}")
    number = whole("threads", threads)
    if number < 1:
        raise ValueError("threads is %d, but must be 1 or more" % number)
    forbid_fork()
    load_library()
    return number


def _require_list(name: str, texts: Iterable[object]) -> None:
    """Raises TypeError for anything else than a list of texts."""
    if isinstance(texts, (str, bytes, bytearray)):
        raise TypeError("%s is one %s; a list of texts is asked for" % (name, type(texts).__name__))
    iter(texts)


def reply_lines(
    batches: Iterator[Batch], call: Call, threads: int, pace: BatchPace
) -> Iterator[tuple[str, str]]:
    """Each text of these batches, with its line of the replies."""
    for batch, reply in map_in_order(lambda one: call(one.lines), batches, threads, pace):
        yield from zip(batch.texts, reply.text.decode().split("\n"))


def decide(
    machines: Iterable[str], limits: Limits = Limits(), plan: Plan = Plan(), *, threads: int = 1
) -> Iterator[Verdict]:
    """The verdict of each machine, in order; `Refused` for a text that is no machine.

    `machines` is any iterable of texts without newlines. It is read some texts ahead, and never held as a
    whole. `threads` is the number of cores used. The calls run beside the caller's thread, which can be
    interrupted. The present call then ends by itself, or with the process.

    Raises TypeError for an item that is no text and ValueError for one with a newline, both with its place in
    the list, after the verdicts before it. Raises MemoryError without memory for the tapes, LibraryError if the
    library isn't found, RuntimeError in a process that was forked from one with threads.

    >>> [str(verdict) for verdict in decide(["1RB1LB_1LA1RZ", "1RA1RA"])]
    ['1RB1LB_1LA1RZ halt 6 4', '1RA1RA translated R 1 2 1 1']
    >>> list(decide(["1rB1LB"]))
    [Refused(column=2, machine='1rB1LB')]
    """

    def verdict(machine: str, line: str) -> Verdict:
        if line.startswith("refused "):
            return Refused(int(line[len("refused ") :]), machine)
        return verdict_of(machine, line[len(machine) + 1 :])

    threads, pace = _prepare(limits, plan, threads), BatchPace(MOST_LINES)
    _require_list("machines", machines)
    batches = batch_texts(machines, "machines", pace)
    pairs = reply_lines(batches, decide_call(limits, plan), threads, pace)
    return (verdict(machine, line) for machine, line in pairs)


def column_of(text: str) -> int | None:
    """The column at which the library refuses a text; None for a machine. Nothing is run."""
    forbid_fork()
    line = text.encode("utf-8", "surrogateescape")[:LONGEST_GIVEN]
    reply = decide_call(Limits(0, 1, 0, 0), Plan(False, False, False))(line).text
    return int(reply.split()[1]) if reply.startswith(b"refused ") else None


def _lines_of(items: Iterable[str | Verdict]) -> Iterator[str]:
    """The lines of verdicts; others stay. Raises TypeError, with its place, for a field of another type."""
    for place, item in enumerate(items):
        if isinstance(item, VERDICTS):
            require_field_types("lines[%d]" % place, item)
            yield str(item)
        else:
            yield item


def _claim_replies(
    lines: Iterable[str | Verdict], call: Callable[[Limits], Call], limits: Limits, threads: int
) -> Iterator[str]:
    """The library's reply to each verdict or verdict line."""
    threads = _prepare(limits, Plan(), threads)
    pace = BatchPace(MOST_LINES, is_steady=limits.cells >= _LARGE_TAPES)
    _require_list("lines", lines)
    batches = batch_texts(_lines_of(lines), "lines", pace)
    return (reply for _, reply in reply_lines(batches, call(limits), threads, pace))


def check(lines: Iterable[str | Verdict], limits: Limits = Limits(), *, threads: int = 1) -> Iterator[Answer]:
    """The checker's answer to each verdict, in order. `lines` has verdicts, verdict lines, or both. A claim of more
    steps than the limits is `OVER`; the command `budlarem check` has the greatest limits by default.

    Reads and raises as `decide` does.

    >>> [answer.name for answer in check(["1RB1LB_1LA1RZ halt 6 4", "1RB1LB_1LA1RZ halt 6 5", "x"])]
    ['OK', 'BAD', 'UNREAD']
    """
    return map(Answer, _claim_replies(lines, check_call, limits, threads))


def recurrences(
    lines: Iterable[str | Verdict], limits: Limits = Limits(), *, entries: bool = False, threads: int = 1
) -> Iterator[RecurrenceReply]:
    """The exact recurrence behind each pair that the checker confirms, in order. A pair that it doesn't confirm
    gets its answer, another verdict or a refusal `OPEN`, another text `UNREAD`.

    `lines` has verdicts, verdict lines, or both. Of the limits, steps and cells count: each pair that is `OK`
    within them has its recurrence. `entries` adds the last use of each entry. Reads and raises as `decide` does.

    >>> for found in recurrences(["0RB---_0LA--- cycler 4 16", "1RA1RA cycler 1 2", "1RB1LB_1LA1RZ halt 6 4"]):
    ...     print(found)
    0RB---_0LA--- recurs 0 2 0 * *
    bad
    open
    """
    replies = _claim_replies(lines, lambda given: recurrence_call(given, bool(entries)), limits, threads)
    return map(parse_recurrence, replies)


def _replies(blocks: Blocks, call: Call, threads: int, pace: BatchPace) -> Iterator[bytes]:
    return (reply.text for _, reply in map_in_order(call, batch_bytes(blocks, pace), threads, pace))


def decide_bytes(
    blocks: Blocks, limits: Limits = Limits(), plan: Plan = Plan(), *, threads: int = 1
) -> Iterator[bytes]:
    """The bytes that `bb decide` writes for these bytes, in blocks of whole lines.

    `blocks` is bytes, a file that is open for reading bytes, or an iterable of bytes that are cut anywhere.
    Raises as `decide` does; TypeError for a block that isn't bytes.

    >>> b"".join(decide_bytes(b"1RB1LB_1LA1RZ\\n"))
    b'1RB1LB_1LA1RZ halt 6 4\\n'
    """
    threads = _prepare(limits, plan, threads)
    return _replies(blocks, decide_call(limits, plan), threads, BatchPace(MOST_BYTES))


def check_bytes(blocks: Blocks, limits: Limits = Limits(), *, threads: int = 1) -> Iterator[bytes]:
    """The bytes that `bb check` writes for these bytes, in blocks of whole lines. Takes and raises what
    `decide_bytes` does.

    >>> b"".join(check_bytes(b"1RB1LB_1LA1RZ halt 6 4\\n"))
    b'ok\\n'
    """
    threads = _prepare(limits, Plan(), threads)
    pace = BatchPace(MOST_BYTES, is_steady=limits.cells >= _LARGE_TAPES)
    return _replies(blocks, check_call(limits), threads, pace)


def answer_file(
    file: BinaryReader, call: Call, limits: Limits, *, threads: int = 1
) -> Iterator[tuple[bytes, bytes]]:
    """Verdict lines of a file, and the replies of a call under these limits, in large blocks, since large tapes
    cost more than the lines. A line of more than LONGEST_GIVEN bytes is cut. Raises what `decide` does."""
    threads = _prepare(limits, Plan(), threads)
    most = _LARGE if threads == 1 else _LARGE // 4
    pace = BatchPace(most, is_steady=True)
    blocks = iter(lambda: file.read(most), b"")
    replies = map_in_order(call, batch_bytes(blocks, pace), threads, pace)
    return ((lines, reply.text) for lines, reply in replies)


@dataclasses.dataclass(frozen=True)
class Configuration:
    """A machine after `step` steps: its state (`Z` after a step into it), the head's position, and the symbols
    of the cells visited so far, one digit each, from the position `low` on. Its text is the line of `bb
    trace`, without `low`."""

    step: int
    state: str
    position: int
    cells: str
    low: int

    def __str__(self) -> str:
        return "%d %s %d %s" % (self.step, self.state, self.position, self.cells)


class Trace(Iterator[Configuration]):
    """The configurations of a machine, one after another. `cut` is None until the last one; then it says
    whether the limit of cells ended the run before `upto`."""

    def __init__(self, machine: str, upto: int, cells: int, start: int, every: int) -> None:
        self.cut: bool | None = None
        self._machine, self._upto, self._cells = machine, upto, cells
        # The next step, and the most cells visited at the last line so far.
        self._next, self._every, self._visited = start, every, start + 1
        self._held = itertools.chain.from_iterable(iter(self._lines, None))

    def __next__(self) -> Configuration:
        step, state, position, low, cells = next(self._held).decode().split(" ")
        return Configuration(int(step), state, int(position), cells, int(low))

    def _longest(self, count: int) -> int:
        """The most bytes of each of the next `count` lines."""
        visited = min(self._cells, self._visited + self._every * count, self._upto + 1)
        return len("%d Z -%d -%d \n" % (self._upto, self._cells, self._cells)) + visited

    def _lines(self) -> list[bytes] | None:
        """The next lines, as many as fit; None at the end. Each call runs the machine from its start. Raises
        MachineError."""
        if self.cut is not None:
            return None
        count = rest = max((self._upto - self._next) // self._every + 1, 0)
        while count > 1 and count * self._longest(count) > _TRACED_AT_WORST:
            count //= 2
        room = min(count * self._longest(count), _TRACED) + _LONGEST_REFUSAL
        status, length, reply = self._call(count, rest, room)
        while status == SHORT:
            if count == 1:
                room = length
            count = max(count * room // length, 1)
            status, length, reply = self._call(count, rest, room)
        if reply.startswith(b"refused "):
            raise MachineError(self._machine, int(reply.split()[1]))
        lines = reply.split(b"\n")[:-1]
        self._next += self._every * len(lines)
        if status == NOT_CLEAN or count == rest or len(lines) < count:
            self.cut = status == NOT_CLEAN
        elif lines:
            self._visited = len(lines[-1].rpartition(b" ")[2])
        return lines

    def _call(self, count: int, rest: int, room: int) -> Reply:
        """The reply for the next `count` lines; if they are all the `rest`, with the last step too."""
        last = self._upto if count == rest else self._next + self._every * (count - 1)
        arguments = (last, self._cells, self._next, self._every)
        line = self._machine.encode("utf-8", "surrogatepass")[:LONGEST_GIVEN]
        if last <= _SHORT_RUN:
            return call_once("bb_trace", arguments, line, room)
        call = functools.partial(call_once, "bb_trace", arguments, room=room)
        ((_, reply),) = map_in_order(call, [line], 1, BatchPace(1))
        return reply


def trace(machine: str, upto: int, cells: int = 65_536, start: int = 0, every: int = 1) -> Trace:
    """The configurations of a machine after `start` steps, `start + every` and so on, up to `upto` or to the
    last one that `cells` allow. A skipped step costs its simulation.

    Raises LimitsError for a number out of its range, TypeError for another number or a machine that is no text,
    ValueError for one with a newline; at the first configuration MachineError for a text that is no machine.

    >>> [str(now) for now in trace("1RB1LB_1LA1RZ", 6, start=4)]
    ['4 A -2 0111', '5 B -1 1111', '6 Z 0 1111']
    """
    if not isinstance(machine, str):
        raise TypeError("machine is of type %s, not str" % type(machine).__name__)
    if "\n" in machine:
        raise ValueError("the machine has a newline in it: %.*r" % (LONGEST_VALUE, machine))
    upto = in_range("upto", upto, 0, Limits.RANGES["steps"][1])
    cells = in_range("cells", cells, *Limits.RANGES["cells"])
    start = in_range("start", start, 0, 2**64 - 1)
    every = in_range("every", every, 1, 2**64 - 1)
    forbid_fork()
    load_library()
    return Trace(machine, upto, cells, start, every)
