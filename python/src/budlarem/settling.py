"""The verdict of any machine from a complete list.

A complete list in tree normal form has one machine for all that complete it, up to mirror images and other names:
the *line* of each. Its verdict settles them. The library finds a machine's line, and the place of the line in the
list is found by the order of the walk.
"""

from __future__ import annotations

import collections
import contextlib
import dataclasses
import itertools
import mmap
import os
import re
from typing import Callable, Iterable, Iterator

from ._calls import MOST_LINES, BatchPace, batch_texts, catch_error
from ._files import Directory
from ._library import Reply, call_library
from .engine import MachineError, check, column_of, decide, reply_lines
from .limits import Limits, words_of
from .shards import SKELETON, VerdictReader, read_plan, run_cover, sha256_of, walk_shard
from .verdicts import Answer, Backward, Cycler, Halt, Translated, Undecided, Verdict
from .verdicts import mirror_verdict, parse, size_of
from .walk_order import WalkOrder

# The bytes of a reply for each byte of its machine, and beyond: with these few replies are asked for twice.
_FOLD, _BEYOND = 2, 110
_BLOCK = 1 << 20
_COVERS = re.compile(r"covers (\d+) states? (\d+) symbols(, given \d+ shards?)?: ")


class ListError(ValueError):
    """A list is no complete list of the machine's size made with these limits."""


@dataclasses.dataclass(frozen=True)
class LineHalt:
    """The halt of a line on `---`: its steps and its score, and the machine's own entry there."""

    steps: int
    score: int
    entry: str


@dataclasses.dataclass(frozen=True)
class Line:
    """The line of a machine. `states` has the machine's state for each state of the line, `symbols` the symbol for
    each symbol; `is_mirrored`: left and right are exchanged. `halt` is None if the line runs to a limit."""

    machine: str
    line: str
    is_mirrored: bool
    states: str
    symbols: str
    halt: LineHalt | None

    @property
    def change(self) -> str:
        """The change from the line to the machine, as `cover --lines` prints it."""
        return "%s %s %s" % ("mirror" if self.is_mirrored else "same", self.states, self.symbols)


def lines_of(machines: Iterable[str], *, steps: int = 1_000_000, cells: int = 65_536) -> Iterator[Line]:
    """The line of each machine in complete lists made with these limits.

    Raises MachineError for a text that is no machine, with its place; LimitsError; else as `decide` does.

    >>> [(found.line, found.change) for found in lines_of(["1LB---_1RA1LA"])]
    [('1RB---_1LA---', 'mirror AB 01')]
    """
    limits = Limits(steps, cells, 0, 0)
    pace = BatchPace(MOST_LINES)
    asked = (limits.steps, limits.cells)

    def call(lines: bytes) -> Reply:
        room = _FOLD * len(lines) + _BEYOND * (lines.count(b"\n") + 1)
        return call_library("bb_line_of", asked, lines, room)

    pairs = reply_lines(batch_texts(machines, "machines", pace), call, 1, pace)
    for place, (text, reply) in enumerate(pairs):
        if reply == "unread":
            raise MachineError(text, column_of(text) or 1, "machines[%d]" % place)
        found, _, line, side, states, symbols, *end = reply.split(" ")
        halt = LineHalt(int(end[1]), int(end[2]), end[3]) if end[0] == "halt" else None
        yield Line(found, line, side == "mirror", states, symbols, halt)


@dataclasses.dataclass(frozen=True)
class Settled:
    """A machine, its line, the line's verdict in the list, and what that says of the machine: a verdict that the
    checker confirms, or None. `never`: whether the machine never halts; None if that stays open."""

    line: Line
    listed: Verdict
    verdict: Verdict | None
    never: bool | None

    def __str__(self) -> str:
        told = "never halts" if self.never else "open"
        verdict = told if self.verdict is None else str(self.verdict)
        return "\t".join((self.line.machine, verdict, str(self.listed), self.line.change))


class WalkedList:
    """A complete list in the order of the walk, in a file of verdict lines; to be closed."""

    # Options of `cover` for such a list, and how many machines are looked up together.
    cover_options: tuple[str, ...] = ()
    batch = 1 << 10

    def __init__(self, path: str | os.PathLike[str], steps: int) -> None:
        """`steps` of the list's runs. Raises OSError, ListError for an empty file."""
        self.name, self._steps = os.fspath(path), steps
        with open(path, "rb") as file:
            if os.fstat(file.fileno()).st_size == 0:
                raise ListError("%s is empty" % self.name)
            self._bytes = mmap.mmap(file.fileno(), 0, access=mmap.ACCESS_READ)

    def close(self) -> None:
        self._bytes.close()

    def find(self, machine: str) -> Verdict:
        """The verdict of a machine of the list. Raises ListError."""
        line = self.find_item(machine)
        if line.partition(" ")[0] != machine:
            raise self.missing(machine)
        try:
            return parse(line)
        except ValueError as error:
            raise ListError("%s: %s" % (self.name, error)) from None

    def find_all(self, machines: Iterable[str]) -> Iterator[Verdict]:
        return map(self.find, machines)

    def find_item(self, machine: str) -> str:
        """The line of a machine, or else the last one before it in the walk; empty if there is none. By a binary
        search."""
        order = WalkOrder(machine, size_of(machine)[1], self._steps)
        low, high, before = 0, len(self._bytes), ""
        while low < high:
            middle = (low + high) // 2
            start = max(self._bytes.rfind(b"\n", low, middle) + 1, low)
            end = self._bytes.find(b"\n", middle, high)
            end = high if end < 0 else end
            line = self._bytes[start:end].decode("utf-8", "replace")
            there = line.partition(" ")[0]
            if there == machine:
                return line
            if len(there) == len(machine) and order.is_behind(there, machine):
                low, before = end + 1, line
            else:
                high = start
        return before

    def missing(self, machine: str) -> ListError:
        size = "%d states and %d symbols with %d steps" % (*size_of(machine), self._steps)
        why = "it is no complete list of %s in the order of the walk" % size
        return ListError("%s has no line %s: %s" % (self.name, machine, why))


class ShardedList:
    """A list in a folder of `budlarem shards` that is joined; to be closed. The shard of a line is done again."""

    cover_options = ("--skeleton",)
    batch = 1 << 16

    def __init__(self, path: str | os.PathLike[str], report: Callable[[str], object]) -> None:
        """`report` gets a sentence on each shard that was done again. Raises OSError if the folder isn't joined, FolderError for a changed plan."""
        with contextlib.closing(Directory.open(os.fspath(path))) as top:
            self.plan, _ = read_plan(top)
        self._skeleton = WalkedList(os.path.join(path, SKELETON), self.plan.list_steps)
        self.name, self.close, self._report = self._skeleton.name, self._skeleton.close, report

    def find_all(self, machines: Iterable[str]) -> Iterator[Verdict]:
        """The verdicts of machines of the list. Raises ListError, CheckError, RunError."""
        asked = [*machines]
        items = {machine: self._skeleton.find_item(machine) for machine in asked}
        shards: dict[str, set[str]] = collections.defaultdict(set)
        for machine, item in items.items():
            if item.split(" ")[1:2] == ["below"]:
                shards[item].add(machine)
        again: dict[str, Verdict] = {}
        for item, wanted in shards.items():
            again.update(self._find_again(item, wanted))
        for machine in asked:
            if items[machine] not in shards:
                yield self._skeleton.find(machine)
            elif machine in again:
                yield again[machine]
            else:
                raise self._skeleton.missing(machine)

    def _find_again(self, item: str, wanted: set[str]) -> dict[str, Verdict]:
        """The verdicts of some machines of a shard, which is done again and compared with its line."""
        found: dict[str, Verdict] = {}
        shard, rest = item.partition(" ")[0], b""

        def see(block: bytes) -> None:
            nonlocal rest
            *lines, rest = (rest + block).split(b"\n")
            for line in lines:
                if (text := line.decode("ascii")).partition(" ")[0] in wanted:
                    found[text.partition(" ")[0]] = parse(text)

        stated = walk_shard(shard, self.plan, VerdictReader(self.plan), see)
        if stated.rstrip("\n") != item:
            raise ListError("the shard %s is another one when it is done again: %s" % (item, stated.rstrip()))
        self._report("done again: the shard %s" % item)
        return found


def open_list(
    path: str | os.PathLike[str], limits: Limits | None, report: Callable[[str], object] = lambda text: None
) -> tuple[WalkedList | ShardedList, int, Limits]:
    """A complete list, the steps of its runs, and its limits: those of a folder are in its plan. Raises ListError for
    other limits than those, OSError, FolderError."""
    if not os.path.isdir(path):
        limits = limits or Limits()
        return WalkedList(path, limits.steps), limits.steps, limits
    sharded = ShardedList(path, report)
    if limits not in (None, Limits(), sharded.plan.limits):
        sharded.close()
        raise ListError("%s was made with %s" % (os.fspath(path), words_of(sharded.plan.limits)))
    return sharded, sharded.plan.list_steps, sharded.plan.limits


def confirm_list(
    path: str | os.PathLike[str], limits: Limits | None = None, digest: str | None = None
) -> str:
    """Confirms that a file is a complete list made within these limits, or that a folder of shards is joined to one, by
    its skeleton: by the program `cover`, found in the PATH, or by the sha256 of a list or skeleton that was confirmed
    before. Returns the line of `cover`, or the digest.

    Raises ListError, OSError, FolderError; RunError if `cover` can't be run.
    """
    walked, _, known = open_list(path, limits)
    walked.close()
    if digest is not None:
        if (found := sha256_of(walked.name)) != digest.lower():
            raise ListError("%s has the sha256 %s, not %s" % (walked.name, found, digest))
        return found
    numbers = zip(Limits.RANGES, map(str, known.numbers()))
    options = [word for limit, number in numbers for word in ("--" + limit, number)]
    with open(walked.name, "rb") as file:
        blocks = iter(lambda: file.read(_BLOCK), b"")
        found = run_cover([*walked.cover_options, *options], blocks, lambda _: None).rstrip("\n")
    if not _COVERS.match(found):
        raise ListError("%s is no complete list within these limits: %s" % (walked.name, found))
    return found


def settle(
    machines: Iterable[str],
    path: str | os.PathLike[str],
    limits: Limits | None = None,
    report: Callable[[str], object] = lambda text: None,
) -> Iterator[Settled]:
    """Each machine's verdict from the complete list at a path, made with these limits (default: the program's);
    `confirm_list` confirms it. In a folder of `budlarem shards` each shard with a line is done
    again, and `report` gets a sentence that names it.

    A pair of the line is the machine's own, to the digit, but for the side of a mirrored one. A halt on `---` that the
    machine leaves undefined too is its own. Otherwise the machine is decided by itself, within the same limits. The
    checker confirms each verdict that is returned.

    Raises ListError if a line isn't found, MachineError for a text that is no machine, OSError; and as `decide` does.
    """
    walked, steps, known = open_list(path, limits, report)
    try:
        lines = lines_of(machines, steps=steps, cells=known.cells)
        while batch := [*itertools.islice(lines, walked.batch)]:
            listed, errors = list[Verdict](), list[Exception]()
            listed += catch_error(walked.find_all(line.line for line in batch), errors)
            yield from _settle(batch[: len(listed)], listed, known)
            if errors:
                raise errors[0]
    finally:
        walked.close()


def _settle(lines: list[Line], listed: list[Verdict], limits: Limits) -> Iterator[Settled]:
    """What the verdicts of some lines say of their machines."""
    implied = [*map(_implied_verdict, lines, listed)]
    others = decide([line.machine for line, own in zip(lines, implied) if own is None], limits)
    found = [next(others) if own is None else own for own in implied]
    answers = check(found, limits)
    for line, there, own, answer in zip(lines, listed, found, answers):
        # A machine that fills the last `---` has no entry that halts.
        fills_last = isinstance(there, Halt) and line.halt is not None and line.halt.entry[2] not in "-Z"
        is_never = fills_last or isinstance(there, (Cycler, Translated, Backward))
        if isinstance(own, Undecided):
            yield Settled(line, there, None, is_never or None)
        elif answer is not Answer.OK or (is_never and isinstance(own, Halt)):
            raise ListError("the line %s doesn't hold: the checker answers %s to %s" % (there, answer, own))
        else:
            yield Settled(line, there, own, not isinstance(own, Halt))


def _implied_verdict(line: Line, listed: Verdict) -> Verdict | None:
    """The machine's verdict by that of its line, if it has one without a run."""
    if isinstance(listed, (Cycler, Translated)):
        return dataclasses.replace(mirror_verdict(listed, line.is_mirrored), machine=line.machine)
    if isinstance(listed, Halt) and line.halt is not None and line.halt.entry == "---":
        return Halt(line.machine, listed.steps, listed.score)
    return None
