"""The chunks of a pass, each a result in the pass's folder, named by its first and last line."""

from __future__ import annotations

import bisect
import collections
import contextlib
import dataclasses
import os
import re
from typing import Any, Iterator, Mapping, Sequence

from .._calls import BatchPace, map_in_order
from .._files import Checksum, Directory
from .._library import validate_replies
from ..counts import KINDS, UNDECIDED, undecided_spans
from ..limits import Limits
from .chunks import Counts
from .errors import RunError
from .input import StreamLines
from .store import SealError, Store, hash_of

PASS_PREFIX = "pass-"
CHUNK = re.compile("([1-9][0-9]{0,14})-([1-9][0-9]{0,14})")
# Threads for reading and verifying chunks ahead.
_READERS = 4


def pass_name(number: int) -> str:
    return "%s%d" % (PASS_PREFIX, number)


def chunk_name(first: int, lines: int) -> str:
    """The name of the chunk of so many lines behind `first` others."""
    return "%d-%d" % (first + 1, first + lines)


@dataclasses.dataclass(frozen=True)
class Record:
    """The fields of a chunk's result: `lines` behind `first` others of the pass, the hash of these lines if verdicts
    were dropped, the milliseconds of deciding them, whether the checker confirmed them, and the count of each kind.
    `content` is the checksum of the kept verdict lines."""

    first: int
    lines: int
    given: str
    milliseconds: int
    is_checked: bool
    counts: Counts
    content: Checksum = Checksum()

    @classmethod
    def of_fields(cls, name: str, fields: Mapping[str, Any]) -> Record:
        """The record of a sealed result with this name."""
        found = CHUNK.fullmatch(name)
        assert found is not None
        first, last = int(found[1]) - 1, int(found[2])
        counts = {kind: int(fields["counts"][kind]) for kind in KINDS}
        took, content = int(fields["milliseconds"]), Checksum.of_fields(fields["content"])
        return cls(first, last - first, str(fields["given"]), took, bool(fields["checked"]), counts, content)

    @property
    def name(self) -> str:
        return chunk_name(self.first, self.lines)

    def fields(self) -> dict[str, Any]:
        """The fields; the store adds those of the content."""
        took, is_checked = self.milliseconds, self.is_checked
        return {"given": self.given, "counts": self.counts, "milliseconds": took, "checked": is_checked}

    def fits(self, given: bytes, content: bytes) -> bool:
        """Whether the chunk is of these lines, by their hash or their verdicts."""
        return self.given == hash_of(given) if self.given else validate_replies(given, content).fits


@dataclasses.dataclass
class PassResult:
    """The result of a pass. `checksum` covers the output of its chunks in the list's order."""

    limits: Limits
    lines: int = 0
    chunks: int = 0
    milliseconds: int = 0
    is_checked: bool = True
    checksum: Checksum = Checksum()
    counts: collections.Counter[str] = dataclasses.field(default_factory=collections.Counter)

    @classmethod
    def of_fields(cls, fields: Mapping[str, Any]) -> PassResult:
        """The result with these `fields`, but for its times."""
        found = cls(Limits(**fields["limits"]), int(fields["lines"]), is_checked=bool(fields["checked"]))
        found.counts.update(fields["counts"])
        return found

    def add(self, record: Record) -> None:
        self.lines += record.lines
        self.chunks += 1
        self.milliseconds += record.milliseconds
        self.is_checked = self.is_checked and record.is_checked
        self.counts.update(record.counts)

    def fields(self) -> dict[str, Any]:
        return {
            "limits": dataclasses.asdict(self.limits),
            "lines": self.lines,
            "counts": {kind: self.counts[kind] for kind in KINDS},
            "chunks": self.chunks,
            "verdicts": self.checksum.fields(),
            "checked": self.is_checked,
            "work_seconds": self.milliseconds / 1_000,
        }


@dataclasses.dataclass(frozen=True)
class Outcome:
    """The lines of a list, and the count of each kind."""

    lines: int
    counts: collections.Counter[str]

    @classmethod
    def of(cls, results: Sequence[PassResult]) -> Outcome:
        counts: collections.Counter[str] = collections.Counter()
        for result in results:
            for kind in UNDECIDED:
                counts[kind] = 0
            counts.update(result.counts)
        return cls(results[0].lines, counts)

    def __str__(self) -> str:
        undecided, refused = sum(self.counts[kind] for kind in UNDECIDED), self.counts["refused"]
        decided = self.lines - undecided - refused
        return f"{self.lines:,} lines: {decided:,} decided, {undecided:,} undecided, {refused:,} refused"


class PassFolder:
    """The folder of a pass in the folder of a run. `origin` is that of its chunks."""

    def __init__(self, top: Directory, number: int, origin: Mapping[str, Any]) -> None:
        self.number = number
        self._top, self._inside = top, top.subdirectory(pass_name(number))
        self.path, self.store = self._inside.path, Store(self._inside, origin)
        self._names = set(self._inside.names())
        # The last line of each stored chunk, by the number of lines before it; these in order.
        self._lasts: dict[int, int] = {}
        for found in filter(None, map(CHUNK.fullmatch, self._names)):
            first, last = int(found[1]) - 1, int(found[2])
            if first < last:
                self._lasts[first] = max(last, self._lasts.get(first, 0))
        self._firsts = sorted(self._lasts)
        # The lines and checksum of each whole chunk, by the lines before it.
        self._whole: dict[int, tuple[int, Checksum]] = {}

    def close(self) -> None:
        self.store.close()

    def require_name(self) -> None:
        """Raises MovedError if the run's folder or this one was moved, removed or replaced."""
        self._top.require_name()
        self._inside.require_name()

    def count_lines(self, first: int) -> int:
        """The lines of the stored chunk behind so many lines, also of an invalid one; 0 without one."""
        return self._lasts.get(first, first) - first

    def lines_free(self, first: int) -> int | None:
        """The lines from there to the next stored chunk; None without one."""
        place = bisect.bisect_right(self._firsts, first)
        return self._firsts[place] - first if place < len(self._firsts) else None

    def find_chunk(self, first: int) -> Record | None:
        """A valid chunk from there on; None without one."""
        for known in self._firsts[bisect.bisect_left(self._firsts, first) :]:
            with contextlib.suppress(SealError):
                if (found := self.read(known)) is not None:
                    return found[0]
        return None

    def name_of(self, first: int) -> str:
        """The name of the stored chunk behind so many lines."""
        return chunk_name(first, self.count_lines(first))

    def remove_stale(self) -> None:
        """Removes chunks of another list or run, once those of the pass are stored. Raises OSError."""
        names = {chunk_name(first, lines) for first, (lines, _) in self._whole.items()}
        for name in self._inside.names():
            if CHUNK.fullmatch(name) and name not in names:
                self._inside.remove(name)

    def read(self, first: int) -> tuple[Record, bytes] | None:
        """A stored chunk and its output; None without one. Raises SealError."""
        name = self.name_of(first)
        result = self.store.read(name)
        return None if result is None else (Record.of_fields(name, result.fields), result.content)

    def write(self, record: Record, kept: bytes) -> Record:
        """Stores a chunk, in place of one with the same lines that was there; returns its record. Raises TakenError,
        OSError."""
        content = self.store.write(record.name, record.fields(), kept, record.name in self._names)
        return dataclasses.replace(record, content=content)

    def add(self, record: Record) -> None:
        """Notes that a chunk is whole."""
        self._whole[record.first] = record.lines, record.content

    def checksum(self) -> Checksum:
        """The checksum of all output in the list's order."""
        total = Checksum()
        for first in sorted(self._whole):
            total = total.add(self._whole[first][1])
        return total

    def read_chunks(self) -> Iterator[tuple[int, bytes]]:
        """The output of each chunk, with the number of lines before it. Raises RunError for a changed one."""
        return map_in_order(self._read_whole, sorted(self._whole), _READERS, BatchPace(1))

    def _read_whole(self, first: int) -> bytes:
        lines, checksum = self._whole[first]
        name = chunk_name(first, lines)
        try:
            if (result := self.store.read(name)) is not None:
                if Checksum.of_fields(result.fields["content"]) == checksum:
                    return result.content
        except SealError:
            pass
        why = "was cut or changed since it was stored; run again to decide it again"
        raise RunError(f"{os.path.join(self.path, name)} {why}")


def holdouts_of(folder: PassFolder) -> Iterator[bytes]:
    """The undecided machines of a pass in order, in blocks of lines. Raises RunError, OSError."""
    for _, verdicts in folder.read_chunks():
        spans = undecided_spans(verdicts)
        if holdouts := b"".join(verdicts[start:place] + b"\n" for start, place, _ in spans):
            yield holdouts


def merge_passes(passes: Sequence[PassFolder]) -> Iterator[bytes]:
    """The verdict lines of all passes: the line of the next pass on the same machine replaces each undecided
    line, which is dropped if that one isn't kept. A machine has one verdict wherever it stands in a list. Raises
    RunError, OSError."""
    lines = StreamLines.of_blocks(merge_passes(passes[1:]) if len(passes) > 1 else ())
    for _, verdicts in passes[0].read_chunks():
        parts, done = [b""], 0
        for start, place, end in undecided_spans(verdicts) if len(passes) > 1 else ():
            parts.append(verdicts[done:start])
            if lines.peek().startswith(verdicts[start : place + 1]):
                parts.append(lines.take(1, 1))
            done = end
        yield b"".join(parts) + verdicts[done:]


def list_line_number(before: Sequence[PassFolder], line: int) -> int:
    """The number in the list, from 1 on, of the line with index `line` in the pass after `before`."""
    for folder in reversed(before):
        # The line is the undecided one with this index in the pass before.
        for first, verdicts in folder.read_chunks():
            starts = [start for start, _, _ in undecided_spans(verdicts)]
            if line < len(starts):
                line = first + verdicts.count(b"\n", 0, starts[line])
                break
            line -= len(starts)
    return line + 1
