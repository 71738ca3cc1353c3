"""The list of a run: a stream that is cut between lines, and the check of its form, a machine a line."""

from __future__ import annotations

import collections
import errno
import functools
import gzip
import io
import os
import select
import stat
import zlib
from typing import Callable, Iterable, Iterator

from .._text import LONGEST_GIVEN, LONGEST_SHOWN, LONGEST_UNENDED, LONGEST_VALUE
from ..engine import column_of
from ..list_files import BLOCK, GZIP, BlockReader
from ..reading import Skipped
from ..reading.lines import read_line
from ..verdicts import is_machine
from .errors import FolderError, RunError

STANDARD_INPUT = "standard input"
# Seconds without a byte that count as a pause.
_PAUSE = 1.0
# The most bytes that are read at once; those of a usual line; and so few that their lines are found one by one.
_MOST_READ, _USUAL, _FEW = 1 << 21, 32, 1_024


class StreamLines:
    """The lines of a stream, to be taken some at a time. A line of more than LONGEST_GIVEN bytes is cut to so
    many, which changes no reply; a last line without a newline gets one. `read` returns about as many bytes as asked
    for, and none at the end."""

    def __init__(self, read: Callable[[int], bytes]) -> None:
        self._read, self._is_ended = read, False
        # Whole lines, from `_start` on, and the start of the next one.
        self._held, self._start, self._rest = b"", 0, b""
        self.bytes_taken, self.lines_taken = 0, 0

    @classmethod
    def of_blocks(cls, blocks: Iterable[bytes]) -> StreamLines:
        """The lines of blocks, which may end within lines."""
        rest = filter(None, blocks)
        return cls(lambda size: next(rest, b""))

    def take(self, lines: int, size: int) -> bytes:
        """The next lines: at most so many, of at most so many bytes, but one at least; none at the end."""
        # The lines in `known` bytes: at first in so many as lines usually have.
        count, known, window = 0, 0, lines * _USUAL
        while count < lines and known < size:
            end = min(len(self._held), self._start + min(size, window))
            count, known = count + self._held.count(b"\n", self._start + known, end), end - self._start
            if end < len(self._held):
                window *= 2
            elif self._is_ended or (known and known + len(self._rest) >= size):
                break
            elif count < lines:
                self._fill(size)
        held, start = self._held, self._start
        end = start + known
        if count > lines:
            end, count = _end_of(held, start, end, lines), lines
        elif start < len(held) and not count:
            end, count = held.index(b"\n", start) + 1, 1
        else:
            end = held.rfind(b"\n", start, end) + 1 or start
        self._start = end
        self.bytes_taken, self.lines_taken = self.bytes_taken + end - start, self.lines_taken + count
        return held[start:end]

    def _fill(self, size: int) -> None:
        """Reads on, if need be to the end of a line, so that about `size` bytes are held."""
        missing = size - (len(self._held) - self._start + len(self._rest))
        block = self._read(min(max(missing, LONGEST_GIVEN), _MOST_READ))
        if not block:
            self._is_ended, block = True, b"\n" if self._rest else b""
        if whole := block.rfind(b"\n") + 1:
            lines = _truncate_lines(self._rest + memoryview(block)[:whole])
            self._held, self._start = self._held[self._start :] + lines, 0
            self._rest = b""
        self._rest = (self._rest + block[whole:])[:LONGEST_GIVEN]

    def peek(self) -> bytes:
        """The next line, which isn't taken; no bytes at the end."""
        while self._start >= len(self._held) and not self._is_ended:
            self._fill(BLOCK)
        return self._held[self._start : self._held.find(b"\n", self._start) + 1]


def _end_of(held: bytes, start: int, end: int, lines: int) -> int:
    """The end of so many lines, of which there are more before `end`."""
    while end - start > _FEW:
        middle = (start + end) // 2
        if (count := held.count(b"\n", start, middle)) < lines:
            start, lines = middle, lines - count
        else:
            end = middle
    for _ in range(lines):
        start = held.index(b"\n", start) + 1
    return start


def _truncate_lines(lines: bytes) -> bytes:
    """Whole lines, each cut to LONGEST_GIVEN bytes."""
    start = 0
    while len(lines) - start > LONGEST_GIVEN:
        last = lines.rfind(b"\n", start, start + LONGEST_GIVEN + 1)
        if last < 0:
            return b"\n".join(line[:LONGEST_GIVEN] for line in lines.split(b"\n"))
        start = last + 1
    return lines


def _poll(number: int, milliseconds: float | None = None) -> bool:
    """Whether an open file has bytes or an end within this time."""
    poll = select.poll()
    poll.register(number, select.POLLIN)
    return bool(poll.poll(milliseconds))


def _read_blocking(number: int, size: int) -> bytes:
    """The next bytes of an open file, also of a non-blocking one (O_NONBLOCK); none at the end."""
    while True:
        try:
            return os.read(number, size)
        except BlockingIOError:
            _poll(number)


class ListFile:
    """A list: a file, plain or gzip, or standard input for `-`. Raises OSError."""

    def __init__(self, path: str) -> None:
        self.name = STANDARD_INPUT if path == "-" else path
        if os.path.isdir(path) and path != "-":
            raise IsADirectoryError(errno.EISDIR, "it is a folder, and a file is asked for", path)
        self._number = 0 if path == "-" else os.open(path, os.O_RDONLY | os.O_CLOEXEC)
        self._status = os.fstat(self._number)
        self.is_regular = stat.S_ISREG(self._status.st_mode)
        self._raw = BlockReader(functools.partial(_read_blocking, self._number))
        self.is_compressed = self._raw.first(len(GZIP)) == GZIP
        self._read: Callable[[int], bytes] = self._raw.block
        if self.is_compressed:
            self._read = gzip.GzipFile(fileobj=io.BufferedReader(self._raw, BLOCK)).read1
        # Blocks that are read again, and the bytes since the last newline, which may never come.
        self._again: collections.deque[bytes] = collections.deque()
        self._unended, self._may_be_endless = 0, True

    @property
    def size(self) -> int | None:
        """The bytes of the file on disk; None for anything else than a regular file."""
        return self._status.st_size if self.is_regular else None

    @property
    def id(self) -> tuple[int, int]:
        return self._status.st_dev, self._status.st_ino

    def fraction(self, taken: int) -> float | None:
        """The estimated fraction of the file that so many bytes of the list are; None if unknown."""
        if not self.size:
            return None
        read = os.lseek(self._number, 0, os.SEEK_CUR) if self.is_compressed else taken
        return min(read / self.size, 1.0)

    def first_lines(self, most: int) -> list[bytes]:
        """Its first lines, which are read again. None if it pauses before so many came."""
        held: list[bytes] = []
        count, size, is_paused = 0, 0, False
        while count < most and size < most * LONGEST_GIVEN and not is_paused:
            if not (block := self.read(BLOCK)):
                break
            held.append(block)
            count, size = count + block.count(b"\n"), size + len(block)
            is_paused = count < most and not self._raw.held and not _poll(self._number, 1_000 * _PAUSE)
        self._again.extend(held)
        lines = [] if is_paused else b"".join(held).split(b"\n")
        return [line[:LONGEST_GIVEN] for line in (lines if lines and lines[-1] else lines[:-1])[:most]]

    def lines(self) -> StreamLines:
        """Its lines, of any length in a plain file. Taking them raises RunError."""
        self._may_be_endless = self.is_compressed or not self.is_regular
        return StreamLines(self.read)

    def blocks(self) -> Iterator[bytes]:
        """Its bytes, uncompressed. Raises RunError."""
        return iter(lambda: self.read(BLOCK), b"")

    def read(self, size: int) -> bytes:
        """The next bytes, uncompressed, about as many as asked for; none at the end. Raises RunError if it can't be
        read or has changed, also for a line that never ends."""
        if self._again:
            return self._again.popleft()
        try:
            block = self._read(size)
        except (OSError, EOFError, zlib.error) as error:
            kind = "as gzip" if self.is_compressed else "to its end"
            raise RunError("%s can't be read %s: %s" % (self.name, kind, error)) from error
        self._unended = self._unended + len(block) if block.rfind(b"\n") < 0 else 0
        if self._may_be_endless and self._unended > LONGEST_UNENDED:
            text = f"has a line of more than {LONGEST_UNENDED:,} bytes and no newline"
            raise RunError(f"{self.name} {text}; a list has a machine a line")
        if not block:
            self.require_unchanged()
        return block

    def require_unchanged(self) -> None:
        """Raises RunError if the file has changed since it was opened."""
        now, then = os.fstat(self._number), self._status
        if self.is_regular and (now.st_size, now.st_mtime_ns) != (then.st_size, then.st_mtime_ns):
            sizes = f"from {then.st_size} to {now.st_size} bytes"
            how = "run again with the list as it was, or with another folder"
            raise RunError(f"{self.name} changed while it was read ({sizes}); {how}")

    def close(self) -> None:
        if self._number:
            os.close(self._number)


# The lines that are examined before anything is decided.
SAMPLE_LINES = 1_000


def require_form(source: ListFile) -> None:
    """Raises FolderError if most of the first lines would be refused, RunError for an unreadable list."""
    lines = [line.decode("utf-8", "surrogateescape") for line in source.first_lines(SAMPLE_LINES)]
    refused = [(number, line) for number, line in enumerate(lines, 1) if not is_machine(line)]
    if 2 * len(refused) > len(lines):
        number, text = refused[0]
        count = f"{len(refused)} of the first {len(lines)} lines of {source.name} would be refused"
        line = "line %d: %.*r: %s" % (number, LONGEST_SHOWN, text, refusal_reason(number, text))
        advice = "`budlarem read LIST` writes the machines of a list in other forms"
        raise FolderError(f"{count}, so nothing was decided; {line}. {advice}")


def refusal_reason(number: int, line: str) -> str:
    reading = read_line(number, line)
    if isinstance(reading, Skipped):
        return "it has no machine"
    if reading.reason is not None:
        return str(reading.reason)
    if reading.rewritten:
        why = "it has to be rewritten: " + "; ".join(kind.sentence for kind in reading.rewritten)
    elif reading.fields:
        why = "it has more than the machine, %.*r" % (LONGEST_VALUE, reading.fields)
    elif line.endswith("\r"):
        why = "it has more than the machine, a carriage return at its end"
    elif line.startswith("\ufeff"):
        why = "it has more than the machine, a byte order mark at its start"
    else:
        why = "it has more than the machine, spaces or signs around it"
    return "bb refuses it at column %s, since %s" % (column_of(line), why)
