"""The lines of a list: a path, a file of bytes, or an iterable of lines. Other encodings and formats than UTF-8
text are detected by their first bytes."""

from __future__ import annotations

import contextlib
import gzip
import io
import os
import zlib
from typing import Any, BinaryIO, Callable, Iterable, Iterator, Union

from ._calls import item_error
from ._text import BYTES_KEPT, LONGEST_UNENDED

# The first bytes of encodings and formats. UTF-32 comes before UTF-16, whose mark is a prefix of its own.
_MARKS = (
    (b"\xff\xfe\x00\x00", "UTF-32 text"),
    (b"\x00\x00\xfe\xff", "UTF-32 text"),
    (b"\xff\xfe", "UTF-16 text"),
    (b"\xfe\xff", "UTF-16 text"),
    (b"\xfd7zXZ\x00", "compressed by xz"),
    (b"BZh", "compressed by bzip2"),
    (b"\x28\xb5\x2f\xfd", "compressed by zstd"),
    (b"PK\x03\x04", "a ZIP archive"),
    (b"7z\xbc\xaf\x27\x1c", "a 7z archive"),
    (b"%PDF-", "a PDF document"),
    (b"\x89PNG", "a PNG picture"),
)
# The bytes that are examined for zeros.
_EXAMINED = 256


class EncodingError(ValueError):
    """A list isn't UTF-8 text. `encoding` names its encoding or format."""

    def __init__(self, name: object, encoding: str) -> None:
        advice = "give the text of the list; gzip alone is unpacked"
        if encoding.endswith(" text"):
            advice = "convert it by iconv -f %s -t UTF-8" % encoding.partition(" ")[0]
        super().__init__("%s is %s: %s" % (name, encoding, advice))
        self.encoding = encoding


class EndlessLineError(ValueError):
    """A line of a list has more than LONGEST_UNENDED bytes. `number` is its number, from 1 on."""

    def __init__(self, name: object, number: int) -> None:
        what = f"line {number:,} has more than {LONGEST_UNENDED:,} bytes and no newline"
        super().__init__(f"{name}: {what}; a list has a machine or a verdict a line")
        self.number = number


def find_encoding(start: bytes) -> str | None:
    """The encoding or format of a file by its first bytes; None if it may be UTF-8."""
    for mark, name in _MARKS:
        if start.startswith(mark):
            return name
    start = start[:_EXAMINED]
    others = [byte != 0 for byte in start]
    # Zeros alone are no text of any encoding.
    if len(start) < 4 or sum(others) * 3 > 2 * len(start) or not any(others):
        return None
    # In wide text nearly all other bytes are the same ones of each character.
    for width, name in ((4, "UTF-32 text"), (2, "UTF-16 text")):
        if (sum(others) - max(sum(others[at::width]) for at in range(width))) * 16 <= len(start):
            return name
    return "no text"


GZIP = b"\x1f\x8b"
BLOCK = 1 << 19
_EMPTY = frozenset((b"", b"\r"))
# A line's number, from 1 on, and its text.
Numbered = tuple[int, str]
Source = Union[str, "os.PathLike[str]", BinaryIO, Iterable[str], Iterable[bytes]]


class BlockReader(io.RawIOBase):
    """A file over `more`, which returns about as many bytes as asked for. `held` are read before them."""

    def __init__(self, more: Callable[[int], bytes]) -> None:
        self._more, self.held = more, b""

    def readable(self) -> bool:
        return True

    def first(self, size: int) -> bytes:
        """The first bytes, fewer only at the end. They are read again."""
        while len(self.held) < size and (block := self._more(size - len(self.held))):
            self.held += block
        return self.held[:size]

    def block(self, size: int) -> bytes:
        """The next bytes, about as many as asked for; none at the end."""
        block, self.held = self.held or self._more(size), b""
        return block

    def readinto(self, buffer: Any) -> int:
        block = self.block(len(buffer))
        count = min(len(buffer), len(block))
        buffer[:count], self.held = block[:count], block[count:]
        return count


class Lines(Iterable[Numbered]):
    """The lines of a list that aren't empty, as texts without newlines, numbered from 1 on. `empty` counts the
    others so far, `non_utf8_lines` those that aren't UTF-8.

    Raises OSError if a path can't be opened or read, EncodingError for UTF-16 and formats that are no text,
    EndlessLineError, TypeError if the source is no list, ValueError if it is the text of one.
    """

    def __init__(self, source: Source) -> None:
        if isinstance(source, (bytes, bytearray, memoryview)):
            raise TypeError("a list's bytes are given as io.BytesIO(..), and a path as a str")
        if isinstance(source, str) and "\n" in source:
            raise ValueError("a str is a path; the lines of a text are given as text.splitlines()")
        self.empty, self.non_utf8_lines = 0, 0
        is_file = isinstance(source, (str, os.PathLike)) or hasattr(source, "read")
        if not is_file or isinstance(source, io.TextIOBase):
            self._lines = self._of_items(iter(source))  # type: ignore[arg-type]
        else:
            self._lines = self._of_file(BytesFile(source))

    def __iter__(self) -> Iterator[Numbered]:
        return self._lines

    def _of_items(self, items: Iterator[Any]) -> Iterator[Numbered]:
        for place, item in enumerate(items):
            if isinstance(item, bytes):
                item = item.decode("utf-8", "surrogateescape")
            line = item[:-1] if isinstance(item, str) and item.endswith("\n") else item
            if not isinstance(line, str) or "\n" in line:
                raise item_error("lines", place, item)
            if line in ("", "\r"):
                self.empty += 1
            else:
                yield place + 1, line

    def _of_file(self, file: BytesFile) -> Iterator[Numbered]:
        with contextlib.closing(file):
            for number, line in self._split_lines(file):
                text = line.decode("utf-8", "surrogateescape")
                if not text.isascii() and any("\udc80" <= character <= "\udcff" for character in text):
                    self.non_utf8_lines += 1
                yield number, text

    def _split_lines(self, file: BytesFile) -> Iterator[tuple[int, bytes]]:
        """The lines of a file, each cut to BYTES_KEPT bytes. Raises EncodingError, EndlessLineError."""
        number, rest = 1, b""
        block = file.first(4)
        if (encoding := find_encoding(block)) is not None:
            raise EncodingError(file.name, encoding)
        while block:
            if not rest and not block.strip(b"\n"):
                self.empty += len(block)
                number += len(block)
                block = file.read1(BLOCK)
                continue
            lines = (rest + block).split(b"\n")
            rest = lines.pop()[:BYTES_KEPT]
            for at, line in enumerate(lines, number):
                if line not in _EMPTY:
                    yield at, line[:BYTES_KEPT]
            self.empty += lines.count(b"") + lines.count(b"\r")
            number += len(lines)
            block = file.read1(BLOCK)
        if rest:
            yield number, rest


class BytesFile:
    """A path or a file of bytes, uncompressed if it is a gzip. Raises OSError."""

    def __init__(self, source: Any) -> None:
        self._is_ours = isinstance(source, (str, os.PathLike))
        if self._is_ours:
            self.name, raw = os.fspath(source), io.FileIO(source)
        else:
            name = getattr(source, "name", "the file")
            self.name = "standard input" if name in ("<stdin>", 0) else name
            raw = BlockReader(getattr(source, "read1", None) or source.read)  # type: ignore[assignment]
        self._file: Any = io.BufferedReader(raw, BLOCK)
        self._opened: Any = None
        # The newlines that were read, and the bytes since the last one.
        self._newlines, self._unended = 0, 0

    def _reader(self) -> Any:
        """The uncompressed file, opened when bytes are asked for, since a pipe may wait."""
        if self._opened is None:
            is_compressed = self._file.peek(2)[:2] == GZIP
            unpacked: Any = gzip.GzipFile(fileobj=self._file) if is_compressed else None
            self._opened = io.BufferedReader(unpacked, BLOCK) if is_compressed else self._file
        return self._opened

    def read(self, size: int = -1) -> bytes:
        """The next bytes, fewer only at the end. Raises EndlessLineError."""
        return self._next(lambda file: file.read(size))

    def read1(self, size: int) -> bytes:
        """The next bytes, at most `size`, once there are some; none at the end. Raises EndlessLineError."""
        return self._next(lambda file: file.read1(size))

    def first(self, size: int) -> bytes:
        """The first bytes: `size` or more, fewer only at the end."""
        block = self.read1(BLOCK)
        while 0 < len(block) < size and (more := self.read1(BLOCK)):
            block += more
        return block

    def _next(self, read: Callable[[Any], Any]) -> bytes:
        """The next bytes. Raises OSError for a gzip that is cut or changed, EndlessLineError."""
        try:
            block: bytes = read(self._reader())
        except (EOFError, zlib.error, gzip.BadGzipFile) as error:
            raise OSError("%s can't be read as gzip: %s" % (self.name, error)) from None
        last = block.rfind(b"\n")
        self._newlines += block.count(b"\n")
        self._unended = self._unended + len(block) if last < 0 else len(block) - last - 1
        if self._unended > LONGEST_UNENDED:
            raise EndlessLineError(self.name, self._newlines + 1)
        return block

    def close(self) -> None:
        if self._is_ours:
            self._file.close()
