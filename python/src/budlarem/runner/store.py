"""Sealed files: the configuration of a folder, and the results of its tasks, each in a file of its own.

A sealed file begins with its fields, one a line, as JSON: first the format and the length of this text, last a
seal, the hash of all text before it. A result has its content behind them. Its fields have the task, its
origin (limits, library, programs), and size and CRC-32 of the content. It is written whole, synced, and linked
into place through the handle of its folder.
"""

from __future__ import annotations

import contextlib
import dataclasses
import errno
import fcntl
import hashlib
import json
import os
import re
from typing import Any, Iterator, Mapping

from .._files import PART, Checksum, Directory, id_of, name_errors, write_atomically

FORMAT = 4
# How a sealed text begins in each version, and in this one, up to its length.
BEGIN = '{\n  "format": '
_HEAD = BEGIN + '%d,\n  "bytes": "' % FORMAT
_DIGITS = 8
_SEAL = ',\n  "seal": "%s"\n}\n'
_SEAL_SIZE = len(_SEAL) - 2 + 64
# The fields of a result mostly take fewer bytes.
_MOST_FIELDS = 1 << 11
LOCK = ".lock"
_PART = re.compile(r"(.+?)(?:[.][0-9]+)?" + re.escape(PART))
# Errors of file systems without locks of directories: NFS wants a locked file to be open for writing.
_NO_LOCKS = (errno.EBADF, errno.EINVAL, errno.EISDIR, errno.ENOLCK, errno.ENOSYS, errno.EOPNOTSUPP)


class SealError(ValueError):
    """A sealed text or a result can't be used. The text says why."""


class OriginError(SealError):
    """A result is whole and has another origin. The text names it."""


def hash_of(data: bytes) -> str:
    """The BLAKE2b hash of some bytes, in 64 hexadecimal digits."""
    return hashlib.blake2b(data, digest_size=32).hexdigest()


def seal(fields: Mapping[str, Any]) -> str:
    """The sealed text of some fields, in ASCII. Their names aren't format, bytes or seal."""
    assert not {"format", "bytes", "seal"} & fields.keys()
    lines = (",\n  %s: %s" % (json.dumps(name), json.dumps(value)) for name, value in fields.items())
    body = '"' + "".join(lines)
    text = "%s%0*d%s" % (_HEAD, _DIGITS, len(_HEAD) + _DIGITS + len(body) + _SEAL_SIZE, body)
    return text + _SEAL % hash_of(text.encode())


def unseal(text: str) -> dict[str, Any] | None:
    """The fields of a sealed text; None if it is cut. Raises SealError if it was changed otherwise."""
    if _is_truncated(text):
        return None
    fields: Any = None
    with contextlib.suppress(ValueError, RecursionError):
        fields = json.loads(text)
    if text[-_SEAL_SIZE:] == _SEAL % hash_of(text[:-_SEAL_SIZE].encode("utf-8", "replace")):
        if text.startswith(_HEAD) and fields.pop("bytes") == "%0*d" % (_DIGITS, len(text)):
            return {name: value for name, value in fields.items() if name not in ("format", "seal")}
    other = fields.get("format", FORMAT) if isinstance(fields, dict) else FORMAT
    if other != FORMAT:
        text = "it has format %.20s, which another version of this package writes; finish it by that version"
        raise SealError((text + ", or choose another folder") % other)
    raise SealError("it was changed: its seal doesn't fit; restore or remove it")


def _is_truncated(text: str) -> bool:
    """Whether a text is the start of a sealed one, and no more."""
    size = text[len(_HEAD) : len(_HEAD) + _DIGITS]
    if len(text) < len(_HEAD) + _DIGITS:
        return _HEAD.startswith(text[: len(_HEAD)]) and (not size or size.isdecimal())
    is_short = text.startswith(_HEAD) and size.isdecimal() and len(text) < int(size)
    return is_short and not text.endswith('"\n}\n')


def read_sealed(directory: Directory, name: str) -> dict[str, Any] | None:
    """The fields of a sealed file; None if it is missing or cut. Raises SealError, OSError."""
    try:
        number = directory.open_file(name, os.O_RDONLY)
    except FileNotFoundError:
        return None
    with open(number, encoding="latin-1", newline="") as file:
        return unseal(file.read())


def part_of(name: str) -> str | None:
    """The name of the whole file for the name of a part; None for another name."""
    found = _PART.fullmatch(name)
    return None if found is None else found[1]


def begins_sealed(directory: Directory, name: str) -> bool:
    """Whether a name leads to a file that begins as a sealed one, or has fewer bytes than that."""
    with open(directory.open_file(name, os.O_RDONLY), "rb") as file:
        found = file.read(len(BEGIN)).decode("latin-1")
    return BEGIN.startswith(found)


@contextlib.contextmanager
def locked_folder(top: Directory, name: str, waits: bool = True) -> Iterator[int | None]:
    """Has the lock of a directory meanwhile; if the file system locks none, that of the file `name` in it, which is
    yielded. Raises BlockingIOError if another process has the lock, and this one doesn't wait; OSError."""
    number, how = None, fcntl.LOCK_EX | (0 if waits else fcntl.LOCK_NB)
    try:
        fcntl.flock(top.handle, how)
    except OSError as error:
        if error.errno not in _NO_LOCKS:
            raise
        number = top.open_or_create(name)
    try:
        if number is not None:
            fcntl.flock(number, how)
        yield number
    finally:
        if number is None:
            fcntl.flock(top.handle, fcntl.LOCK_UN)
        else:
            os.close(number)


@dataclasses.dataclass(frozen=True)
class Result:
    """The fields of a result but those of its store, and its content."""

    fields: dict[str, Any]
    content: bytes


class Store:
    """The results in a folder, each named by its task. `origin` has the limits, library and so on, by name."""

    def __init__(self, folder: Directory, origin: Mapping[str, Any]) -> None:
        self.folder, self.origin = folder, dict(origin)
        self._is_synced = True

    def close(self) -> None:
        self.folder.close()

    def read(self, task: str) -> Result | None:
        """The result of a task; None if there is none. Raises SealError, OSError."""
        return self._read(task, has_content=True)

    def read_fields(self, task: str) -> dict[str, Any] | None:
        """The fields of a result; None if there is none. Its content isn't read. Raises SealError, OSError."""
        result = self._read(task, has_content=False)
        return None if result is None else result.fields

    def _read(self, task: str, has_content: bool) -> Result | None:
        try:
            number = self.folder.open_file(task, os.O_RDONLY)
        except FileNotFoundError:
            return None
        with open(number, "rb", buffering=0) as file, name_errors(self.folder.at(task)):
            start = file.read(_MOST_FIELDS) or b""
            digits = start[len(_HEAD) : len(_HEAD) + _DIGITS]
            end = int(digits) if digits.isdigit() else len(start)
            if end > len(start):
                start += os.pread(number, end - len(start), len(start))
            fields = self._unseal(task, start[:end])
            checksum, size = Checksum.of_fields(fields["content"]), os.fstat(number).st_size
            content = os.pread(number, checksum.size, end) if has_content else b""
        if end + checksum.size != size or (has_content and Checksum().add_bytes(content) != checksum):
            raise SealError("it was cut or changed: its content doesn't fit its seal")
        return Result(fields, content)

    def _unseal(self, task: str, data: bytes) -> dict[str, Any]:
        """The fields of a result of this store. Raises SealError."""
        fields = unseal(data.decode("latin-1"))
        if fields is None:
            raise SealError("it was cut")
        if fields.pop("task") != task:
            raise SealError("it is the result of another task")
        origin = fields.pop("of")
        for name in {**origin, **self.origin}:
            if origin.get(name) != self.origin.get(name):
                words = (name, origin.get(name, "none"), self.origin.get(name, "none"))
                raise OriginError("its %s is %s, and here it is %s" % words)
        return fields

    def write(self, task: str, fields: Mapping[str, Any], content: bytes, replaces: bool = False) -> Checksum:
        """Writes a result, and returns the content's checksum; `sync` makes its name durable. Raises TakenError
        if there is one and it isn't to be replaced, OSError."""
        checksum = Checksum().add_bytes(content)
        header = seal({"task": task, "of": self.origin, **fields, "content": checksum.fields()})
        over = self.folder.id_at(task) if replaces else None
        os.close(write_atomically(self.folder, task, [header.encode(), content], over, syncs=False))
        self._is_synced = False
        return checksum

    def sync(self) -> None:
        """Returns once the names of all results are on the disk."""
        if not self._is_synced:
            self._is_synced = True
            self.folder.sync()

    def remove_leftovers(self) -> None:
        """Removes leftovers of ended processes: locks, and parts that begin as results. Raises OSError."""
        for name in self.folder.names():
            if name.endswith(LOCK):
                with self.claim(name[: -len(LOCK)], waits=False):
                    pass
            elif part_of(name) is not None and begins_sealed(self.folder, name):
                self.folder.remove(name)

    @contextlib.contextmanager
    def claim(self, task: str, waits: bool = True) -> Iterator[bool]:
        """Has the lock of a task, and waits for it; or not, and yields whether it was free. Raises OSError."""
        name, how = task + LOCK, fcntl.LOCK_EX | (0 if waits else fcntl.LOCK_NB)
        number = self.folder.open_or_create(name)
        try:
            fcntl.flock(number, how)
            # Another process may have removed it at its end.
            while self.folder.id_at(name) != id_of(os.fstat(number)):
                os.close(number)
                number = self.folder.open_or_create(name)
                fcntl.flock(number, how)
        except BlockingIOError:
            os.close(number)
            yield False
            return
        try:
            yield True
        finally:
            with contextlib.suppress(OSError):
                if os.fstat(number).st_size == 0:
                    self.folder.remove(name)
            os.close(number)
