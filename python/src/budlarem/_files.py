"""Atomic writes through the handles of directories, and checksums.

A path may lead elsewhere from one moment to the next: a folder is moved or removed, a link is changed. A handle
stays with the directory that was opened.
"""

from __future__ import annotations

import contextlib
import dataclasses
import errno
import functools
import json
import math
import os
import stat
import zlib
from typing import Any, Iterable, Iterator, Mapping

from .runner.errors import MovedError, TakenError


PART = ".part"
# The numbers of a file's device and inode.
FileId = tuple[int, int]
_OPEN = os.O_NOFOLLOW | os.O_NONBLOCK | os.O_CLOEXEC
_OPEN_DIRECTORY = os.O_RDONLY | os.O_DIRECTORY | os.O_CLOEXEC
# Errors of file systems without hard links.
_NO_LINKS = (errno.EPERM, errno.EOPNOTSUPP, errno.ENOSYS)
_KINDS = {stat.S_IFLNK: "a link", stat.S_IFDIR: "a folder", stat.S_IFIFO: "a pipe", stat.S_IFSOCK: "a socket"}


class KindError(OSError):
    """A name leads to something else than a regular file or a folder. The text says to what."""


def id_of(status: os.stat_result) -> FileId:
    return status.st_dev, status.st_ino


def kind_of(status: os.stat_result) -> str:
    """The kind of a file that isn't regular, in words."""
    return _KINDS.get(stat.S_IFMT(status.st_mode), "a device")


@contextlib.contextmanager
def name_errors(path: str | os.PathLike[str], replaces: bool = False) -> Iterator[None]:
    """Adds a path to errors without one, as of a full disk; `replaces`: also in place of the last name."""
    try:
        yield
    except OSError as error:
        names_file = isinstance(error, KindError) or (error.filename is not None and not replaces)
        if names_file or error.errno is None:
            raise
        raise OSError(error.errno, error.strerror, os.fspath(path)) from None


_name_path = functools.partial(name_errors, replaces=True)


def hash_blocks(blocks: Iterable[bytes], digest: Any) -> Iterator[bytes]:
    """Blocks, of which a digest of hashlib is updated."""
    for block in blocks:
        digest.update(block)
        yield block


class Directory:
    """An open directory; `path` is the path by which it was opened. Links in it are never followed. Methods
    raise OSError with the whole path, KindError for a file of another kind."""

    def __init__(self, path: str, handle: int) -> None:
        self.path, self.handle = path, handle

    @classmethod
    def open(cls, path: str) -> Directory:
        """The directory of a path, also through links. Raises OSError."""
        return cls(path, os.open(path, _OPEN_DIRECTORY))

    def close(self) -> None:
        os.close(self.handle)

    def at(self, name: str) -> str:
        """The path of a file in it, for messages."""
        return os.path.join(self.path, name)

    def names(self) -> list[str]:
        with _name_path(self.path):
            return sorted(os.listdir(self.handle))

    def require_name(self) -> None:
        """Raises MovedError unless its path still leads to it."""
        with contextlib.suppress(FileNotFoundError, NotADirectoryError):
            if id_of(os.stat(self.path)) == id_of(os.fstat(self.handle)):
                return
        why = "that one was moved, removed or replaced, and nothing is written elsewhere"
        how = "put it back and run the same command to resume"
        raise MovedError(f"{self.path} isn't the folder that was opened any more: {why}; {how}")

    def status(self, name: str) -> os.stat_result | None:
        """The status of a name itself; None if it is missing."""
        with _name_path(self.at(name)):
            try:
                return os.stat(name, dir_fd=self.handle, follow_symlinks=False)
            except FileNotFoundError:
                return None

    def id_at(self, name: str) -> FileId | None:
        status = self.status(name)
        return None if status is None else id_of(status)

    def pin(self, name: str) -> int | None:
        """The file with a name, opened so that no other file gets its numbers meanwhile; None if it is missing."""
        with _name_path(self.at(name)), contextlib.suppress(FileNotFoundError):
            return os.open(name, os.O_PATH | os.O_NOFOLLOW | os.O_CLOEXEC, dir_fd=self.handle)
        return None

    def open_file(self, name: str, flags: int) -> int:
        """Opens a file. Raises FileNotFoundError."""
        with _name_path(self.at(name)):
            try:
                number = os.open(name, flags | _OPEN, dir_fd=self.handle)
            except OSError:
                self.require_kind(self.status(name), name, stat.S_IFREG)
                raise
        try:
            self.require_kind(os.fstat(number), name, stat.S_IFREG)
        except KindError:
            os.close(number)
            raise
        return number

    def require_kind(self, status: os.stat_result | None, name: str, kind: int) -> None:
        """Raises KindError for the status of another kind."""
        if status is not None and stat.S_IFMT(status.st_mode) != kind:
            wanted = "a folder" if kind == stat.S_IFDIR else "a file"
            what = "it is %s, and %s is asked for" % (kind_of(status), wanted)
            code = errno.ENOTDIR if kind == stat.S_IFDIR else errno.EINVAL
            raise KindError(code, what, self.at(name))

    def create_file(self, name: str) -> int:
        """Creates a file, open for reading and writing. Raises FileExistsError."""
        with _name_path(self.at(name)):
            return os.open(name, os.O_RDWR | os.O_CREAT | os.O_EXCL | _OPEN, 0o666, dir_fd=self.handle)

    def open_or_create(self, name: str) -> int:
        """Opens a file for reading and writing, and creates a missing one."""
        while True:
            with contextlib.suppress(FileNotFoundError):
                return self.open_file(name, os.O_RDWR)
            with contextlib.suppress(FileExistsError):
                return self.create_file(name)

    def create_part(self, name: str) -> tuple[int, str]:
        """Creates the first free file of `name.part`, `name.2.part` and so on. Returns it, and its name."""
        part, count = name + PART, 1
        while True:
            try:
                return self.create_file(part), part
            except FileExistsError:
                count += 1
                part = "%s.%d%s" % (name, count, PART)

    def subdirectory(self, name: str) -> Directory:
        """A directory in it, created if missing. Raises KindError for a link to one."""
        with _name_path(self.at(name)):
            with contextlib.suppress(FileExistsError):
                os.mkdir(name, dir_fd=self.handle)
            try:
                handle = os.open(name, _OPEN_DIRECTORY | os.O_NOFOLLOW, dir_fd=self.handle)
            except OSError:
                self.require_kind(self.status(name), name, stat.S_IFDIR)
                raise
        return Directory(self.at(name), handle)

    def remove(self, name: str) -> None:
        """Removes a name, which may be missing."""
        with _name_path(self.at(name)), contextlib.suppress(FileNotFoundError):
            os.unlink(name, dir_fd=self.handle)

    def install(self, part: str, name: str, over: FileId | None) -> None:
        """Names the file `part` `name`; `sync` makes that durable. Replaces only the file `over`. Raises TakenError."""
        found, handles = self.id_at(name), {"src_dir_fd": self.handle, "dst_dir_fd": self.handle}
        with _name_path(self.at(name)):
            if found is not None and found == over:
                os.rename(part, name, **handles)
                return
            try:
                os.link(part, name, **handles, follow_symlinks=False)
            except OSError as error:
                has_no_links = error.errno in _NO_LINKS
                if isinstance(error, FileExistsError) or (has_no_links and self.status(name) is not None):
                    raise TakenError(self.at(name)) from None
                if not has_no_links:
                    raise
                os.rename(part, name, **handles)
            else:
                self.remove(part)

    def sync(self) -> None:
        """Returns once the names in it are on the disk."""
        with _name_path(self.path):
            os.fsync(self.handle)


def write_atomically(
    directory: Directory, name: str, blocks: Iterable[bytes], over: FileId | None, syncs: bool = True
) -> int:
    """Writes a file whole or not at all; replaces only the file `over`. Returns the new file, open. `syncs`: its name is
    on the disk then. Raises TakenError, OSError, what `blocks` does."""
    number, part = directory.create_part(name)
    try:
        with name_errors(directory.at(name)):
            with open(number, "wb", closefd=False) as file:
                file.writelines(blocks)
            os.fsync(number)
        directory.install(part, name, over)
        if syncs:
            directory.sync()
    except BaseException:
        os.close(number)
        with contextlib.suppress(OSError):
            directory.remove(part)
        raise
    return number


class FileTarget:
    """A file that is written or replaced. Only the regular file that is there now, and what is written by this, may
    be replaced. Raises KindError for anything else, OSError."""

    def __init__(self, directory: Directory, name: str) -> None:
        self._directory, self._name = directory, name
        directory.require_kind(directory.status(name), name, stat.S_IFREG)
        self.over = directory.pin(name)

    def write(self, blocks: Iterable[bytes]) -> None:
        """Writes the file whole or not at all. Raises TakenError, MovedError, OSError, what `blocks` does."""

        def blocks_here() -> Iterator[bytes]:
            yield from blocks
            self._directory.require_name()

        over = None if self.over is None else id_of(os.fstat(self.over))
        written = write_atomically(self._directory, self._name, blocks_here(), over)
        self.close()
        self.over = written

    def close(self) -> None:
        if self.over is not None:
            os.close(self.over)
        self.over = None


@contextlib.contextmanager
def open_target(path: str) -> Iterator[FileTarget]:
    """The target of a path. Raises what FileTarget does."""
    folder, name = os.path.split(path)
    with contextlib.ExitStack() as stack:
        with _name_path(path):
            directory = stack.enter_context(contextlib.closing(Directory.open(folder or os.curdir)))
        yield stack.enter_context(contextlib.closing(FileTarget(directory, name)))


def write_whole(path: str, blocks: Iterable[bytes]) -> None:
    """Writes or replaces a file whole or not at all. Raises OSError; nothing is left then."""
    with open_target(path) as target:
        target.write(blocks)


def _finite(text: str) -> float:
    """The number of a text. Raises ValueError if it isn't finite."""
    if not math.isfinite(number := float(text)):
        raise ValueError("%s is no number there" % text)
    return number


def read_json(text: str) -> dict[str, Any]:
    """The object of a JSON text. Raises ValueError, also for Infinity, NaN and deep nesting."""
    try:
        found = json.loads(text, parse_constant=_finite, parse_float=_finite)
    except RecursionError:
        raise ValueError("it is nested too deeply") from None
    if not isinstance(found, dict):
        raise ValueError("it is no object of JSON")
    return found


# The polynomial of CRC-32 in zlib's order of coefficients: x^0 is the highest bit.
_POLYNOMIAL = 0xEDB88320
_ONE = 1 << 31


def _product(first: int, second: int) -> int:
    """The product of two polynomials of degree below 32, modulo the polynomial of CRC-32."""
    product = 0
    while first:
        if first & _ONE:
            product ^= second
        first = first << 1 & 0xFFFFFFFF
        second = second >> 1 ^ (_POLYNOMIAL if second & 1 else 0)
    return product


# x to the powers 8, 16, 32 and so on: the factors of a CRC-32 for 1, 2, 4 and so on more bytes.
_POWERS = [_ONE >> 8]
while len(_POWERS) < 64:
    _POWERS.append(_product(_POWERS[-1], _POWERS[-1]))


@dataclasses.dataclass(frozen=True)
class Checksum:
    """The number of some bytes, and their CRC-32."""

    size: int = 0
    crc32: int = 0

    @classmethod
    def of_fields(cls, fields: Mapping[str, Any]) -> Checksum:
        """The checksum of the fields of a summary. Raises KeyError, TypeError, ValueError."""
        return cls(int(fields["bytes"]), int(fields["crc32"], 16))

    def fields(self) -> dict[str, Any]:
        return {"bytes": self.size, "crc32": "%08x" % self.crc32}

    def add_bytes(self, data: bytes) -> Checksum:
        """The checksum of these bytes followed by `data`."""
        return Checksum(self.size + len(data), zlib.crc32(data, self.crc32))

    def add(self, other: Checksum) -> Checksum:
        """The checksum of these bytes followed by the other ones.

        >>> start, end = Checksum().add_bytes(b"1RB1LB"), Checksum().add_bytes(b"_1LA1RZ")
        >>> start.add(end) == Checksum().add_bytes(b"1RB1LB_1LA1RZ")
        True
        """
        crc32 = self.crc32
        for bit in range(other.size.bit_length()):
            if other.size >> bit & 1:
                crc32 = _product(_POWERS[bit], crc32)
        return Checksum(self.size + other.size, crc32 ^ other.crc32)
