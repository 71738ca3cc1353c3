"""The library `libbb.so`: its location, its calls, and a buffer of each thread for their replies."""

from __future__ import annotations

import ctypes
import functools
import mmap
import os
import pathlib
import struct
import threading
from typing import Any, BinaryIO, Callable, NamedTuple, Sequence

from ._version import LIBRARY_BYTES, VERSION

VARIABLE = "BB_LIBRARY"
CLEAN, NOT_CLEAN, LIMITS, MEMORY, SHORT = range(5)

_HERE = pathlib.Path(__file__).resolve().parent
# Its folders in the repository: of the proved one, and of the one that cargo builds.
_BUILT = ("crates/bb_c/out", "out/plain/target/release")
_NUMBER, _SIZE, _SWITCH = ctypes.c_uint64, ctypes.c_size_t, ctypes.c_bool
_BUFFERS = (ctypes.c_char_p, _SIZE, ctypes.c_void_p, _SIZE, ctypes.POINTER(_SIZE))
# The magic of a 64-bit little-endian ELF file; place, size and number of the section headers, which are at its end.
_ELF_BEGIN = b"\x7fELF\x02\x01"
_ELF = struct.Struct("<40xQ10xHH2x")
# The number of kinds of replies.
_KINDS = 7
_CALLS = {
    "bb_decide": (_NUMBER,) * 4 + (_SWITCH,) * 3 + _BUFFERS,
    "bb_check": (_NUMBER,) * 4 + _BUFFERS,
    "bb_check_cost": (_NUMBER,) * 4 + (ctypes.c_char_p, _SIZE, ctypes.POINTER(_NUMBER * 4)),
    "bb_line_of": (_NUMBER,) * 2 + _BUFFERS,
    "bb_recurrence": (_NUMBER,) * 2 + (_SWITCH,) + _BUFFERS,
    "bb_trace": (_NUMBER,) * 4 + _BUFFERS,
    "bb_look": (*(ctypes.c_char_p, _SIZE) * 2, ctypes.POINTER(_NUMBER * _KINDS), ctypes.POINTER(_NUMBER)),
}


class LibraryError(OSError):
    """The library `libbb.so` is missing, truncated, or can't be loaded. The text has the paths."""


@functools.lru_cache(maxsize=None)
def load_library() -> ctypes.CDLL:
    """The library at the path of the variable BB_LIBRARY, if set; else beside this package, or that of `make
    library` or `make plain-library` in the repository. Raises LibraryError."""
    built = [top / folder / "libbb.so" for top in list(_HERE.parents)[2:3] for folder in _BUILT]
    named = os.environ.get(VARIABLE)
    candidates = [pathlib.Path(named)] if named else [_HERE / "libbb.so", *built]
    if (path := next((place for place in candidates if place.is_file()), None)) is None:
        places = " nor at ".join(map(str, candidates))
        how = f"install the wheel, build it by `make library` or `make plain-library`, or set the variable {VARIABLE} to its path"
        raise LibraryError(f"libbb.so isn't at {places}; {how}")
    require_whole(path)
    try:
        return ctypes.CDLL(str(path))
    except OSError as error:
        raise LibraryError("%s can't be loaded as libbb.so: %s" % (path, error)) from error


def is_plain() -> bool:
    """Whether the library is the build without the kit, which isn't proved. Raises LibraryError."""
    return hasattr(load_library(), "bb_is_plain")


def version() -> str:
    """The version, with ` (plain)` for a library that isn't proved. Raises LibraryError."""
    return VERSION + (" (plain)" if is_plain() else "")


def require_whole(path: pathlib.Path) -> None:
    """Raises LibraryError for a truncated library: a call into the missing part would end the process by SIGBUS.
    The size is that of the wheel, or that of the headers."""
    try:
        with open(path, "rb") as file:
            size, least = os.fstat(file.fileno()).st_size, _least_size(file)
    except OSError as error:
        raise LibraryError(f"{path} can't be loaded as libbb.so: {error}") from None
    if path == _HERE / "libbb.so" and LIBRARY_BYTES not in (None, size):
        why = f"has {size} bytes, and that of this package has {LIBRARY_BYTES}: it was cut or changed"
        raise LibraryError(f"{path} {why}; install the package again")
    if least is None or size < least:
        why = "ends in its headers" if least is None else f"has {size} bytes, and its headers name {least}"
        raise LibraryError(f"{path} was cut short: it {why}; build or install it again")


def _least_size(file: BinaryIO) -> int | None:
    """The least size of a 64-bit ELF file by its header, None if this is truncated; 0 for other files, which the
    system refuses to load. Raises OSError."""
    head = file.read(_ELF.size)
    if not head.startswith(_ELF_BEGIN):
        return 0
    if len(head) < _ELF.size:
        return None
    place, size, count = _ELF.unpack(head)
    return int(place + size * count)


@functools.lru_cache(maxsize=None)
def bind_call(name: str) -> Callable[..., int]:
    """A function of the library. Raises LibraryError."""
    try:
        call = getattr(load_library(), name)
    except AttributeError:
        raise LibraryError("the library has no call %s; it is older than this package" % name) from None
    call.argtypes, call.restype = _CALLS[name], ctypes.c_uint32
    made: Callable[..., int] = call
    return made


class ReplyCheck(NamedTuple):
    """Whether replies fit their lines, or the index of the first that doesn't; and the count of each kind."""

    fits: bool
    lines: int
    counts: tuple[int, ...]


def validate_replies(lines: bytes, replies: bytes) -> ReplyCheck:
    """Validates the replies to some lines. Raises LibraryError."""
    counts, count = (_NUMBER * _KINDS)(), _NUMBER()
    call = bind_call("bb_look")
    status = call(lines, len(lines), replies, len(replies), ctypes.byref(counts), ctypes.byref(count))
    return ReplyCheck(status == CLEAN, count.value, tuple(counts))


def cost_of_check(limits: Sequence[int], lines: bytes) -> list[int]:
    """The most that checking some lines can cost, from the numbers in them: the steps and nodes of all; those of
    the most expensive line together, and its index. Raises LibraryError."""
    cost = (_NUMBER * 4)()
    if bind_call("bb_check_cost")(*limits, lines, len(lines), ctypes.byref(cost)) != CLEAN:
        raise AssertionError("bb_check_cost refuses the limits %r" % (limits,))
    return [*cost]


class Reply(NamedTuple):
    """The status of a call, the length of its reply, and the reply; empty if the status is SHORT."""

    status: int
    length: int
    text: bytes


class _Buffer(threading.local):
    """The buffer for the replies of a thread. Untouched pages take no memory."""

    pages: Any = b""
    address: Any = None

    def grow(self, size: int) -> None:
        if self.address is None or size > len(self.pages):
            size = 1 << (max(size, mmap.PAGESIZE) - 1).bit_length()
            self.pages = mmap.mmap(-1, size, mmap.MAP_PRIVATE | mmap.MAP_ANONYMOUS)
            self.address = (ctypes.c_char * size).from_buffer(self.pages)


_buffer = _Buffer()


def call_library(name: str, asked: Sequence[int], given: bytes, room: int) -> Reply:
    """Makes a call, twice if the reply exceeds `room` bytes. Raises LibraryError, MemoryError."""
    reply = call_once(name, asked, given, room)
    if reply.status == SHORT:
        reply = call_once(name, asked, given, reply.length)
    if reply.status == SHORT:
        raise AssertionError("%s with %r asks for %d bytes, and then for more" % (name, asked, room))
    return reply


def call_once(name: str, asked: Sequence[int], given: bytes, room: int) -> Reply:
    """Makes a call; its status is SHORT if the reply exceeds `room` bytes. Raises LibraryError, MemoryError."""
    call, count = bind_call(name), _SIZE()
    _buffer.grow(room)
    status = call(*asked, given, len(given), _buffer.address, room, ctypes.byref(count))
    if status == MEMORY:
        why = "the library had no memory for its tapes or its reply"
        raise MemoryError(why + "; lower the limit of cells")
    if status == LIMITS:
        raise AssertionError("%s refused the limits %r" % (name, asked))
    return Reply(status, count.value, _buffer.pages[: 0 if status == SHORT else count.value])
