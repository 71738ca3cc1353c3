"""Work for other processes, and the validation of their replies.

A worker takes and returns plain values, so that one with another version of the package is recognized by its reply.
Replies aren't trusted: each names its package and work, with digests of its input and output.
"""

from __future__ import annotations

import dataclasses
import functools
import hashlib
import math
import time
import zlib
from typing import Any, Callable, NamedTuple

from .._library import load_library, version
from .._text import LONGEST_OF_REPLY
from .._version import COMMIT
from .errors import ReplyError

# Output, seconds, version, commit and sha256 of the library; then the digest of the input, the description of
# the work, and the digest of the output.
Reply = tuple[bytes, float, str, str, str, str, str, str]


class Request(NamedTuple):
    """Work: a function of lines and options, of a module, which returns bytes."""

    function: Callable[[bytes, Any], bytes]
    lines: bytes
    options: Any

    def __str__(self) -> str:
        return "%s %r" % (self.function.__name__, self.options)


class Output(NamedTuple):
    """What a request returned, and its seconds."""

    written: bytes
    seconds: float


@dataclasses.dataclass(frozen=True)
class Identity:
    """The version and commit of a package, and the sha256 of its library in hexadecimal digits. The version of a
    library that isn't proved ends in ` (plain)`."""

    version: str
    commit: str
    library: str

    def __str__(self) -> str:
        return "version %s, commit %s, library %s" % (self.version, self.commit, self.library[:16])

    @classmethod
    def of_fields(cls, fields: dict[str, Any]) -> Identity:
        return cls(*(str(fields[name]) for name in ("version", "commit", "library")))


@functools.lru_cache(maxsize=None)
def identity() -> Identity:
    with open(load_library()._name, "rb") as file:
        return Identity(version(), COMMIT, hashlib.sha256(file.read()).hexdigest())


def digest_of(data: bytes) -> str:
    """The CRC-32 of bytes in transit, in 8 hexadecimal digits, against accidents. Use TLS against attacks."""
    return "%08x" % zlib.crc32(data)


def do_here(request: Request) -> Output:
    """Does the work of a request in this process. Raises what its function does."""
    started = time.monotonic()
    return Output(request.function(request.lines, request.options), time.monotonic() - started)


def reply_to(function: Callable[[bytes, Any], bytes], lines: bytes, options: Any) -> Reply:
    """Does the work of a request for another process, and returns its reply."""
    request, ours = Request(function, lines, options), identity()
    written, seconds = do_here(request)
    digests = digest_of(lines), str(request), digest_of(written)
    return (written, seconds, ours.version, ours.commit, ours.library, *digests)


def open_reply(reply: object, request: Request, ours: Identity) -> Output:
    """The output of a reply. Raises ReplyError unless its origin, work and digests are right."""
    if not (isinstance(reply, tuple) and len(reply) >= 5 and isinstance(reply[0], bytes)):
        raise ReplyError("the reply has type %s" % type(reply).__name__)
    theirs = Identity(*(str(part) for part in reply[2:5]))
    if theirs != ours:
        raise ReplyError("it was decided by %s; here is %s" % (theirs, ours))
    written, seconds = reply[:2]
    if not (isinstance(seconds, float) and math.isfinite(seconds) and seconds >= 0):
        raise ReplyError("the reply reports %.50r seconds" % (seconds,))
    if reply[5:6] != (digest_of(request.lines),):
        raise ReplyError("the reply answers other lines")
    if reply[6:7] != (str(request),):
        raise ReplyError("the reply answers another task: %.200r, not %s" % (reply[6:7], request))
    if reply[7:] != (digest_of(written),):
        raise ReplyError("the reply was changed in transit: its digest differs")
    return Output(written, seconds)


def quote_line(line: bytes) -> str:
    """A line for a message: cut, with unprintable characters escaped."""
    end = "..." if len(line) > LONGEST_OF_REPLY else ""
    return ascii(line[:LONGEST_OF_REPLY].decode("latin-1")) + end
