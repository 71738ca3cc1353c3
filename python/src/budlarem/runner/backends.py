"""Backends do work: in threads of this process, or elsewhere."""

from __future__ import annotations

from concurrent.futures import Future
from typing import Any, NamedTuple

from .._calls import DaemonThreads
from .replies import Output, Request, do_here, identity, open_reply


class ChunkSize(NamedTuple):
    """The most lines and bytes of a chunk."""

    lines: int
    bytes: int


# Each chunk costs a file, and elsewhere a round trip; in this process memory for many of them.
HERE, SENT = ChunkSize(40_000, 1_000_000), ChunkSize(80_000, 2_000_000)


class Backend:
    """Does the work of requests. One that fails is submitted again, up to `tries` times. `is_here`: in this process."""

    tries, is_here, chunk_size = 3, False, SENT

    def width(self) -> int:
        """The most requests in flight."""
        raise NotImplementedError

    def submit(self, request: Request) -> Future[Any]:
        raise NotImplementedError

    def open(self, request: Request, reply: object) -> Output:
        """The output of a finished request. Raises ReplyError for an invalid reply."""
        return open_reply(reply, request, identity())

    def maintain(self) -> None:
        """Called now and then for other work. Raises RunError."""

    def status(self) -> str:
        """More text for the progress line; may be empty."""
        return ""

    def close(self) -> None:
        """Starts no more work."""


class ThreadBackend(Backend):
    """Threads of this process, whose output needs no digests. The library's calls release Python's lock, and nothing
    runs in Python for a single line. One request waits."""

    tries, is_here, chunk_size = 1, True, HERE

    def __init__(self, count: int) -> None:
        self._threads, self._count = DaemonThreads(count), count

    def width(self) -> int:
        return self._count + 1

    def submit(self, request: Request) -> Future[Any]:
        return self._threads.submit(do_here, request)

    def open(self, request: Request, reply: object) -> Output:
        assert isinstance(reply, Output)
        return reply

    def close(self) -> None:
        self._threads.close()
