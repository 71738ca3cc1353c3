"""Cuts lists into batches of bounded size, and calls the library over them in threads of their own, so that the
caller's thread can be interrupted."""

from __future__ import annotations

import collections
import functools
import queue
import threading
import time
from concurrent.futures import Future
from typing import Any, Callable, Iterable, Iterator, NamedTuple, Protocol, TypeVar, Union
from typing import runtime_checkable

from ._fork import forbid_fork
from ._text import LONGEST_GIVEN, LONGEST_VALUE

Given = TypeVar("Given")
Found = TypeVar("Found")


class BatchPace:
    """The size of the next batch: twice as much after a short one, eight times after one of less than an
    eighth of that, half after a long one. A steady pace is always the greatest."""

    SHORT, LONG = 0.05, 0.2  # seconds

    def __init__(self, most: int, is_steady: bool = False) -> None:
        self.now, self._most = most if is_steady else 1, most
        self._is_steady = is_steady

    def update(self, seconds: float) -> None:
        if self._is_steady:
            return
        if seconds < self.SHORT:
            self.now = min((8 if seconds < self.SHORT / 8 else 2) * self.now, self._most)
        elif seconds > self.LONG:
            self.now = max(self.now // 2, 1)


class DaemonThreads:
    """Threads that make calls, so that the process can end in the middle of one. After `close` each ends with its
    call."""

    def __init__(self, most: int) -> None:
        self._most, self._is_closed = most, False
        self._tasks: queue.SimpleQueue[tuple[Callable[[], Any], Future[Any]] | None] = queue.SimpleQueue()
        self._threads: list[threading.Thread] = []

    def submit(self, function: Callable[..., Found], *given: Any) -> Future[Found]:
        """Has a thread make a call; the future gets its result or error. Raises RuntimeError for a thread that
        can't be started, or in the forked child of a process with threads."""
        forbid_fork()
        future: Future[Found] = Future()
        if len(self._threads) < self._most:
            thread = threading.Thread(target=self._work, name="budlarem", daemon=True)
            thread.start()
            self._threads.append(thread)
        self._tasks.put((functools.partial(function, *given), future))
        return future

    def close(self, waits: bool = False) -> None:
        """Ends the threads after their calls; `waits` for them."""
        self._is_closed = True
        for _ in self._threads:
            self._tasks.put(None)
        for thread in self._threads if waits else ():
            thread.join()

    def _work(self) -> None:
        while (task := self._tasks.get()) is not None and not self._is_closed:
            call, future = task
            try:
                future.set_result(call())
            except BaseException as error:
                future.set_exception(error)
            # What is kept here is kept until the next task comes.
            del task, call, future


def catch_error(items: Iterable[Given], errors: list[Exception]) -> Iterator[Given]:
    """The items up to an error, which is added to `errors`."""
    try:
        yield from items
    except Exception as error:
        errors.append(error)


def map_in_order(
    work: Callable[[Given], Found], batches: Iterable[Given], threads: int, pace: BatchPace
) -> Iterator[tuple[Given, Found]]:
    """Each batch and what `work` returns for it, in order. At most one more batch than threads is in flight. An
    error of the batches is raised after those before it."""

    def call(batch: Given) -> Found:
        started = time.monotonic()
        found = work(batch)
        pace.update(time.monotonic() - started)
        return found

    pool, errors, is_whole = DaemonThreads(threads), list[Exception](), False
    waiting: collections.deque[tuple[Given, Future[Found]]] = collections.deque()
    try:
        for batch in catch_error(batches, errors):
            waiting.append((batch, pool.submit(call, batch)))
            while len(waiting) > threads or (waiting and waiting[0][1].done()):
                given, future = waiting.popleft()
                yield given, future.result()
        yield from ((given, future.result()) for given, future in waiting)
        is_whole = True
    finally:
        pool.close(is_whole)
    if errors:
        raise errors[0]


# The most lines and bytes of a batch. One line may have more bytes.
MOST_LINES = 8_192
MOST_BYTES = 1 << 19


@runtime_checkable
class BinaryReader(Protocol):
    """A file that is open for reading bytes."""

    def read(self, size: int = -1) -> bytes:
        ...


Blocks = Union[bytes, bytearray, memoryview, BinaryReader, Iterable[bytes]]


class Batch(NamedTuple):
    """Some items of a list: their texts and the texts' lines."""

    texts: list[str]
    lines: bytes


def item_error(name: str, place: int, text: Any) -> Exception:
    """The error of an item of a list that is no text, or has a newline."""
    if isinstance(text, str):
        return ValueError("%s[%d] has a newline in it: %.*r" % (name, place, LONGEST_VALUE, text))
    kind = type(text).__name__
    more = "; %s_bytes takes bytes" % ("decide" if name == "machines" else "check")
    return TypeError("%s[%d] is of type %s, not str%s" % (name, place, kind, more if kind == "bytes" else ""))


def _batch(name: str, before: int, texts: list[str]) -> Batch:
    """The batch of these texts, with `before` ones before them. Raises ValueError."""
    cut = [text if len(text) <= LONGEST_GIVEN else text[:LONGEST_GIVEN] for text in texts]
    lines = ("\n".join(cut) + "\n").encode("utf-8", "surrogatepass")
    if lines.count(b"\n") != len(texts):
        place = next(place for place, text in enumerate(texts) if "\n" in text)
        raise item_error(name, before + place, texts[place])
    return Batch(texts, lines)


def batch_texts(texts: Iterable[str], name: str, pace: BatchPace) -> Iterator[Batch]:
    """The texts in batches. Raises TypeError or ValueError for an invalid item, behind those before it."""
    before, size = 0, 0
    held: list[str] = []
    for text in texts:
        if not isinstance(text, str) or (len(text) > LONGEST_GIVEN and "\n" in text):
            if held:
                yield _batch(name, before, held)
            raise item_error(name, before + len(held), text)
        held.append(text)
        size += len(text)
        if len(held) >= pace.now or size >= MOST_BYTES:
            yield _batch(name, before, held)
            before, held, size = before + len(held), [], 0
    if held:
        yield _batch(name, before, held)


def _iter_blocks(blocks: Blocks) -> Iterator[bytes]:
    """The bytes, cut anywhere. Raises TypeError."""
    if isinstance(blocks, (bytes, bytearray, memoryview)):
        view = memoryview(blocks).cast("B")
        yield from (bytes(view[start : start + MOST_BYTES]) for start in range(0, len(view), MOST_BYTES))
        return
    if isinstance(blocks, str):
        raise TypeError("bytes, a file of bytes or blocks of bytes, not a str")
    read = blocks.read if isinstance(blocks, BinaryReader) else None
    items: Iterable[bytes] = blocks if read is None else iter(lambda: read(MOST_BYTES), b"")  # type: ignore
    for place, block in enumerate(items):
        if not isinstance(block, (bytes, bytearray, memoryview)):
            raise TypeError("blocks[%d] is of type %s, not bytes" % (place, type(block).__name__))
        yield bytes(block)


def whole_lines(blocks: Iterable[bytes]) -> Iterator[bytes]:
    """Blocks in whole lines, the last one too. At most LONGEST_GIVEN bytes of a line are held."""
    rest = b""
    for block in blocks:
        if whole := block.rfind(b"\n") + 1:
            yield rest + memoryview(block)[:whole]
            rest = block[whole:][:LONGEST_GIVEN]
        else:
            rest = (rest + block)[:LONGEST_GIVEN]
    if rest:
        yield rest + b"\n"


def batch_bytes(blocks: Blocks, pace: BatchPace) -> Iterator[bytes]:
    """The bytes in batches of whole lines. The last batch of a block may have half as many bytes more."""
    for lines in whole_lines(_iter_blocks(blocks)):
        start = 0
        while start < len(lines):
            end = len(lines)
            if end - start > 1.5 * pace.now:
                end = lines.find(b"\n", start + pace.now - 1) + 1
            yield lines[start:end]
            start = end
