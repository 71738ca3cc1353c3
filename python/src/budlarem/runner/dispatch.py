"""Has the tasks of a run done by a backend: submits them, and validates and stores the replies in threads."""

from __future__ import annotations

import collections
import itertools
import queue
import time
from concurrent.futures import Future, ThreadPoolExecutor, wait
from typing import Any, Callable, Iterator, Sequence

from .backends import Backend
from .errors import CheckError, DeadWorkersError, ReplyError, RunError, describe_error
from .progress import TerminalLine
from .replies import Output, Request

# The threads for validating and storing replies, and the most tasks of theirs.
_VALIDATORS, _MOST_VALIDATING = 4, 6
# The seconds for which the thread that reads is waited for after an error.
_PATIENCE = 1.0


class Assignment:
    """A task of a run, from its request to the stored result."""

    # The number of failures; the last request, and when it was submitted, by the monotonic clock. A half of a task
    # whose workers died is suspect.
    failures, submitted, is_suspect = 0, 0.0, False
    sent: Request | None = None

    def request(self) -> Request | None:
        """The next work for a backend; None if `accept` needs no output."""
        raise NotImplementedError

    def accept(self, output: Output | None) -> bool:
        """Validates the output of a request, and stores the result. Returns True once it is stored, else `request` has
        more. Called in a thread. Raises ReplyError, CheckError, FolderError, RunError, OSError."""
        raise NotImplementedError

    def halves(self) -> Sequence[Assignment]:
        """Two tasks in place of one that can be halved."""
        return ()

    def describe(self, error: BaseException) -> str:
        """Names the task of an error, or its line."""
        raise NotImplementedError


class Dispatcher:
    """Tasks by a backend. `sync` is called often; `finish` with each finished task; `plural` is the word for several."""

    def __init__(
        self,
        backend: Backend,
        progress: TerminalLine,
        plural: str,
        finish: Callable[[Any], None] = lambda task: None,
        sync: Callable[[], None] = lambda: None,
    ) -> None:
        self._plural = plural
        self._backend, self._progress, self._sync, self._finish = backend, progress, sync, finish
        self._pending: dict[Future[Any], Assignment] = {}
        self._validating: dict[Future[bool], Assignment] = {}
        self._done: queue.SimpleQueue[Future[Any]] = queue.SimpleQueue()
        self._validators = ThreadPoolExecutor(_VALIDATORS, "budlarem validate")
        # The list may be slow: a thread of its own reads the next task.
        self._reader = ThreadPoolExecutor(1, "budlarem read")
        self._read: Future[Assignment | None] | None = None
        # Halves of tasks whose workers died. One is submitted at a time: dask blames all tasks of a dead worker, and
        # only one killed it.
        self._suspects: collections.deque[Assignment] = collections.deque()
        self._skipped: list[str] = []

    def run(self, tasks: Iterator[Assignment]) -> None:
        """Does all tasks. Raises their errors, and RunError for failures."""
        try:
            self._run(tasks)
        finally:
            self._validators.shutdown()
            # Of a slow list it ends with the process.
            wait([self._read] if self._read is not None else [], _PATIENCE)
            self._reader.shutdown(wait=False)
        if self._skipped:
            reasons = "; ".join(self._skipped[:3])
            raise RunError("all but %d %s are stored; %s" % (len(self._skipped), self._plural, reasons))

    def _run(self, tasks: Iterator[Assignment]) -> None:
        is_ended = False
        while self._pending or self._validating or self._suspects or not is_ended:
            under_way = itertools.chain(self._pending.values(), self._validating.values())
            if self._suspects and not any(task.is_suspect for task in under_way):
                self._submit(self._suspects.popleft())
            has_room = len(self._pending) < self._backend.width() and len(self._validating) < _MOST_VALIDATING
            if self._read is None and not is_ended and has_room:
                self._read = self._reader.submit(lambda: next(tasks, None))
                self._read.add_done_callback(self._done.put)
            self._receive(0.1)
            if self._read is not None and self._read.done():
                task, self._read = self._read.result(), None
                is_ended = task is None
                if task is not None:
                    self._submit(task)

    def _submit(self, task: Assignment) -> None:
        """Submits what a task needs next."""
        task.sent, task.submitted = task.request(), time.monotonic()
        if task.sent is None:
            self._validate(task, None)
            return
        try:
            future = self._backend.submit(task.sent)
        except RunError:
            raise
        except Exception as error:
            raise RunError("nothing can be submitted: %s" % describe_error(error)) from error
        self._pending[future] = task
        future.add_done_callback(self._done.put)

    def _receive(self, seconds: float) -> None:
        """Handles finished futures, waiting at most `seconds` for the first."""
        for future in self._drain(seconds):
            if future in self._pending:
                self._handle_reply(self._pending.pop(future), future)
            elif future in self._validating:
                self._handle_validation(self._validating.pop(future), future)
        self._sync()
        self._backend.maintain()
        self._progress.tick(self._backend.status())

    def _drain(self, seconds: float) -> Iterator[Future[Any]]:
        """The finished futures; at most as many as are in flight."""
        for _ in range(len(self._pending) + len(self._validating) + 1):
            try:
                yield self._done.get(timeout=seconds) if seconds else self._done.get_nowait()
            except queue.Empty:
                return
            seconds = 0.0

    def _handle_reply(self, task: Assignment, future: Future[Any]) -> None:
        error = future.exception()
        if isinstance(error, DeadWorkersError):
            self._bisect(task, error)
        elif error is not None:
            self._retry(task, error)
        else:
            self._validate(task, future.result())

    def _bisect(self, task: Assignment, error: DeadWorkersError) -> None:
        """Has the halves of a task done, or one without any once more. That is skipped then, and the run fails once all
        others are stored."""
        where, halves = task.describe(error), task.halves() or [task] * (not task.is_suspect)
        for half in halves:
            half.is_suspect = True
        self._suspects.extend(halves)
        if not halves:
            self._skipped.append("%s: every worker that did it died: %s" % (where, error))
        self._progress.print_line(
            "%s killed its workers; bisecting it" % where if halves else self._skipped[-1]
        )

    def _validate(self, task: Assignment, reply: object) -> None:
        """Has a thread open a reply, if there is one, and validate its output."""
        future = self._validators.submit(self._accept, task, reply)
        self._validating[future] = task
        future.add_done_callback(self._done.put)

    def _accept(self, task: Assignment, reply: object) -> bool:
        return task.accept(None if task.sent is None else self._backend.open(task.sent, reply))

    def _handle_validation(self, task: Assignment, future: Future[bool]) -> None:
        """Submits a task again if it isn't done. Raises the error of the validation."""
        error = future.exception()
        if isinstance(error, ReplyError):
            self._retry(task, error)
        elif error is not None:
            raise error
        elif future.result():
            self._finish(task)
        else:
            self._submit(task)

    def _retry(self, task: Assignment, error: BaseException) -> None:
        """Submits a task again. Raises the error, or RunError after some failures."""
        task.failures += 1
        if isinstance(error, CheckError) or (self._backend.tries == 1 and not isinstance(error, ReplyError)):
            raise error
        text = "%s: %s" % (task.describe(error), describe_error(error))
        if task.failures >= self._backend.tries:
            raise RunError("%s; tried %d times" % (text, task.failures)) from error
        self._progress.print_line("%s; trying again" % text)
        self._submit(task)
