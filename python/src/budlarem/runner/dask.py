"""Work done by the workers of a dask cluster.

The workers need this package, and the same Python and dask as the runner; the scheduler needs nothing. Work that dask
loses is submitted again: futures that were cancelled since the scheduler left, and futures that may never finish since
the connection broke.
"""

from __future__ import annotations

import asyncio
import collections
import dataclasses
import functools
import importlib
import logging
import threading
import time
import uuid
import warnings
from concurrent.futures import CancelledError, Future
from typing import Any, Callable, Mapping

from .backends import Backend
from .errors import DeadWorkersError, RunError
from .replies import Request, quote_line, reply_to

# Seconds between two inquiries, and the timeout of one.
_OFTEN, _PATIENCE = 1.0, 10.0
# Requests in flight while no worker is known.
_LEAST = 4
# Errors of fetching a reply that isn't there any more.
_LOST = (CancelledError, asyncio.CancelledError, TimeoutError, asyncio.TimeoutError, OSError)
# Loggers whose messages are reported otherwise, or are of no use to the user.
_LOGGERS = ("distributed", "distributed.client", "tornado", "tornado.application")
# dask warns of tasks of more than a million bytes, such as verdict lines to check.
_LARGE = "Large object of size"


def import_distributed() -> Any:
    try:
        return importlib.import_module("distributed")
    except ImportError as error:
        how = "pip install distributed, or Debian's python3-distributed"
        raise RunError(f"dask isn't installed ({error}): {how}") from None


@dataclasses.dataclass(eq=False)
class Job:
    """A request; of its last submission dask's own future, and the connection."""

    request: Request
    future: Future[Any] = dataclasses.field(default_factory=Future)
    own: Any = None
    connection: Any = None


class DaskBackend(Backend):
    """The workers of a scheduler. `security` has the files of dask's TLS options, `report` prints a sentence.
    Raises RunError if no scheduler answers."""

    def __init__(self, address: str, security: Mapping[str, str], report: Callable[[str], None]) -> None:
        self._address, self._report = address, report
        self._dask = import_distributed()
        for name in _LOGGERS:
            logging.getLogger(name).setLevel(logging.CRITICAL + 1)
        warnings.filterwarnings("ignore", _LARGE, UserWarning)
        self._security = self._dask.Security(**security, require_encryption=True) if security else None
        # It guards the jobs, which dask's thread ends.
        self._lock = threading.Lock()
        # Jobs that dask has, and jobs to submit again.
        self._submitted: set[Job] = set()
        self._lost: collections.deque[Job] = collections.deque()
        self._workers, self._threads, self._next = 0, 0, 0.0
        self._missing = ""
        self._client: Any = None
        if (error := self._connect()) is not None:
            raise RunError("no scheduler answers at %s: %s" % (address, error))
        try:
            self._report("dask's page is at %s" % self._client.dashboard_link)
        except Exception:
            self._report("the scheduler at %s has no page" % self._address)

    def _connect(self) -> Exception | None:
        """Makes a new client, on the thread of the first one; returns the error, if any."""
        loop = None if self._client is None else self._client.loop
        try:
            self._client = self._dask.Client(
                self._address, security=self._security, set_as_default=False, name="budlarem", loop=loop
            )
        except Exception as error:
            return error
        return None

    def width(self) -> int:
        return max(2 * self._threads, _LEAST)

    def status(self) -> str:
        return "%d workers" % self._workers

    def submit(self, request: Request) -> Future[Any]:
        job = Job(request)
        self._submit(job)
        return job.future

    def _connection(self) -> Any:
        """The object of the present connection to the scheduler; None without one."""
        return self._client.scheduler_comm if self._client.status == "running" else None

    def _submit(self, job: Job) -> None:
        """Has dask do a job, or notes that it is lost."""
        job.connection, key = self._connection(), "budlarem-" + uuid.uuid4().hex
        with self._lock:
            self._submitted.add(job)
        try:
            if job.connection is None:
                raise RunError("there is no scheduler")
            job.own = self._client.submit(reply_to, *job.request, key=key, pure=False)
            job.own.add_done_callback(functools.partial(self._finish, job))
        except Exception:
            # A closed client raises a bare Exception.
            self._requeue(job, job.own)

    def _requeue(self, job: Job, own: Any) -> None:
        """Has a job submitted again, unless that was done since it had dask's future `own`."""
        with self._lock:
            if job in self._submitted and job.own is own:
                self._submitted.remove(job)
                job.own = None
                self._lost.append(job)

    def _finish(self, job: Job, own: Any) -> None:
        """Fetches the reply of a finished job, in dask's thread for that; a lost one is submitted again."""
        reply, error = None, None
        try:
            if own.status == "error":
                error = own.exception(_PATIENCE)
            else:
                reply = own.result(_PATIENCE)
        except _LOST:
            self._requeue(job, own)
            return
        except Exception as unreadable:
            error = unreadable
        with self._lock:
            if job not in self._submitted or job.own is not own:
                return
            self._submitted.remove(job)
            # dask forgets a reply without a future.
            job.own = None
        if isinstance(error, self._dask.KilledWorker):
            error = DeadWorkersError(quote_line(job.request.lines.rstrip(b"\n")))
        if error is not None:
            job.future.set_exception(error)
        else:
            job.future.set_result(reply)

    def maintain(self) -> None:
        """Inquires now and then about scheduler and workers, and submits lost jobs again."""
        if time.monotonic() < self._next:
            return
        if self._client.status == "closed":
            self._report_missing("there is no scheduler at %s; waiting for one" % self._address)
            self._connect()
        if self._client.status == "running":
            self._count_workers()
            # dask never ends jobs of another connection whose replies were in transit.
            connection = self._connection()
            with self._lock:
                jobs = [(job, job.own) for job in self._submitted if job.connection is not connection]
            for job, own in jobs:
                self._requeue(job, own)
            for _ in range(len(self._lost)):
                self._submit(self._lost.popleft())
        elif self._client.status != "closed":
            self._report_silence()
        self._next = time.monotonic() + _OFTEN

    def _count_workers(self) -> None:
        try:
            threads = self._client.nthreads(callback_timeout=_PATIENCE)
        except Exception:
            self._report_silence()
            return
        self._workers, self._threads = len(threads), sum(threads.values())
        if not self._workers:
            self._report_missing("the scheduler at %s has no workers; waiting for them" % self._address)
        elif self._missing:
            self._report("the scheduler at %s has %d workers" % (self._address, self._workers))
            self._missing = ""

    def _report_silence(self) -> None:
        self._report_missing("the scheduler at %s doesn't answer; waiting for it" % self._address)

    def _report_missing(self, text: str) -> None:
        """Reports once what is missing."""
        if text != self._missing:
            self._missing, self._workers = text, 0
            self._report(text)
