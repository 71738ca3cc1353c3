"""Schedulers and workers of dask on this machine."""

from __future__ import annotations

import contextlib
import os
import pathlib
import shutil
import socket
import subprocess
import sys
from typing import Iterator

from . import TOP
from .runs import Process, wait_until


class Cluster:
    """A scheduler and workers as processes, each with the words `more`, and ended by its id."""

    def __init__(self, top: pathlib.Path, more: list[str]) -> None:
        self.top, self.more = top, more
        with socket.socket() as free:
            free.bind(("127.0.0.1", 0))
            self.port = free.getsockname()[1]
        self.scheduler: Process | None = None
        self.workers: list[Process] = []

    @property
    def address(self) -> str:
        return "%s://127.0.0.1:%d" % ("tls" if self.more else "tcp", self.port)

    def _start(self, what: str, asked: list[str], variables: dict[str, str]) -> Process:
        command = [sys.executable, "-m", "distributed.cli.dask_" + what, *asked, *self.more]
        with open(self.top / "dask.txt", "ab") as log:
            environment = {**os.environ, **variables}
            return subprocess.Popen(command, stdout=log, stderr=log, cwd=self.top, env=environment)

    def start_scheduler(self) -> None:
        """Starts a scheduler at the address, and waits until it listens."""
        asked = ["--host", self.address.rpartition(":")[0], "--port", str(self.port)]
        asked += ["--dashboard-address", "127.0.0.1:0"]
        self.scheduler = self._start("scheduler", asked, {})
        wait_until(self.scheduler, self._listens)

    def _listens(self) -> bool:
        with socket.socket() as asked:
            return asked.connect_ex(("127.0.0.1", self.port)) == 0

    def start_worker(self, variables: dict[str, str] | None = None, threads: int = 1) -> Process:
        asked = [self.address, "--nthreads", str(threads), "--no-nanny", "--no-dashboard"]
        asked += ["--local-directory", str(self.top / "scratch")]
        self.workers.append(self._start("worker", asked, variables or {}))
        return self.workers[-1]

    def kill_workers(self) -> None:
        for worker in self.workers:
            worker.kill()
            worker.wait()
        self.workers = []

    def end(self) -> None:
        self.kill_workers()
        if self.scheduler is not None:
            self.scheduler.kill()
            self.scheduler.wait()
            self.scheduler = None


@contextlib.contextmanager
def cluster(workers: int, top: pathlib.Path, more: tuple[str, ...] = ()) -> Iterator[Cluster]:
    """A scheduler with so many workers, whose files stand in a folder."""
    found = Cluster(top, list(more))
    try:
        found.start_scheduler()
        for _ in range(workers):
            found.start_worker()
        yield found
    finally:
        found.end()


def changed_package(top: pathlib.Path, file: str, changes: list[tuple[str, str]]) -> dict[str, str]:
    """The variables of a process with a package in which something is changed."""
    source = top / "source"
    shutil.copytree(TOP / "python" / "src", source, ignore=shutil.ignore_patterns("__pycache__"))
    path = source / "budlarem" / file
    text = path.read_text(encoding="utf-8")
    for before, after in changes:
        assert before in text
        text = text.replace(before, after)
    path.write_text(text, encoding="utf-8")
    return {"PYTHONPATH": str(source)}
