"""A list of each kind of line, runs over it, and executors that answer wrongly or late."""

from __future__ import annotations

import contextlib
import io
import pathlib
import re
import subprocess
import sys
import unittest.mock
from concurrent.futures import Executor, Future
from typing import Any, Callable, Iterator, Sequence

import budlarem
import pytest
from budlarem import Limits, commands
from budlarem.counts import KINDS as KINDS_OF_VERDICTS, VerdictCounts
from budlarem.runner import backends, chunks, folder, input, pass_folder, passes, progress, replies

from support.program import decide_in_passes

# Two that halt, a cycler, two translated cyclers, three that small limits leave, one of which larger ones
# decide, and two that are no machines.
KINDS = (
    b"1RB1LB_1LA1RZ\n------\n0RB---_0LA---\n1RA1RA\n1RB1LC_1RC1RB_1RD0LE_1LA1LD_1RZ0LA\n1rB1LB\n"
    b"1RB0RA_1LC1LB_1RA0LB\n1RB1LB_1LA1RZ halt 6 4\n0RB1LD_0RC1RD_0RD---_1LA0RB\n"
    b"1RB0LA_0RC---_1RD0LD_1LA1RB\n"
)
LIST = KINDS * 37
SMALL, MIDDLE = Limits(30, 16, 3, 5), Limits(1_000, 128, 20, 100)
PASSES = (SMALL, MIDDLE)


def expected_verdicts(given: bytes, limits: Sequence[Limits] = PASSES) -> bytes:
    """The verdict lines of a list, by one call for each pass."""
    return decide_in_passes(lambda *asked: b"".join(budlarem.decide_bytes(*asked)), given, limits)


def reseal(reply: replies.Reply, written: bytes) -> replies.Reply:
    """A reply with other bytes, and the digest of these."""
    return (written, *reply[1:7], replies.digest_of(written))


class PoolBackend(backends.Backend):
    """The workers of an executor: each has a request, and as many requests wait."""

    def __init__(self, executor: Any, workers: int = 2) -> None:
        self._executor, self._workers = executor, workers

    def width(self) -> int:
        return 2 * self._workers

    def submit(self, request: replies.Request) -> Future[Any]:
        future: Future[Any] = self._executor.submit(replies.reply_to, *request)
        return future


class Answering(Executor):
    """An executor whose answers a function changes, given the reply and how many came before."""

    def __init__(self, change: Callable[[replies.Reply, int], Any] = lambda reply, before: reply) -> None:
        self.change, self.count = change, 0

    def submit(self, function: Any, /, *given: Any, **named: Any) -> Any:
        future: Future[Any] = Future()
        self.count += 1
        try:
            future.set_result(self.change(function(*given, **named), self.count - 1))
        except Exception as error:
            future.set_exception(error)
        return future


def act(action: Callable[[], object], at: int | None = None) -> Answering:
    """An executor that acts before each reply, or before the reply with index `at`."""

    def change(reply: replies.Reply, before: int) -> replies.Reply:
        if at in (None, before):
            action()
        return reply

    return Answering(change)


def answer_with(old: bytes, new: bytes) -> Answering:
    """An executor that replaces bytes in each reply, under a right digest."""
    return Answering(lambda reply, before: reseal(reply, reply[0].replace(old, new)))


class Late(Executor):
    """An executor that answers when several tasks wait, the last one first."""

    def __init__(self, most: int) -> None:
        self.most = most
        self.waiting: list[Callable[[], None]] = []

    def submit(self, function: Any, /, *given: Any, **named: Any) -> Any:
        future: Future[Any] = Future()
        self.waiting.append(lambda: future.set_result(function(*given, **named)))
        if len(self.waiting) == self.most:
            while self.waiting:
                self.waiting.pop()()
        return future


class KeptProgress(progress.Progress):
    """Progress that is kept."""

    def __init__(self) -> None:
        self.kept = io.StringIO()
        super().__init__(self.kept)


class RunCase(contextlib.ExitStack):
    """A list and a folder, and runs over them."""

    def __init__(self, top: pathlib.Path) -> None:
        super().__init__()
        self.top, self.list, self.out = top, top / "list.txt", top / "out"
        self.list.write_bytes(LIST)
        self.progress = KeptProgress()

    def run_over(
        self,
        executor: Any = None,
        limits: Sequence[Limits] = PASSES,
        most: int = 7,
        check: bool = False,
        path: str = "",
        here: bool = False,
        keep: chunks.Retention = chunks.Retention(),
    ) -> pass_folder.Outcome:
        """A run, by an executor or by two threads."""
        backend: backends.Backend = backends.ThreadBackend(2)
        if executor is not None:
            backend = PoolBackend(executor)
        with contextlib.closing(input.ListFile(path or str(self.list))) as listed:
            with contextlib.closing(folder.Folder(str(self.out))) as opened:
                checked = folder.CHECK_HERE if here else folder.CHECK if check else ""
                how = (most, checked, keep, listed.require_unchanged)
                options = passes.RunOptions(backend, replies.identity(), self.progress, listed.name, *how)
                return passes.run(opened, listed, limits, options)

    def require_verdicts(
        self, executor: Any = None, limits: Sequence[Limits] = PASSES, **how: Any
    ) -> pass_folder.Outcome:
        """A run to its end, with the verdicts of one process for each pass."""
        outcome = self.run_over(executor, limits, **how)
        assert self.verdicts() == expected_verdicts(self.list.read_bytes(), limits), (limits, how)
        return outcome

    def require_error(self, error: type[Exception], text: str, executor: Any = None, **how: Any) -> None:
        with pytest.raises(error, match=text):
            self.run_over(executor, **how)

    def call(self, *words: str) -> tuple[int, str]:
        """A run by the command; its status, and what it writes to standard error."""
        return call_command("run", str(self.list), "--out", str(self.out), *words)

    def verdicts(self) -> bytes:
        return (self.out / "verdicts.txt").read_bytes()

    def open_pass(self, number: int = 1) -> pass_folder.PassFolder:
        """A pass that is whole."""
        with contextlib.closing(folder.Folder(str(self.out))) as top:
            config = top.read_config()
            assert config is not None
            found = top.open_pass(config, number)
        self.callback(found.close)
        for record in self._records(found):
            found.add(record)
        return found

    def _records(self, found: pass_folder.PassFolder) -> Iterator[pass_folder.Record]:
        names = [path.name for path in (self.out / ("pass-%d" % found.number)).iterdir()]
        for first, name in sorted((int(name.split("-")[0]) - 1, name) for name in names):
            stored = found.read(first)
            assert stored is not None and stored[0].name == name
            yield stored[0]

    def records(self, number: int = 1) -> list[pass_folder.Record]:
        """What is stored of the chunks of a pass."""
        return list(self._records(self.open_pass(number)))

    def chunk(self, number: int = 1) -> pathlib.Path:
        """The file of the longest chunk of a pass."""
        return max((self.out / ("pass-%d" % number)).iterdir(), key=lambda path: path.stat().st_size)


def call_command(*words: str) -> tuple[int, str]:
    """The status of a command of the package in this process, and what it writes to standard error."""
    printed = io.StringIO()
    with contextlib.redirect_stderr(printed), contextlib.redirect_stdout(io.StringIO()):
        with unittest.mock.patch("budlarem.commands.run.end_at_signals"):
            return commands.main(list(words)), printed.getvalue()


def run_budlarem(
    *words: object, status: int | None = 0, sentence: str = "", **how: Any
) -> "subprocess.CompletedProcess[str]":
    """A command of the package as a process: it ends with this status, if one is given, and a text of this form on
    standard error."""
    command = [sys.executable, "-m", "budlarem", *map(str, words)]
    done = subprocess.run(command, capture_output=True, text=True, **how)
    assert status in (done.returncode, None) and re.search(sentence, done.stderr), done.stderr
    return done


def counts_of(verdicts: bytes) -> dict[str, int]:
    """How many verdict lines there are of each kind."""
    counts = VerdictCounts()
    for line in verdicts.decode().splitlines():
        counts.add(line)
    return {kind: counts.kinds[kind] for kind in KINDS_OF_VERDICTS}
