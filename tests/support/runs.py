"""Runs of `budlarem run` as processes: lists and their verdicts, interruptions and kills.

The package and its library are found by the environment, as python/tests/conftest.py sets it.
"""

from __future__ import annotations

import contextlib
import os
import pathlib
import random
import shutil
import signal
import subprocess
import sys
import time
from typing import Any, Callable, Iterator, Sequence

import pytest

from . import restore_signals
from .machines import CHAMPION, mixed_machines
from .program import LIMITS, MAX_CELLS, MAX_STEPS, as_lines, decide_in_passes, options, peak_memory
from .program import run_command

PASSES = ((300, 64, 10, 100), (20_000, 1_024, 40, 10_000))
# Limits at which a line costs nothing to speak of, and words by which a list takes a second or more.
QUICK_PASS, SLOWLY = (50, 64, 3, 10), ["--threads", "1", "--chunk", "20"]
# It grows as the root of its steps, and no decider finds anything.
LONG_MACHINE = b"0RB1LD_0RC1RD_0RD---_1LA0RB\n"
Process = subprocess.Popen[bytes]
# Where a process of the package is interrupted, and what it does there.
WHERE = ("list", "machine", "trace")
WAITS = """
import sys, budlarem
def machines():
    while True: yield "%(champion)s"
print("begun", flush=True)
if sys.argv[1] == "list":
    for verdict in budlarem.decide(machines(), threads=2): print("decided", flush=True)
elif sys.argv[1] == "machine":
    print(list(budlarem.decide([sys.argv[2]], budlarem.Limits(steps=%(steps)d, cells=%(cells)d))))
else:
    list(budlarem.trace(sys.argv[2], %(steps)d, %(cells)d, start=%(steps)d))
"""
WAITS %= {"steps": MAX_STEPS, "cells": MAX_CELLS, "champion": CHAMPION}
# How long something may take that must come, in seconds, before it is called missing.
PATIENCE = 600


def words_of(limits: Sequence[int]) -> str:
    """The value of `--pass` for limits of steps, cells, levels and nodes."""
    return ",".join("%s=%d" % pair for pair in zip(LIMITS, limits))


def random_list(count: int, seed: int) -> bytes:
    """Machines of all sizes, and some lines that are none."""
    lines = list(mixed_machines(count, seed))
    lines[count // 2], lines[count // 3] = "1rB1LB", lines[count // 3] + " halt 6 4"
    return as_lines(lines)


def decide_lines(program: str, given: bytes, limits: Sequence[int]) -> list[bytes]:
    return run_command([program, "decide", *options(limits)], given).output.splitlines(keepends=True)


def expected_verdicts(program: str, given: bytes, passes: Sequence[Sequence[int]]) -> bytes:
    """The verdicts of one process for each pass, in the list's order."""
    return decide_in_passes(lambda *asked: b"".join(decide_lines(program, *asked)), given, passes)


class Case:
    """A list, a folder, and runs over them."""

    def __init__(self, top: pathlib.Path, given: bytes, passes: Sequence[Sequence[int]] = PASSES) -> None:
        top.mkdir()
        self.list, self.out, self.errors = top / "list.txt", top / "out", top / "errors.txt"
        self.list.write_bytes(given)
        self.words: list[str] = [word for limits in passes for word in ("--pass", words_of(limits))]

    def start(
        self, *more: str, words: list[str] | None = None, variables: dict[str, str] | None = None, **how: Any
    ) -> Process:
        """Starts a run, which heeds interruptions; standard error is a file."""
        how.setdefault("preexec_fn", restore_signals)
        command = [sys.executable, "-m", "budlarem", "run", "--out", str(self.out)]
        command += [*(self.words if words is None else words), *(more or [str(self.list)])]
        with open(self.errors, "wb") as errors:
            both = {**os.environ, **(variables or {})}
            return subprocess.Popen(command, stdout=errors, stderr=errors, env=both, **how)

    def run(self, *more: str, **how: Any) -> int:
        with self.start(*more, **how) as process:
            return process.wait()

    def require_verdicts(self, right: bytes, *more: str, status: int = 1, **how: Any) -> None:
        """Run to the end, with this status and these verdicts."""
        assert self.run(*more, **how) == status and self.verdicts() == right, self.output()

    def require_error(self, status: int, text: str, *more: str, **how: Any) -> None:
        """Run, and require an end with this status and a text on standard error."""
        assert self.run(*more, **how) == status and text in self.output(), self.output()

    def output(self) -> str:
        return self.errors.read_text(errors="replace")

    def chunks(self) -> int:
        return sum(not path.name.endswith(".part") for path in self.out.glob("pass-*/*-*"))

    def verdicts(self) -> bytes:
        path = self.out / "verdicts.txt"
        return path.read_bytes() if path.exists() else b""

    def clear(self) -> None:
        shutil.rmtree(self.out, ignore_errors=True)


def wait_until(process: Process, what: Callable[[], bool]) -> bool:
    """Waits until something is seen; whether it was while the process ran."""
    until = time.monotonic() + PATIENCE
    while process.poll() is None and time.monotonic() < until:
        if what():
            return process.poll() is None
        time.sleep(0.002)
    return False


@contextlib.contextmanager
def stop(case: Case, process: Process, chunks: int = 3) -> Iterator[None]:
    """Stop a run once so many chunks are stored, so that it can't come to its end meanwhile."""
    was_seen = wait_until(process, lambda: case.chunks() >= chunks)
    process.send_signal(signal.SIGSTOP)
    try:
        assert was_seen and not case.verdicts(), case.output()
        yield
    finally:
        process.send_signal(signal.SIGCONT)


@contextlib.contextmanager
def small_disk(folder: pathlib.Path, kilobytes: int) -> Iterator[None]:
    """Mount a small file system; skip the running test where that isn't allowed."""
    mount = ["mount", "-t", "tmpfs", "-o", "size=%dk" % kilobytes, "tmpfs", str(folder)]
    if os.getuid() != 0 or subprocess.run(mount, stderr=subprocess.DEVNULL).returncode != 0:
        pytest.skip("a full disk: a file system can't be mounted here (it takes root)")
    try:
        yield
    finally:
        subprocess.run(["umount", str(folder)], check=True)


def require_interrupted(case: Case, process: Process) -> None:
    """SIGINT ends a run soon, with its status and a sentence."""
    began = time.monotonic()
    process.send_signal(signal.SIGINT)
    try:
        status = process.wait(30)
    finally:
        process.kill()
    print("SIGINT ended the run after %.3f s" % (time.monotonic() - began))
    assert status == 130, case.output()
    assert "interrupted; the same command resumes" in case.output()


def kill_often(case: Case, count: int, chance: random.Random, *words: str) -> int:
    """Kill runs at random moments, each resumed by the next; return how many were killed before their end."""
    kills, whole, config, verdicts = 0, 0, case.out / "run.json", case.out / "verdicts.txt"
    while kills < count and whole < count + 5:
        chunks, size = case.chunks() + chance.randint(0, 4), str(chance.randint(50, 150))
        with case.start(str(case.list), "--chunk", size, *words) as process:
            was_seen = wait_until(process, lambda: config.exists() and case.chunks() >= chunks)
            process.kill()
        if was_seen and process.returncode == -signal.SIGKILL and not verdicts.exists():
            kills += 1
        else:
            whole += 1
            case.clear()
    return kills


def most_memory(case: Case, count: int, limits: Sequence[int]) -> int:
    """The most memory that a run over so many lines takes, in KiB; 0 where it failed."""
    # A process begins with the memory of the one that it was forked from, so the list isn't held here.
    with open(case.list, "wb") as file:
        for _ in range(count // 1_000):
            file.write(as_lines([CHAMPION]) * 1_000)
    most = peak_memory(case.start(words=["--pass", words_of(limits)] * 2))
    case.clear()
    return most


def is_at_work(pid: int) -> bool:
    """Whether a thread of a process, beside its first, has worked for half a second."""
    ticks = [0]
    for path in pathlib.Path("/proc/%d/task" % pid).glob("*/stat"):
        with contextlib.suppress(OSError):
            user, system = path.read_text().rpartition(")")[2].split()[11:13]
            ticks.append(int(user) + int(system) if path.parent.name != str(pid) else 0)
    return max(ticks) > os.sysconf("SC_CLK_TCK") / 2


def interrupt(where: str) -> tuple[int, bytes, float]:
    """Interrupt a process in a list, a long machine or a trace; return its status, message and delay."""
    command = [sys.executable, "-c", WAITS, where, LONG_MACHINE.decode().strip()]
    pipe = subprocess.PIPE
    with subprocess.Popen(command, preexec_fn=restore_signals, stdout=pipe, stderr=pipe) as process:
        assert process.stdout is not None
        process.stdout.readline()
        if where == "list":
            process.stdout.readline()
        else:
            wait_until(process, lambda: is_at_work(process.pid))
        began = time.monotonic()
        process.send_signal(signal.SIGINT)
        try:
            said = process.communicate(timeout=PATIENCE)[1]
        except subprocess.TimeoutExpired:
            process.kill()
            said = process.communicate()[1]
        return process.returncode, said, time.monotonic() - began
