"""What the benchmarks share: their words, builds, times, and the rows that they print.

Importing it puts the tests' `support` and the package on the path.
"""

from __future__ import annotations

import argparse
import os
import pathlib
import subprocess
import sys
import time
from typing import Callable, Mapping, NamedTuple, Sequence

TOP = pathlib.Path(__file__).resolve().parents[1]
SOURCE = TOP / "python" / "src"
NULL = pathlib.Path(os.devnull)
sys.path[:0] = [str(TOP), str(TOP / "tests"), str(SOURCE)]

from support import missing_requirements  # noqa: E402


def make(target: str, path: str) -> pathlib.Path:
    """Build a target of the Makefile where it is out of date, and return its file."""
    subprocess.run(["make", "-s", target], cwd=TOP, check=True, stdout=sys.stderr)
    return TOP / path


def use_library() -> None:
    """Let the package of the repository, here and in processes, use the library that is built, or BB_LIBRARY."""
    if "BB_LIBRARY" not in os.environ:
        os.environ["BB_LIBRARY"] = str(make("library", "crates/bb_c/out/libbb.so"))
    os.environ["PYTHONPATH"] = str(SOURCE)


def list_machines(states: int, *words: str) -> bytes:
    """Return the list of all machines of so many states in tree normal form; more words are passed on."""
    command = [str(make("lister", "tools/out/tree_normal_form")), "--states", str(states), *words]
    return subprocess.run(command, stdout=subprocess.PIPE, check=True).stdout


def has(what: str, *programs: str, modules: Sequence[str] = ()) -> bool:
    """Tell whether programs and Python modules are installed; print what is skipped where they aren't."""
    missing = missing_requirements(programs, modules)
    if missing:
        print("skipped: %s: %s" % (what, "; ".join(missing)), flush=True)
    return not missing


def parser(text: str, runs: int, parts: Sequence[str] = ()) -> argparse.ArgumentParser:
    """Return a parser of a benchmark's words, whose help is this text."""
    made = argparse.ArgumentParser(description=text, formatter_class=argparse.RawDescriptionHelpFormatter)
    made.add_argument("program", nargs="?", help="default: crates/bb/out/bb, built where it is out of date")
    made.add_argument("--runs", type=int, default=runs, metavar="N", help="of each (default: %d)" % runs)
    if parts:
        made.add_argument("--part", action="append", choices=parts, help="this part; may be repeated")
    return made


def program_of(words: argparse.Namespace) -> str:
    """Return the path of the program that is measured."""
    return str(pathlib.Path(words.program or make("bb", "crates/bb/out/bb")).resolve())


class Cost(NamedTuple):
    """What commands took, in seconds: by the clock, and of processors. And the greatest of their statuses."""

    clock: float
    processor: float = 0.0
    status: int = 0


# A command, the file that it reads, and the one that it writes.
Command = tuple[Sequence[str], pathlib.Path, pathlib.Path]
Ways = Mapping[str, Callable[[], Cost]]


def run(*commands: Command) -> Cost:
    """Run commands side by side, each from a file to a file. A status of 1 is that of a refused line."""
    began, used, processes = time.monotonic(), 0.0, []
    for command, given, written in commands:
        with open(given, "rb") as stdin, open(written, "wb") as stdout:
            processes.append(subprocess.Popen(command, stdin=stdin, stdout=stdout, stderr=subprocess.DEVNULL))
    for process in processes:
        _, status, usage = os.wait4(process.pid, 0)
        process.returncode = os.waitstatus_to_exitcode(status)
        assert process.returncode in (0, 1), process.args
        used += usage.ru_utime + usage.ru_stime
    return Cost(time.monotonic() - began, used, max(process.returncode for process in processes))


def take_turns(runs: int, ways: Ways, outputs: Mapping[str, pathlib.Path]) -> dict[str, list[Cost]]:
    """Take turns; return the cost of each run. Ways with one output file must write and end alike."""
    costs: dict[str, list[Cost]] = {name: [] for name in ways}
    right: dict[pathlib.Path, tuple[int, bytes]] = {}
    for name, way in [pair for _ in range(runs) for pair in ways.items()]:
        costs[name].append(way())
        if name in outputs:
            found = costs[name][-1].status, outputs[name].read_bytes()
            assert right.setdefault(outputs[name], found) == found, "%s: other bytes or status" % name
    return costs


def clock(work: Callable[[], object], timer: Callable[[], float] = time.monotonic) -> float:
    """Return the seconds that something takes, by the clock where no other timer is given."""
    began = timer()
    work()
    return timer() - began


class Table:
    """Rows in Markdown, each a figure and maybe a bar that it must not pass, and how many bars hold."""

    def __init__(self, runs: int) -> None:
        self.runs, self.held, self.missed = runs, 0, 0

    def head(self, what: str, columns: Sequence[str] = ("Figure", "Bar")) -> None:
        rule = "---|" * (len(columns) + 1)
        print("\n%s:\n\n| | %s |\n|%s" % (what, " | ".join(columns), rule), flush=True)

    def times(self, what: str, seconds: float, besides: Sequence[float]) -> None:
        """Print a time, and each other one with how many times it the first is."""
        pairs = ["%.3f s | %.2f" % (beside, seconds / beside) for beside in besides]
        print("| %s | %.3f s | %s |" % (what, seconds, " | ".join(pairs)), flush=True)

    def beside(self, what: str, figure: float, others: Sequence[float | None], bar: float) -> None:
        """Print a figure, each other one with its ratio to it, and the bar of the last ratio that there is."""
        ratios = [figure / other for other in others if other]
        pairs = ["%.3g | %.2f" % (other, figure / other) if other else " | " for other in others]
        self.row("%s | %.3g | %s" % (what, figure, " | ".join(pairs[:-1])), pairs[-1], ratios[-1], bar)

    def row(self, what: str, figure: str, value: float = 0, bar: float | None = None) -> None:
        """Print a figure in words; with a bar, its value must be at most that."""
        sentence = "" if bar is None else "{:,g}".format(bar) + ("" if value <= bar else ", **not held**")
        print("| %s | %s | %s |" % (what, figure, sentence), flush=True)
        self.held += bar is not None and value <= bar
        self.missed += bar is not None and value > bar

    def ratio(self, what: str, seconds: float, beside: float, bar: float | None = None) -> None:
        """Print a time, and how many times another it is."""
        sentence = "%.3f s, beside %.3f s: %.2f" % (seconds, beside, seconds / beside)
        self.row(what, sentence, seconds / beside, bar)

    def milliseconds(self, what: str, seconds: float, bar: float | None = None) -> None:
        self.row(what + ", in ms", "%d" % (1_000 * seconds), 1_000 * seconds, bar)

    def least(self, *ways: Callable[[], float]) -> list[float]:
        """Return the least time of each way; they take turns."""
        rounds = [[way() for way in ways] for _ in range(self.runs)]
        return [min(column) for column in zip(*rounds)]

    def end(self) -> int:
        """Print how many bars hold, and return the exit status."""
        print("\n%d bars hold, %d don't" % (self.held, self.missed))
        return 1 if self.missed else 0
