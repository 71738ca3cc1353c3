#!/usr/bin/python3
"""Measure `budlarem run`: beside GNU parallel over the built program, by threads, and by dask.

    benchmarks/runner.py [PROGRAM] [--threads N] [--runs N] [--lines N] [--part PART]...

The lists are the machines of four states in tree normal form, and 200,000 random ones of five. Ways that
write verdicts must write the same; the least of the runs counts. The status is 1 where a bar fails. The parts:

- `memory`: of the runner over a list, and over one of ten times as many lines.
- `bars`: beside the program, processes of it, and GNU parallel, over all of four states twenty times; what
  Python needs to start, as a run over no line shows it, is left out.
- `threads`: one process, one thread, several, and GNU parallel; whole commands.
- `dask`: one process, and dask with one and three workers, by the summary's time; with few steps four states.
- `waiting`: a thousand workers that only wait: how many chunks a second are handed out and taken back.
"""

import functools
import json
import os
import pathlib
import random
import subprocess
import sys
import tempfile
from typing import Any, Sequence

from measuring import NULL, Cost, Table, Ways, has, list_machines, parser, program_of, run, take_turns
from measuring import use_library
from support.clusters import Cluster, changed_package, cluster
from support.machines import CHAMPION, uniform
from support.program import as_lines, options
from support.runs import QUICK_PASS, Case, most_memory, words_of

PARTS = ("memory", "bars", "threads", "dask", "waiting")
RANDOM, MEMORY_LINES, TIMES = 200_000, 1_000_000, 20
# Limits: those of a first pass, and those of a run that looks further.
ROWS = ((1_000, 1_024, 40, 10_000), (100_000, 4_096, 300, 100_000))
# GNU parallel with blocks of some sizes, of which the best counts.
PARALLEL = ("GNU parallel, 100k", "GNU parallel, 1M", "GNU parallel, 10M")
# Processes of workers that wait, and how many threads each has.
WAITING_PROCESSES, WAITING_THREADS = 4, 250
# Seconds that each chunk waits, lines of a chunk, and how many chunks there are.
WAITING = ((0.5, 100, 10_000), (0.5, 1_000, 4_000))
REPLIES = "    return decide_call("
WAITS = """    __import__("time").sleep(%f)
    return lines.replace(b"\\n", b" undecided steps\\n")
"""


class Bench:
    """A list, the ways to decide it, and what they cost."""

    def __init__(self, table: Table, program: str, threads: int, folder: pathlib.Path, given: bytes) -> None:
        self.table, self.program, self.threads = table, program, threads
        self.case, self.verdicts = Case(folder, given), folder / "verdicts"
        self.summary: dict[str, Any] = {}

    def decide(self, limits: Sequence[int], *before: str) -> Cost:
        """Run the program over the list, called by the words before it."""
        command = [*before, self.program, "decide", *options(limits)]
        return run((command, self.case.list, self.verdicts))

    def run(self, limits: Sequence[int], *words: str, given: str = "") -> Cost:
        """Run the runner over the list, or another one, and put its verdicts where the program's go."""
        self.case.clear()
        command = [sys.executable, "-m", "budlarem", "run", given or str(self.case.list), "--out"]
        cost = run(([*command, str(self.case.out), "--pass", words_of(limits), *words], NULL, NULL))
        self.verdicts.write_bytes(self.case.verdicts())
        return cost

    def by_dask(self, limits: Sequence[int], found: Cluster, *words: str) -> Cost:
        """Run the runner by dask; the time is that of its summary, so without the start of Python."""
        self.run(limits, "--scheduler", found.address, *words)
        self.summary = json.loads((self.case.out / "summary.json").read_text())
        return Cost(self.summary["seconds"])

    def by_parallel(self, limits: Sequence[int]) -> Ways:
        """Return a way for each size of the blocks of GNU parallel."""
        words = ["parallel", "-j", str(self.threads), "--pipe", "-k", "--block"]
        return {name: functools.partial(self.decide, limits, *words, name[14:]) for name in PARALLEL}

    def least(self, limits: Sequence[int], ways: Ways, others: Ways = {}) -> dict[str, float]:
        """Print and return the least times, of processors as `NAME; processor`; `others` write nothing."""
        written = dict.fromkeys(ways, self.verdicts)
        found: dict[str, float] = {}
        self.table.head("%s over %s" % (words_of(limits), self.case.list.parent.name))
        for name, costs in take_turns(self.table.runs, {**ways, **others}, written).items():
            least = min(cost.clock for cost in costs), min(cost.processor for cost in costs)
            found[name], found[name + "; processor"] = least
            self.table.row(name, "%.2f s by the clock, %.2f s of processors" % least)
        found["GNU parallel"] = min(found.get(name, 0) for name in PARALLEL)
        return found


def measure_run(bench: Bench, others: Ways = {}) -> dict[str, float]:
    """Print what `budlarem run` takes beside the program, without the start of Python; return all times."""
    limits, table, words, given = ROWS[0], bench.table, options(ROWS[0]), bench.case.list
    decided = given.with_name("decided")
    run(([bench.program, "decide", *words], given, decided))
    many = ["--threads", str(bench.threads)]
    ways = {
        "program": lambda: bench.decide(limits),
        "one": lambda: bench.run(limits, "--threads", "1"),
        "one, checked": lambda: bench.run(limits, "--threads", "1", "--check"),
        "several, checked": lambda: bench.run(limits, *many, "--check"),
        "several": lambda: bench.run(limits, *many),
    }
    apart = {
        "start": lambda: bench.run(limits, given=os.devnull),
        "check": lambda: run(([bench.program, "check", *words], decided, NULL)),
    }
    found = bench.least(limits, {**ways, **others}, apart)
    for name in list(ways)[1:]:
        for column in ("", "; processor"):
            found[name + column] -= found["start" + column]
    table.head("`budlarem run` beside the program, %d threads, without the start of Python" % bench.threads)
    one, checked = found["one; processor"], found["one, checked; processor"]
    alone = found["program; processor"] + found["check; processor"]
    table.ratio("one worker; processor", one, found["program; processor"], 1.15)
    table.ratio("one worker, checked; processor", checked, alone, 1.3)
    both = found["program"] + found["check"]
    table.ratio("several workers, checked", found["several, checked"], both, 0.33)
    table.ratio("one worker, checked", found["one, checked"], both)
    return found


def measure_bars(bench: Bench) -> None:
    """Print each bar with its figure."""
    limits, table, given = ROWS[0], bench.table, bench.case.list
    decide = [bench.program, "decide", *options(limits)]
    split = ["split", "-n", "l/%d" % bench.threads, given.name, "part-"]
    subprocess.run(split, cwd=given.parent, check=True)
    parts = [(decide, part, part.with_suffix(".out")) for part in sorted(given.parent.glob("part-*"))]
    found = measure_run(bench, bench.by_parallel(limits))
    processes = min(run(*parts).clock for _ in range(table.runs))
    one, several, deciding = (found[name] for name in ("one, checked", "several, checked", "several"))
    table.head("%d workers, without the start of Python" % bench.threads)
    table.ratio("several workers beside one, checked: at least three times as fast", several, one, 1 / 3)
    table.ratio("deciding beside as many processes", deciding, processes, 1.7)
    table.ratio("deciding beside GNU parallel", deciding, found["GNU parallel"], 1.0)


def measure_threads(bench: Bench, limits: Sequence[int]) -> None:
    """Print what one process, threads, and GNU parallel take."""
    ways = {
        "one process": lambda: bench.decide(limits),
        "one thread": lambda: bench.run(limits, "--threads", "1"),
        "several threads": lambda: bench.run(limits, "--threads", str(bench.threads)),
        **bench.by_parallel(limits),
    }
    found = bench.least(limits, ways)
    bench.table.ratio("several threads beside GNU parallel", found["several threads"], found["GNU parallel"])
    bench.table.ratio("one thread beside several", found["one thread"], found["several threads"])


def wait_for_workers(found: Cluster, count: int) -> None:
    """Return when a scheduler has so many workers."""
    import distributed

    with distributed.Client(found.address, set_as_default=False) as client:
        client.wait_for_workers(count)


def measure_dask(bench: Bench, limits: Sequence[int], folder: pathlib.Path) -> None:
    """Print what one process, and dask with one worker and with three take."""
    bar = 1.2 if limits == ROWS[0] else 1.1
    with cluster(1, folder) as one, cluster(3, folder) as three:
        wait_for_workers(one, 1)
        wait_for_workers(three, 3)
        ways = {
            "process": lambda: bench.decide(limits),
            "one": lambda: bench.by_dask(limits, one),
            "three": lambda: bench.by_dask(limits, three),
        }
        found = bench.least(limits, ways)
    bench.table.ratio("dask with one worker beside one process", found["one"], found["process"], bar)
    bench.table.ratio("dask with one worker beside three", found["one"], found["three"])


def measure_waiting(bench: Bench, folder: pathlib.Path, share: float) -> None:
    """Print how many chunks a second workers get that only wait, and say that nothing is decided."""
    bench.table.head("%d workers that wait" % (WAITING_PROCESSES * WAITING_THREADS))
    for seconds, lines, chunks in WAITING:
        top = folder / ("waiting-%d" % lines)
        top.mkdir()
        with cluster(0, top) as found:
            variables = changed_package(top, "runner/chunks.py", [(REPLIES, WAITS % seconds + REPLIES)])
            for _ in range(WAITING_PROCESSES):
                found.start_worker(variables, WAITING_THREADS)
            wait_for_workers(found, WAITING_PROCESSES)
            bench.case.list.write_bytes(as_lines([CHAMPION]) * int(lines * chunks * share))
            taken = bench.by_dask(QUICK_PASS, found, "--chunk", str(lines)).clock
        count = sum(one["chunks"] for one in bench.summary["passes"])
        assert bench.verdicts.stat().st_size > 0
        figure = "%d chunks, %.0f a second" % (count, count / taken)
        bench.table.row("%.1f s, chunks of %d lines" % (seconds, lines), figure)


def main() -> int:
    words = parser(__doc__, runs=5, parts=PARTS)
    words.add_argument("--threads", type=int, default=os.cpu_count(), help="default: all cores")
    words.add_argument("--lines", type=int, default=10**6, help="of each list, at most")
    asked = words.parse_args()
    if not has("the runner", "parallel", "rustc", modules=("distributed",)):
        return 1
    use_library()
    parts, table, program = asked.part or PARTS, Table(asked.runs), program_of(asked)
    four = b"".join(list_machines(4).splitlines(keepends=True)[: asked.lines])
    source = random.Random(5)
    both = four + as_lines(uniform(source, 5) for _ in range(min(RANDOM, asked.lines)))
    with tempfile.TemporaryDirectory() as name:
        top = pathlib.Path(name)
        bench = functools.partial(Bench, table, program, asked.threads)
        if "memory" in parts:
            case = Case(top / "memory", b"")
            for count in (MEMORY_LINES, 10 * MEMORY_LINES):
                print("%d lines: at most %d KiB" % (count, most_memory(case, count, QUICK_PASS)), flush=True)
        if "bars" in parts:
            measure_bars(bench(top / ("four states, %d times" % TIMES), four * TIMES))
        for at, limits in enumerate(ROWS):
            if "threads" in parts:
                measure_threads(bench(top / ("both lists, %d" % at), both), limits)
            if "dask" in parts:
                # With few steps, so many lines that chunks are large.
                given = both if at else four * 5
                measure_dask(bench(top / ("by dask, %d" % at), given), limits, top)
        if "waiting" in parts:
            measure_waiting(bench(top / "waiting", b""), top, min(asked.lines / 10**6, 1.0))
    return table.end()


if __name__ == "__main__":
    sys.exit(main())
