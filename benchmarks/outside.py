#!/usr/bin/python3
"""Measure what runs outside the program: the module for JavaScript, the page, the library and the package.

    benchmarks/outside.py [PROGRAM] [--runs N] [--part PART]...

It builds all of these first, where they are out of date. A time is the least of N runs (default: 3), in turn
with those that it is compared with; `processor` marks processor time. Run it on a quiet machine with four
cores: it takes a quarter of an hour. The status is 1 where a figure doesn't hold its bar.
"""

from __future__ import annotations

import collections
import contextlib
import functools
import pathlib
import subprocess
import sys
import tempfile
import time
from typing import Any, Callable, Iterator

from measuring import NULL, TOP, Table, clock, has, list_machines, make, parser, program_of, run, use_library

import budlarem
from budlarem._library import call_library, validate_replies
from web.tests.browser import Page
from support.examples import README
from support.machines import CHAMPION, CHAMPION_STEPS
from web.tests.node import Engine
from web.tests.page_times import PAUSE, end, traced_views, views
from support.program import FOUR, MOST, words_of_plan
from support.runs import WHERE, interrupt

MODULE_BYTES, PAGE_BYTES, MEGABYTE = 108_544, 294_912, 1_000_000
TRACED_LINES, SHORT_LINES, REPORTED, LISTS = 1_000, 1_000_000, 1_000, 1_000
FOUR_STATES = "858,909 machines of four states"
# Has the page write down how long it takes from the choice of a file until all of it is answered and shown.
TAKEN = """
const results = $("results"), now = () => performance.now();
$("file").addEventListener("change", () => { window.began = now(); }, true);
new MutationObserver(() => {
  if (results.dataset.state === "done") requestAnimationFrame(() => { window.taken = now() - window.began; });
}).observe(results, { attributes: true });
"""
# Has the page answer its list so many times, one after another, by no other script.
AGAIN = """
const [times, done] = arguments;
const { dataset } = $("results");
(async () => {
  for (let count = 0; count < times; count += 1) {
    dataset.state = "asked";
    $("run").click();
    while (dataset.state !== "done") await new Promise((next) => setTimeout(next));
  }
  done();
})();
"""


class Bench:
    """The program that is measured, the table, and a folder with the machines of four states and verdicts."""

    def __init__(self, program: str, table: Table, folder: pathlib.Path) -> None:
        self.program, self.table, self.folder = program, table, folder
        self.four, self.verdicts = folder / "four", folder / "verdicts"
        self.four.write_bytes(list_machines(4))
        self.decide = ([program, "decide", *words_of_plan(FOUR)], self.four, NULL)
        self.check = ([program, "check", *words_of_plan(FOUR)], self.verdicts, NULL)
        run((*self.decide[:2], self.verdicts))


def measure_node(bench: Bench) -> None:
    """The module: its size, the list of four states, memory."""
    table, size, given = bench.table, make("web", "web/out/bb.wasm").stat().st_size, bench.four.read_bytes()
    table.head("The module `bb.wasm`, in Node")
    table.row("bytes of the module", "{:,}".format(size), size, MODULE_BYTES)
    with Engine(bench.folder) as engine:
        if engine.about.get("unsupported"):
            print("skipped: the module in Node: it has no vectors")
            return
        node, alone = table.least(
            lambda: float(engine.call("decide", FOUR, given).answer["seconds"]),
            lambda: run(bench.decide).processor,
        )
    table.ratio(FOUR_STATES + ", beside the program; processor", node, alone, 2.5)
    for name in ("decide", "check"):
        held = memory_after(bench, name, MOST, b"1RB1LB_1LA1RZ\n1RB1LB_1LA1RZ halt 6 4\n", 1)
        table.row("memory of `%s` at the greatest limits" % name, "%d MB" % (held / MEGABYTE))
    small = {"steps": 100, "cells": 64, "depth": 20, "nodes": 100}
    one, many = (memory_after(bench, "decide", small, README * 1_000, times) for times in (1, LISTS))
    table.row("memory after one list, and after 1,000", "{:,} and {:,} bytes".format(one, many), many, one)


def memory_after(bench: Bench, name: str, plan: dict[str, int], given: bytes, times: int) -> int:
    """Return the bytes that a fresh engine holds after so many calls."""
    with Engine(bench.folder) as engine:
        held = engine.call(name, plan, given, times=times).answer["held"]
    return int(held)


def measure_trace(bench: Bench) -> None:
    """The champion's run in a thousand lines by `bb_trace`, beside deciding it."""
    machine, cells = CHAMPION.encode(), 65_536
    every = CHAMPION_STEPS // (TRACED_LINES - 1)
    lines: list[int] = []

    def trace() -> None:
        reply = call_library("bb_trace", (50_000_000, cells, 0, every), machine, 1 << 26)
        lines.append(reply.text.count(b"\n"))

    def decide(on: bool) -> None:
        call_library("bb_decide", (50_000_000, cells, 300, 1_000_000, on, on, on), machine + b"\n", 1_000)

    works = (trace, lambda: decide(True), lambda: decide(False))
    timed = (functools.partial(clock, work, time.process_time) for work in works)
    traced, decided, simulated = bench.table.least(*timed)
    bench.table.head("The five-state champion in %d lines by `bb_trace`, in one process" % lines[-1])
    bench.table.ratio("beside `bb_decide`, all deciders; processor", traced, decided, 1.3)
    bench.table.ratio("beside `bb_decide`, simulation alone; processor", traced, simulated)


def measure_look(bench: Bench) -> None:
    """The validation of replies to the list of four states, beside a check of them that makes no step."""
    lines, replies = bench.four.read_bytes(), bench.verdicts.read_bytes()
    lowest = "--steps=0 --cells=1 --depth=0 --nodes=0".split()
    check = ([bench.program, "check", *lowest], bench.verdicts, NULL)
    count = validate_replies(lines, replies).lines
    look = functools.partial(clock, lambda: validate_replies(lines, replies), time.process_time)
    taken, alone = bench.table.least(look, lambda: run(check).processor)
    bench.table.head("`bb_look` over the replies to %s machines of four states" % "{:,}".format(count))
    each = taken / count * 1e9
    bench.table.row("`bb_look`, a line, in ns; processor", "%.0f" % each, each, 100)
    bench.table.ratio("beside `bb check` at the lowest limits; processor", taken, alone)


def measure_calls(bench: Bench) -> None:
    """The library's calls from a loop in C, beside the program: nanoseconds a line, in processor time."""
    made = str(bench.folder / "library")
    sources = ["-I", "include", "benchmarks/library.c", "crates/bb_c/out/libbb.a"]
    subprocess.run(["cc", "-std=gnu99", "-O2", *sources, "-o", made], cwd=TOP, check=True)
    subprocess.run([made, bench.program], check=True)


@contextlib.contextmanager
def open_page(bench: Bench, cores: int | None = None) -> Iterator[Any]:
    """The page in a browser of its own."""
    with Page(TOP / "web" / "out" / "bb.html", bench.folder, cores=cores) as page:
        page.open()
        yield page


def first_verdict(bench: Bench) -> float:
    """Return after how many seconds a page that is opened shows its first verdict."""
    with open_page(bench) as page:
        taken = page.js("return performance.getEntriesByName('first verdict')[0].startTime")
        return float(taken) / 1_000


def list_in_page(bench: Bench, cores: int, longest: list[float]) -> float:
    """Return the seconds that the page takes for the list of four states, by its own clock."""
    with open_page(bench, cores) as page:
        page.plan(FOUR, "decide")
        time.sleep(1)
        page.js("window.longest = 0;" + TAKEN)
        page.choose(str(bench.four))
        taken = page.until(lambda: page.js("return window.taken"))
        longest.append(page.js("return window.longest"))
        return float(taken) / 1_000


def measure_page(bench: Bench) -> None:
    """The page: its size, its first verdict, the list of four states, memory."""
    table, size = bench.table, make("web", "web/out/bb.html").stat().st_size
    table.head("The page `bb.html`, in Chromium, opened from the disk")
    table.row("bytes of the page", "{:,}".format(size), size, PAGE_BYTES)
    table.milliseconds("first verdict after opening", table.least(lambda: first_verdict(bench))[0], 300)
    longest: list[float] = []
    alone, checked, one, four = table.least(
        lambda: run(bench.decide).clock,
        lambda: run(bench.check).clock,
        lambda: list_in_page(bench, 1, longest),
        lambda: list_in_page(bench, 4, longest),
    )
    what = FOUR_STATES + ", decided and checked, by %s, beside the program%s"
    for workers, taken, bar in (("one worker", one, 1.9), ("four workers", four, 0.67)):
        table.ratio(what % (workers, "'s `decide`"), taken, alone)
        table.ratio(what % (workers, "'s `decide` and `check`"), taken, alone + checked, bar)
    table.row("the longest that it stood still meanwhile, in ms", "%d" % max(longest), max(longest), 100)
    measure_page_memory(bench)


def measure_views(bench: Bench) -> None:
    """Views of the five-state champion's run in the page, and what the module takes of them in Node."""
    table, longest = bench.table, []
    each: list[list[float]] = []

    def least_time(work: Callable[[Any], list[float]]) -> float:
        with open_page(bench) as page:
            each.append(work(page))
            longest.append(page.js("return window.longest") / 1_000)
            return max(each[-1])

    table.head("Views of the champion in the page, zoomed at step 9,900,000 of 10,000,000 and back")
    (module,) = table.least(lambda: trace_in_node(bench))
    table.milliseconds("the module's part, which begins at step 0: 10,000,000 steps, 545 lines", module)
    paused, traced, hurried, last = table.least(
        lambda: least_time(lambda page: views(page, PAUSE)),
        lambda: least_time(lambda page: traced_views(page, PAUSE)),
        lambda: least_time(lambda page: views(page, 0.0)),
        lambda: least_time(lambda page: [end(page)]),
    )
    table.milliseconds("the longest of 18 views, with pauses of %.1f s between" % PAUSE, paused, 100)
    table.milliseconds("the middle one of them", min(sorted(taken)[len(taken) // 2] for taken in each[::4]))
    table.milliseconds("the longest of 8 whose rows aren't known, so that each is traced", traced)
    table.milliseconds("the longest of 18, one at once after another", hurried)
    table.milliseconds("to step 47,176,860 of 50,000,000, with the tape", last, 1_500)
    table.milliseconds("the longest that it stood still meanwhile", max(longest), 100)


def trace_in_node(bench: Bench) -> float:
    """Return the seconds that the module takes for the lines of a view at step 10^7."""
    sample = {"steps": 10_000_000, "cells": 65_536, "from": 0, "every": 18_432}
    with Engine(bench.folder) as engine:
        taken = [engine.call("trace", sample, CHAMPION.encode()).answer["seconds"] for _ in range(4)]
    return float(min(taken))


def most_memory(root: int) -> int:
    """Return the most bytes that a browser's process with the page held at once, below a process."""
    listed = subprocess.run(["ps", "-eo", "pid=,ppid="], stdout=subprocess.PIPE, text=True).stdout
    parents = {int(pid): int(parent) for pid, parent in map(str.split, listed.splitlines())}
    below, found = [root], [0]
    for pid in below:
        below.extend(child for child, parent in parents.items() if parent == pid)
        with contextlib.suppress(OSError):
            process = pathlib.Path("/proc", str(pid))
            rows = dict(line.split(":", 1) for line in (process / "status").read_text().splitlines())
            if "VmHWM" in rows and "--type=renderer" in (process / "cmdline").read_text():
                found.append(1024 * int(rows["VmHWM"].split()[0]))
    return max(found)


def measure_page_memory(bench: Bench) -> None:
    """The memory of the page's process: for a short list, at the greatest limits, after a thousand lists."""
    for what, plan in (("at the default limits", {}), ("at the greatest limits", MOST)):
        with open_page(bench, 1) as page:
            page.plan(plan, "decide")
            page.answer_file(README)
            most = most_memory(page.process) / MEGABYTE
            bench.table.row("most memory of the page's process, two machines, %s" % what, "%d MB" % most)
    with open_page(bench) as page:
        held = []
        for times in (1, LISTS - 1):
            page.driver.execute_async_script(AGAIN, times)
            for command in ("HeapProfiler.collectGarbage", "Performance.enable"):
                page.command(command)
            rows = {row["name"]: row["value"] for row in page.command("Performance.getMetrics")["metrics"]}
            held.append(rows["JSHeapUsedSize"] / MEGABYTE)
        figure = "%.1f and %.1f MB" % tuple(held)
        bench.table.row("the page's heap after one list, and after 1,000", figure, held[1], held[0] + 1)


def exhaust(call: Callable[[], Iterator[object]]) -> float:
    """Return how many seconds all that a call gives takes."""
    return clock(lambda: collections.deque(call(), maxlen=0))


def measure_python(bench: Bench) -> None:
    """The package: a million short lines, threads, a report, an interruption."""
    table, short, claimed = bench.table, bench.folder / "short", bench.folder / "claims"
    table.head("The Python package, by Python %d.%d" % sys.version_info[:2])
    given = b"1RB1LB_1LA1RZ\n" * SHORT_LINES
    claims, texts = given.replace(b"\n", b" halt 6 4\n"), given.decode().splitlines()
    short.write_bytes(given)
    claimed.write_bytes(claims)
    ways: list[tuple[str, str, pathlib.Path, float | None, Callable[[], Iterator[object]]]] = [
        ("decide_bytes", "decide", short, 1.1, lambda: budlarem.decide_bytes(given)),
        ("decide", "decide", short, None, lambda: budlarem.decide(texts)),
        ("check_bytes", "check", claimed, 1.1, lambda: budlarem.check_bytes(claims)),
    ]
    for name, word, path, bar, call in ways:
        command = ([bench.program, word], path, NULL)
        taken, alone = table.least(lambda: exhaust(call), lambda: run(command).clock)
        table.ratio("`%s` over 1,000,000 short lines, beside the program" % name, taken, alone, bar)
    limits, machines = budlarem.Limits(**FOUR), bench.four.read_bytes()
    decide = functools.partial(budlarem.decide_bytes, machines, limits)
    one, four = table.least(lambda: exhaust(decide), lambda: exhaust(lambda: decide(threads=4)))
    table.ratio("`decide_bytes` of 858,909 machines by four threads, beside one", four, one)
    if has("a report", modules=("matplotlib",)):
        measure_report(bench)
    for where in WHERE:
        (seconds,) = table.least(lambda: interrupt(where)[2])
        table.row("SIGINT in a %s, until the process has ended, in s" % where, "%.3f" % seconds, seconds, 0.2)


def measure_report(bench: Bench) -> None:
    """A report with a diagram for each of a thousand machines that four states leave undecided."""
    lines = bench.verdicts.read_text().splitlines()
    left = [line for line in lines if " undecided " in line][:REPORTED]
    out = bench.folder / "report.html"
    taken = clock(lambda: budlarem.report(left, str(out), diagrams=REPORTED, threads=4))
    figure = "%.1f s, %.1f MB" % (taken, out.stat().st_size / MEGABYTE)
    what = "a report with %d diagrams of 1,000,000 steps, four threads, in s" % len(left)
    bench.table.row(what, figure, taken, 60)


WORKS = (measure_node, measure_trace, measure_look, measure_calls)
PARTS = {work.__name__[8:]: work for work in (*WORKS, measure_page, measure_views, measure_python)}
NEEDED = {"node": ["node"], "calls": ["cc"], "page": ["chromedriver"], "views": ["node", "chromedriver"]}


def main() -> int:
    asked = parser(__doc__, runs=3, parts=list(PARTS)).parse_args()
    use_library()
    with tempfile.TemporaryDirectory() as folder:
        bench = Bench(program_of(asked), Table(asked.runs), pathlib.Path(folder))
        for name in asked.part or PARTS:
            modules = ("selenium",) if name in ("page", "views") else ()
            if has(name, "rustc", *NEEDED.get(name, ()), modules=modules):
                PARTS[name](bench)
    return bench.table.end()


if __name__ == "__main__":
    sys.exit(main())
