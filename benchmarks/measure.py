#!/usr/bin/python3
"""Compare the program with two plain Rust programs that do the same work, and with the build by cargo.

    benchmarks/measure.py [PROGRAM] [--runs N] [--seed N] [--part PART]...

It builds the two by `rustc -O` (1.65 or later): `peer`, written as one would by hand, and `limit`, written for
speed alone, with the program's layout of code, for x86-64 with AVX2 and BMI2. It makes its lists from a seed,
requires that all write the same bytes and end with the same status, runs them in turn, and prints the least times
and their ratios, of a search the spread of single runs too. The peer has two forms: in a single pass, and in turn. The
lists of deciding are run 2 N - 1 times. The part `limit` has the bars beside `limit`, `around` those of
`budlarem run` and of the module in Node. The instructions are those that `valgrind --tool=callgrind` counts, which
other work on the machine doesn't change. The part `plain` compares the program that `make plain` builds on the
same lists, in processor time. All parts take some half hour, with `--runs 1` about eight minutes. The status is 1
where a figure doesn't hold its bar.
"""

import functools
import os
import pathlib
import random
import re
import subprocess
import sys
import tempfile
from typing import Callable, NamedTuple, Sequence

import runner
from measuring import NULL, TOP, Cost, Table, has, list_machines, make, parser, program_of, run, take_turns
from measuring import use_library
from support import has_kit
from support.machines import CHAMPION, CHAMPION_STEPS, halting_once, machine, uniform
from web.tests.node import Engine
from support.program import FOUR, MAX_CELLS, SIMULATION, as_lines, build_peer, kind_of, replies, run_command
from support.program import unaligned_branches, words_of_plan

CHAMPION_LIST = CHAMPION + "\n"
LIMITS = ["--steps", "1000", "--cells", "200", "--depth", "60"]
LIST, DRAWN, HALTING_LIST, REFUSED_BYTES = 100_000, 800_000, 1_000_000, 50_000_000
TREES, CHECKED, RANDOM, KINDS, OPEN_LONG = 4_000, 2_000, 10_000, 3_000, 300
# What the module in Node may take, beside `limit`: 0.6 of what it took on 30 November 2026.
NODE_BAR = 2.9
COLUMNS = ["Program", "Peer in a single pass", "Ratio", "benchmarks/limit", "Ratio", "At most"]
# What the build by cargo may take, beside the proved one.
PLAIN_BAR = 1.25
THREE_SYMBOLS = "random, three to five states, three symbols"
# Of so many machines of four states one is in the list whose instructions are counted.
COUNTED = 100


class Case(NamedTuple):
    """The name, the options and the list of a measurement, and the switch that turns its search off."""

    name: str
    options: list[str]
    lines: str
    switch: str = ""


def draw(machine: Callable[[random.Random, int], str], source: random.Random, count: int, states: int) -> str:
    """Draw so many machines of one kind and size."""
    return as_lines(machine(source, states) for _ in range(count)).decode()


def refused_lines(source: random.Random) -> str:
    """Draw lines of 1 to 60 bytes that are no machines: of any letters, or machines cut short or spoilt."""
    lines: list[str] = []
    size = 0
    while size < REFUSED_BYTES:
        line, kind = halting_once(source, 4), source.randrange(3)
        if kind == 0:
            line = line[: source.randrange(1, 27)]
            line = line if len(line) % 7 != 6 else line[:-1] + "x"
        elif kind == 1:
            at = source.randrange(27)
            line = line[:at] + "x" + line[at + 1 :]
        else:
            line = "x" * source.randrange(1, 61)
        lines.append(line)
        size += len(line) + 1
    return "\n".join(lines) + "\n"


def cases_in_turn(seed: int) -> list[Case]:
    """Return what measures the simulation, reading, backward reasoning, and all deciders at once.

    Of backward reasoning no machine makes a step, so nearly all time goes into the walks.
    """
    source = random.Random(seed)
    four, halting = draw(halting_once, source, LIST, 4), "------\n" * HALTING_LIST
    at_once = "%d machines that halt at once" % HALTING_LIST
    trees = ["--no-cyclers", "--no-translated", "--steps", "0", "--cells", "2000", "--depth", "1000"]
    walked = draw(halting_once, random.Random(seed), TREES, 5)
    drawn, widest = draw(uniform, random.Random(seed), RANDOM, 5), ["--cells", str(MAX_CELLS)]
    return [
        Case("the five-state champion", [*SIMULATION, "--steps", "50000000"], CHAMPION_LIST),
        Case("%d machines of four states" % LIST, [*SIMULATION, *LIMITS], four),
        Case("the same, without a step", [*SIMULATION, "--steps", "0", *LIMITS[2:]], four),
        Case(at_once + ", 64 cells", [*SIMULATION, "--cells", "64", "--depth", "10"], halting),
        Case("%s, %d cells" % (at_once, MAX_CELLS), [*SIMULATION, *widest], halting),
        Case("%d bytes of refused lines" % REFUSED_BYTES, SIMULATION, refused_lines(source)),
        Case("backward reasoning over %d machines of five states" % TREES, trees, walked),
        Case("%d machines of five states, all deciders, default limits" % RANDOM, [], drawn),
    ]


def cases_in_single_pass(program: str, source: random.Random) -> list[Case]:
    """Return what measures deciding in a single pass."""
    four = list_machines(4).decode()
    limits = [*LIMITS, "--nodes", "2000"]
    left = undecided_machines(program, limits, four).splitlines(keepends=True)
    few = "".join(left[:: max(1, len(left) // OPEN_LONG)])
    kinds = "%d machines of five states, %%s, default limits" % KINDS
    few_name = "%d undecided machines of four states, default limits" % few.count("\n")
    return [
        Case("all %d machines of four states" % four.count("\n"), limits, four),
        Case(kinds % "one halting entry", [], draw(halting_once, source, KINDS, 5)),
        Case(kinds % "uniformly drawn", [], draw(uniform, source, KINDS, 5)),
        Case(kinds % "one undefined entry", [], draw(halting_once, source, KINDS, 5).replace("1RZ", "---")),
        Case("the champion, all deciders", ["--steps", "50000000"], CHAMPION_LIST),
        Case(few_name + ", without the tree", ["--no-backward"], few),
        Case(few_name, [], few),
    ]


class Bar(NamedTuple):
    """A list, of how many lines or steps a figure is one, and the bar of the program beside the last other one."""

    case: Case
    units: int
    bar: float


def bars(seed: int) -> list[Bar]:
    """Return what has a bar beside `limit`, and beside the peer where there are three symbols."""
    source, limits = random.Random(seed), [*LIMITS, "--nodes", "2000"]
    four, five = list_machines(4).decode(), list_machines(5, "--every", "200").decode()
    kinds = {
        "one halting entry": draw(halting_once, source, KINDS, 5),
        "uniformly drawn": draw(uniform, source, KINDS, 5),
        "one undefined entry": draw(halting_once, source, KINDS, 5).replace("1RZ", "---"),
    }
    three = as_lines(machine(source, source.randint(3, 5), 3) for _ in range(KINDS)).decode()
    none = ["--steps", "0", *LIMITS[2:], "--no-backward"]
    lists = [(Case("four states", limits, four), 1.5), (Case("five states, each 200th", limits, five), 1.6)]
    lists += [(Case("random, five states, %s" % kind, [], lines), 2.0) for kind, lines in kinds.items()]
    lists += [(Case("four states without a step", none, four), 2.0)]
    found = [Bar(case, case.lines.count("\n"), bar) for case, bar in lists]
    long = ["--steps", "50000000"]
    found += [
        Bar(Case("the champion simulated, a step", [*SIMULATION, *long], CHAMPION_LIST), CHAMPION_STEPS, 1.4)
    ]
    found += [Bar(Case("the champion, all deciders, a step", long, CHAMPION_LIST), CHAMPION_STEPS, 1.6)]
    return [*found, Bar(Case(THREE_SYMBOLS, [], three), KINDS, 0.7)]


def undecided_machines(program: str, options: Sequence[str], lines: str) -> str:
    """Return the lines on whose machines nothing is found: there all ways make the same steps."""
    found = replies([program, "decide", *options], lines.splitlines())
    return as_lines(line.split()[0] for line in found if kind_of(line) == "undecided").decode()


def searches(program: str, source: random.Random) -> list[Case]:
    """Return what measures a search: runs on which it finds nothing, so that all their steps are made."""
    long, cycles = ["--steps", "40000000"], ["--no-translated", "--no-backward"]
    records = ["--no-cyclers", "--no-backward"]
    four = draw(halting_once, source, LIST, 4)
    steps = "cyclers over the champion's first 40,000,000 steps"
    cases = [
        Case(steps, [*long, *cycles], CHAMPION_LIST, "--no-cyclers"),
        Case("cyclers over %d machines of four states" % LIST, [*LIMITS, *cycles], four, "--no-cyclers"),
        Case("translated over the same steps", [*long, *records], CHAMPION_LIST, "--no-translated"),
    ]
    for states in (4, 5):
        kept = undecided_machines(program, [*LIMITS, *records], draw(halting_once, source, DRAWN, states))
        name = "translated over %d machines of %d states that it doesn't find" % (kept.count("\n"), states)
        cases.append(Case(name, [*LIMITS, *records], kept, "--no-translated"))
    return cases


def count_instructions(command: Sequence[str], lines: str) -> int:
    """Count the instructions of a command over a list."""
    counting = ["valgrind", "--tool=callgrind", "--callgrind-out-file=/dev/null", *command]
    return int(re.findall(rb"Collected : (\d+)", run_command(counting, lines.encode()).error)[0])


def instructions_a_step(program: str, *form: str) -> str:
    """Count the instructions a step of the simulation, of each search alone, and of the single-pass run."""
    plans = {
        "simulation": SIMULATION,
        "cyclers alone": ["--no-translated", "--no-backward"],
        "translated alone": ["--no-cyclers", "--no-backward"],
        "both in a single pass": ["--no-backward"],
    }
    figures = []
    for what, options in plans.items():
        commands = [
            [program, "decide", "--steps", str(steps), *options, *form] for steps in (10**6, 2 * 10**6)
        ]
        fewer, more = (count_instructions(command, CHAMPION_LIST) for command in commands)
        figures.append("%s %.1f" % (what, (more - fewer) / 10**6))
    return ", ".join(figures)


class Bench:
    """The program, the plain ones, the table, and the file of the list."""

    def __init__(self, table: Table, program: str, folder: pathlib.Path) -> None:
        self.table, self.program, self.list = table, program, folder / "list"
        self.peer, self.limit = (build_peer(folder, name) for name in ("peer", "limit"))

    def costs(
        self, lines: str, commands: Sequence[Sequence[str]], is_same: bool, runs: int = 0
    ) -> list[list[Cost]]:
        """Return what the runs of each command over a list cost; all may have to write the same."""
        self.list.write_text(lines, encoding="ascii")
        places = range(len(commands))
        outputs = {str(at): self.list.with_name("out-%d" % (at * (not is_same))) for at in places}
        pairs = [(command, self.list, output) for command, output in zip(commands, outputs.values())]
        ways = {name: functools.partial(run, pair) for name, pair in zip(outputs, pairs)}
        return list(take_turns(runs or self.table.runs, ways, outputs).values())

    def processors(self, lines: str, commands: Sequence[Sequence[str]]) -> list[list[float]]:
        """Return the processor time of each run; all must end with status 0."""
        costs = self.costs(lines, commands, False)
        assert all(cost.status == 0 for row in costs for cost in row), "a line is refused, or not confirmed"
        return [[cost.processor for cost in row] for row in costs]


def measure_limit(bench: Bench, seed: int) -> None:
    """Print the program's times beside those of the plain programs, with bars."""
    bench.table.head("Nanoseconds a line, in processor time", COLUMNS)
    wide = bench.list.with_name("wide")
    wide.mkdir()
    peer_of_many_symbols = build_peer(wide, "peer", "--cfg", "wide")
    for case, units, bar in bars(seed):
        words, is_two = ["decide", *case.options], case.name != THREE_SYMBOLS
        peer = bench.peer if is_two else peer_of_many_symbols
        commands = [
            [bench.program, *words],
            [peer, *words, "--single-pass"],
            *([[bench.limit, *words]] * is_two),
        ]
        costs = bench.costs(case.lines, commands, True, 2 * bench.table.runs - 1)
        ours, *others = (1e9 * min(cost.processor for cost in row) / units for row in costs)
        bench.table.beside(case.name, ours, [*others, *([None] * (not is_two))], bar)


def measure_around(bench: Bench, _seed: int) -> None:
    """Print the times of the module in Node and of `budlarem run` beside the program, over four states."""
    four = list_machines(4)
    if has("the module in Node", "node"):
        measure_node(bench, four)
    use_library()
    top = bench.list.with_name("four states, four times")
    runner.measure_run(runner.Bench(bench.table, bench.program, os.cpu_count() or 1, top, 4 * four))


def measure_node(bench: Bench, given: bytes) -> None:
    """Print what the module takes for a list in Node; it must reply as the program does."""
    module, table = TOP / "web" / "out" / "bb.wasm", bench.table
    words = ["decide", *(word for option in words_of_plan(FOUR) for word in option.split("="))]
    with Engine(
        bench.list.parent, make("web", str(module)) if has_kit() else module, bench.program
    ) as engine:
        engine.require_same("decide", FOUR, given)
        ways = [lambda: float(engine.call("decide", FOUR, given).answer["seconds"])]
        for program in (bench.program, bench.limit):
            ways.append(functools.partial(processor_time_of, [program, *words], engine.given))
        columns = ["Module", "Program", *COLUMNS[2:]]
        table.head("The module in Node, in nanoseconds of processor time a line", columns)
        ours, *others = (1e9 * seconds / given.count(b"\n") for seconds in table.least(*ways))
    table.beside("four states", ours, others, NODE_BAR)


def processor_time_of(command: Sequence[str], given: pathlib.Path) -> float:
    return run((command, given, NULL)).processor


def measure_peer(bench: Bench, seed: int) -> None:
    """Compare with the plain Rust programs."""
    program, peer, limit, table = bench.program, bench.peer, bench.limit, bench.table
    table.head("Beside plain Rust, by the clock", ["Program", "Peer", "Ratio", "benchmarks/limit", "Ratio"])
    for case in cases_in_turn(seed):
        commands = [[each, "decide", *case.options] for each in (program, peer, limit)]
        ours, *theirs = (min(row).clock for row in bench.costs(case.lines, commands, True))
        table.times(case.name, ours, theirs)
    decided = cases_in_single_pass(program, random.Random(seed))
    columns = [
        "Program",
        "Peer in a single pass",
        "Ratio",
        "Peer in turn",
        "Ratio",
        "benchmarks/limit",
        "Ratio",
    ]
    table.head("Deciding beside plain Rust, in processor time", columns)
    for case in decided:
        words = ["decide", *case.options]
        commands = [[program, *words], [peer, *words, "--single-pass"], [peer, *words], [limit, *words]]
        costs = bench.costs(case.lines, commands, True, 2 * table.runs - 1)
        ours, *theirs = (min(cost.processor for cost in row) for row in costs)
        table.times(case.name, ours, theirs)
    table.head("Branches and instructions")
    if has("branches", "objdump"):
        table.row(
            "unaligned and aligned branches of the single-pass run", "%d, %d" % unaligned_branches(program)
        )
    if has("instructions", "valgrind"):
        forms = {
            "the program": [program],
            "the peer in a single pass": [peer, "--single-pass"],
            "benchmarks/limit": [limit],
        }
        counted = "".join(decided[0].lines.splitlines(keepends=True)[::COUNTED])
        for name, (built, *form) in forms.items():
            all_of_list = count_instructions([built, "decide", *decided[0].options, *form], counted)
            what = "one of %d machines of four states, million instructions of %s" % (COUNTED, name)
            table.row(what, "%.1f" % (all_of_list / 10**6))
            table.row("instructions a step of %s" % name, instructions_a_step(built, *form))


def measure_searches(bench: Bench, seed: int) -> None:
    """Compare each search with the simulation of the same lines, and checking with deciding."""
    program, table = bench.program, bench.table
    table.head("Searches and checking, in processor time")
    for case in searches(program, random.Random(seed)):
        command = [program, "decide", *case.options]
        without, searching = bench.processors(case.lines, [[*command, case.switch], command])
        ratios = [search / simulation for simulation, search in zip(without, searching)]
        spread = "%.2f to %.2f in single runs" % (min(ratios), max(ratios))
        table.ratio("%s, beside the simulation (%s)" % (case.name, spread), min(searching), min(without))
    machines = draw(halting_once, random.Random(seed), CHECKED, 5)
    verdicts = verdicts_of(program, machines)
    (checking,), (deciding,) = (
        bench.processors(lines, [[program, word]])
        for word, lines in (("check", verdicts), ("decide", machines))
    )
    what = "checking the lines of %d machines of five states, beside deciding them" % CHECKED
    table.ratio(what, min(checking), min(deciding))


def verdicts_of(program: str, machines: str) -> str:
    """Decide machines with the default limits."""
    return as_lines(replies([program, "decide"], machines.splitlines())).decode()


def measure_plain(bench: Bench, seed: int) -> None:
    """Compare the program that cargo builds with the proved one, on the lists of all parts."""
    program, table = bench.program, bench.table
    built = str(make("plain", "out/plain/target/release/bb"))
    table.head("The build by cargo beside the proved one, in processor time")
    verdicts = 100 * verdicts_of(program, draw(halting_once, random.Random(seed), CHECKED, 5))
    checking = Case("checking %d lines of machines of five states" % verdicts.count("\n"), [], verdicts)
    cases = [*cases_in_turn(seed), *cases_in_single_pass(program, random.Random(seed))]
    cases += searches(program, random.Random(seed))
    for word, case in [*(("decide", case) for case in cases), ("check", checking)]:
        commands = [[each, word, *case.options] for each in (built, program)]
        plain, proved = (
            min(cost.processor for cost in costs) for costs in bench.costs(case.lines, commands, True)
        )
        table.ratio(case.name, plain, proved, PLAIN_BAR)
    if has("instructions a step", "valgrind"):
        table.row("instructions a step of the build by cargo", instructions_a_step(built))


PARTS = {
    "limit": measure_limit,
    "around": measure_around,
    "peer": measure_peer,
    "searches": measure_searches,
    "plain": measure_plain,
}


def main() -> int:
    words = parser(__doc__, runs=5, parts=list(PARTS))
    words.add_argument("--seed", type=int, default=1962, metavar="S", help="of the lists (default: 1962)")
    asked = words.parse_args()
    if not has("the comparison", "rustc"):
        return 1
    with tempfile.TemporaryDirectory() as folder:
        bench = Bench(Table(asked.runs), program_of(asked), pathlib.Path(folder))
        for name in asked.part or PARTS:
            if has(name, *(["cargo"] if name == "plain" else [])):
                PARTS[name](bench, asked.seed)
    return bench.table.end()


if __name__ == "__main__":
    sys.exit(main())
