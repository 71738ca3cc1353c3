"""The package beside the program, byte for byte where there are bytes."""

import itertools
import random
import signal
import sys
from typing import Iterator, Sequence

import budlarem
import pytest
from budlarem import Limits, Plan
from support.claims import forge
from support.machines import mixed_machines
from support.program import PLANS, ROWS, SIMULATION, as_lines, run_command, options
from support.runs import WHERE, interrupt

Row = tuple[int, int, int, int]
MEMORY = """
import itertools, resource, sys, budlarem
count = int(sys.argv[1])
lines = itertools.repeat("1RB1LB_1LA1RZ", count)
limits = budlarem.Limits(100, 64, 5, 100)
found = sum(1 for _ in budlarem.decide(lines, limits)) if sys.argv[2] == "decide" else sum(
    block.count(10) for block in budlarem.decide_bytes((b"1RB1LB_1LA1RZ\\n" for _ in range(count)), limits))
assert found == count
print(resource.getrusage(resource.RUSAGE_SELF).ru_maxrss)
"""


def output_of(bb: str, asked: Sequence[str], given: bytes) -> bytes:
    return run_command([bb, *asked], given).output


def random_row(source: random.Random) -> Row:
    """Limits that are accepted, most of them small."""
    cells = source.choice((1, 2, 7, 64, 599, 4_096))
    depth = source.randint(0, min((cells + 1) // 2, 60))
    return (source.choice((0, 1, 17, 300, 5_000)), cells, depth, source.choice((0, 3, 100, 2_000)))


def require_deciding(bb: str, row: Row, switches: Sequence[str], lines: list[str], threads: int) -> list[str]:
    """The package's verdicts, as objects and as bytes, are the program's; gives their lines."""
    expected = output_of(bb, ["decide", *options(row), *switches], as_lines(lines))
    limits, plan = Limits(*row), Plan(*(switch not in switches for switch in SIMULATION))
    assert b"".join(budlarem.decide_bytes(as_lines(lines), limits, plan, threads=threads)) == expected
    verdicts = list(budlarem.decide(lines, limits, plan, threads=threads))
    assert as_lines(map(str, verdicts)) == expected
    assert list(map(budlarem.parse, expected.decode().splitlines())) == verdicts
    return expected.decode().splitlines()


def list_of(count: int) -> list[str]:
    return list(mixed_machines(count, 1))


@pytest.mark.parametrize("row", ROWS)
def test_rows_of_limits(bb: str, row: Row) -> None:
    for switches in itertools.product((0, 1), repeat=3):
        off = [word for word, is_off in zip(SIMULATION, switches) if is_off]
        require_deciding(bb, row, off, list_of(300), 1)


def require_parse(lines: Sequence[str], answers: Sequence[str]) -> None:
    """`parse` refuses just what the checker calls unread, and `str` gives back what it takes."""
    right = [None if answer == "unread" else line for line, answer in zip(lines, answers)]
    wrong = [line for line, other in zip(lines, right) if parse_line(line) != other]
    assert not wrong and len(lines) == len(answers), wrong[:3]


def parse_line(line: str) -> object:
    try:
        return str(budlarem.parse(line))
    except ValueError:
        return None


@pytest.mark.parametrize("count", [2_000, pytest.param(20_000, marks=pytest.mark.slow)])
def test_random_limits(bb: str, rng: random.Random, count: int) -> None:
    """Random machines at random limits, a thousand at each, and claims made of their verdicts."""
    lists = list_of(count)
    for begin in range(0, count, 1_000):
        row, threads = random_row(rng), rng.choice((1, 4))
        lines = require_deciding(bb, row, rng.choice(PLANS), lists[begin : begin + 1_000], threads)
        # Half of the claims are forged.
        claims = [*lines[::2], *forge(rng, lines, len(lines) // 2)]
        expected = output_of(bb, ["check", *options(row)], as_lines(claims))
        assert b"".join(budlarem.check_bytes(as_lines(claims), Limits(*row))) == expected
        assert as_lines(map(str, budlarem.check(claims, Limits(*row), threads=2))) == expected
        require_parse(claims, expected.decode().splitlines())


def noise(source: random.Random, count: int) -> Iterator[str]:
    """Lines that look like machines and verdicts in some places, and like nothing in others."""
    parts = "1RB 0LA --- _ halt refused 9 0 1 Z \r \t \x00 é \ud800".split(" ") + [" "]
    for _ in range(count):
        yield "".join(source.choices(parts, k=source.choice((0, 1, 2, 5, 30, 600))))


@pytest.mark.parametrize("count", [2_000, pytest.param(20_000, marks=pytest.mark.slow)])
def test_noise(bb: str, rng: random.Random, count: int) -> None:
    lines = [*noise(rng, count), "1RA1RA" * 200_000, "x" * 3_000_000]
    expected = output_of(bb, ["decide"], as_lines(lines)).decode().splitlines()
    found = list(budlarem.decide(lines))
    assert [str(verdict) for verdict in found] == expected
    assert all(one.machine == line for one, line in zip(found, lines)), "what was refused keeps its text"
    answers = output_of(bb, ["check"], as_lines(lines)).decode().splitlines()
    assert [str(answer) for answer in budlarem.check(lines)] == answers
    require_parse(lines, answers)
    blob = rng.randbytes(1_000_000)
    assert b"".join(budlarem.decide_bytes(blob)) == output_of(bb, ["decide"], blob)
    assert b"".join(budlarem.check_bytes(blob)) == output_of(bb, ["check"], blob)


@pytest.mark.parametrize("count", [20_000, pytest.param(1_000_000, marks=pytest.mark.slow)])
def test_four_states(bb: str, four_states: list[str], count: int) -> None:
    for threads in (1, 4):
        require_deciding(bb, (200, 256, 20, 1_000), [], four_states[:count], threads)


@pytest.mark.parametrize("count", [30, pytest.param(300, marks=pytest.mark.slow)])
def test_traces(bb: str, rng: random.Random, count: int) -> None:
    """Traces whole and of some steps; each row tells where its cells begin."""
    for machine in list_of(count):
        upto, cells = rng.choice((0, 1, 50, 300, 2_000)), rng.choice((1, 5, 64, 65_536))
        asked = ["trace", "--upto", str(upto), "--cells", str(cells), "--", machine]
        status, written, _ = run_command([bb, *asked])
        lines = written.decode().splitlines()
        start, every = rng.choice((0, 0, 3, 40)), rng.choice((1, 2, 7))
        trace = budlarem.trace(machine, upto, cells, start, every)
        rows = list(trace)
        assert [str(now) for now in rows] == lines[start::every], (machine, upto, cells, start, every)
        assert trace.cut is (status == 1)
        visited = (int(line.split(" ")[2]) for line in lines if line.split(" ")[1] != "Z")
        lows = list(itertools.accumulate(visited, min))
        assert [now.low for now in rows if now.state != "Z"] == lows[start::every]


def test_comparisons_and_normal_forms(rng: random.Random) -> None:
    """Verdicts at two limits, in two orders, don't contradict each other; normal forms have the same fate."""
    lists = list(dict.fromkeys(list_of(1_000)))
    small, large = ([*budlarem.decide(lists, Limits(*row))] for row in ((20, 9, 5, 10), (1_000, 64, 20, 100)))
    found = list(budlarem.compare(small, rng.sample(large, len(large))))
    assert {str(one.agreement) for one in found} == {"agree", "second-decides"}
    assert sorted(one.machine for one in found) == sorted(lists)
    simulation = Plan(cyclers=False, translated=False, backward=False)
    forms = [budlarem.normal(machine, steps=1_000) for machine in lists]
    fates = []
    for machines in (lists, [form.normal for form in forms]):
        verdicts = budlarem.decide(machines, Limits(steps=1_000), simulation)
        fates.append([str(verdict).partition(" ")[2] for verdict in verdicts])
    assert fates[0] == fates[1]
    assert all(budlarem.normal(form.normal, steps=1_000).normal == form.normal for form in forms)
    assert all(form.normal.startswith("---") or form.normal[1] == "R" for form in forms)


@pytest.mark.parametrize("count", [500_000, pytest.param(10_000_000, marks=pytest.mark.slow)])
@pytest.mark.parametrize("how", ["decide", "bytes"])
def test_memory(how: str, count: int) -> None:
    commands = ([sys.executable, "-c", MEMORY, str(lines), how] for lines in (100_000, count))
    few, many = (int(run_command(command).output) for command in commands)
    print("%s: %d KB for 100,000 lines, %d KB for %d" % (how, few, many, count))
    assert 0 < many < 1.1 * few + 2_000


@pytest.mark.parametrize("where", WHERE)
def test_interruption(where: str) -> None:
    """SIGINT is heard at once, in a list, in one long machine and in a trace; the process ends by it."""
    status, said, seconds = interrupt(where)
    assert status == -signal.SIGINT and b"KeyboardInterrupt" in said
    print("SIGINT in a %s was heard after %.3f s" % (where, seconds))
    assert seconds < 6
