"""Random machines: the checker confirms each verdict, larger limits lose none, and a plain program agrees."""

import pathlib
import random
import subprocess

import pytest
from support import TOP, require
from support.machines import machine, random_machines
from support.program import PLANS, ROWS, SIMULATION, as_lines, build_peer, kind_of, options, replies
from support.program import run_command
from support.simulation import decide_confirmed

KINDS = {"halt", "cycler", "translated", "backward", "undecided"}
BATCH = 100
# How the plain program decides in one run, with keys that make fingerprints agree by chance.
WEAK = ("--single-pass", "--weak-keys")
CPU_FACTS = pathlib.Path("/proc/cpuinfo")


def is_kept(before: str, after: str) -> bool:
    """Tell whether larger limits kept a verdict; one by backward reasoning may become a cycler's."""
    turned = kind_of(before) == "backward" and kind_of(after) in ("cycler", "translated")
    return before == after or turned or kind_of(before) == "undecided"


@pytest.mark.parametrize("plan", PLANS, ids=" ".join)
def test_verdicts_are_confirmed_and_larger_limits_keep(bb: str, rng: random.Random, plan: list[str]) -> None:
    machines = random_machines(10_000, rng)
    runs: list[list[str]] = []
    for limits in ROWS:
        lines = decide_confirmed(bb, machines, options(limits), plan)
        for earlier, before in zip(ROWS, runs):
            if all(a <= b for a, b in zip(earlier, limits)):
                assert [pair for pair in zip(before, lines) if not is_kept(*pair)] == [], (earlier, limits)
        runs.append(lines)
    assert any(kind_of(line) != "undecided" for lines in runs for line in lines)


@pytest.fixture(scope="session", params=["peer wide", "limit narrow", "limit flat"])
def other(request: pytest.FixtureRequest, tmp_path_factory: pytest.TempPathFactory) -> str:
    """A plain Rust program that simulates, then searches, or one for speed alone, with either of its tapes."""
    require("rustc")
    name, choice = request.param.split()
    facts = CPU_FACTS.read_text(encoding="utf-8")
    if name == "limit" and ("avx2" not in facts or "bmi2" not in facts):
        pytest.skip("this processor has no AVX2 or BMI2")
    return build_peer(tmp_path_factory.mktemp(name), name, "--cfg", choice)


def draw_machine(source: random.Random) -> str:
    """Draw a machine: half of them have 2 symbols, seven of ten at most 5 states."""
    states = source.randint(1, 5 if source.random() < 0.7 else 25)
    return machine(source, states, source.choice([2, source.randint(2, 10)]))


def draw_small_line(source: random.Random) -> str:
    """Draw a machine of 2 symbols and at most 7 states; one of ten lines is cut short, one has a letter wrong."""
    line, spoilt = machine(source, source.randint(1, 7), 2), source.random()
    at = source.randrange(len(line))
    if spoilt < 0.1:
        return line[:at]
    return line[:at] + source.choice("aZ_\r\0") + line[at + 1 :] if spoilt < 0.2 else line


def draw_options(source: random.Random) -> list[str]:
    """Draw limits and a plan, as words; the depth is one that the cells allow."""
    steps = source.choice([0, 1, 2, source.randint(0, 100), source.randint(0, 3_000)])
    cells = source.choice([1, 2, 5, 20, 100, 599, 2_000])
    depth, nodes = source.randint(0, min(300, (cells + 1) // 2)), source.choice([0, 1, 10, 500])
    off = [switch for switch in SIMULATION if source.random() < 0.25]
    return [word for limit in options((steps, cells, depth, nodes)) for word in limit.split("=")] + off


def decide_alike(bb: str, other: str, given: bytes, words: list[str]) -> list[str]:
    """Require another program to write the same, `peer` also in a single pass; return the lines."""
    ours = run_command([bb, "decide", *words], given)
    for more in ([], WEAK) if other.endswith("peer") else ([],):
        assert ours[:2] == run_command([other, "decide", *words, *more], given)[:2], words
    return ours.output.decode().splitlines()


@pytest.mark.parametrize("count", [2_000, pytest.param(100_000, marks=pytest.mark.slow)])
def test_plain_programs_write_the_same_bytes(bb: str, other: str, rng: random.Random, count: int) -> None:
    """That for speed also of lines that are no machines, one of them long, and without a newline at the end."""
    is_small, kinds = other.endswith("limit"), set[str]()
    for _ in range(count // BATCH):
        given = as_lines((draw_small_line if is_small else draw_machine)(rng) for _ in range(BATCH))
        if is_small:
            given += b"1RA1RA" + b"x" * 150_000 + b"\n" + machine(rng, 2, 2).encode()
        lines = decide_alike(bb, other, given, draw_options(rng))
        assert len(lines) == BATCH + 2 * is_small
        kinds.update(map(kind_of, lines))
    assert kinds == KINDS | ({"refused"} if is_small else set())
    print("%d lines compared" % count)


def test_plain_programs_make_the_same_long_runs(
    bb: str, other: str, four_states: list[str], rng: random.Random
) -> None:
    """On tapes of more than 64 cells, of machines of four states that few steps don't decide."""
    few = replies([bb, "decide", "--steps", "300", "--cells", "300", "--depth", "20"], four_states)
    machines = rng.sample([line.split()[0] for line in few if kind_of(line) == "undecided"], BATCH)
    for _ in range(20):
        steps, cells = rng.randint(300, 30_000), rng.choice([65, 127, 200, rng.randint(100, 3_000)])
        words = ["--steps", str(steps), "--cells", str(cells), "--depth", "10"]
        words += [switch for switch in SIMULATION if rng.random() < 0.3]
        decide_alike(bb, other, as_lines(machines), words)
    print("%d lines compared" % (20 * len(machines)))


@pytest.mark.slow
@pytest.mark.timing
@pytest.mark.needs("rustc")
@pytest.mark.usefixtures("list_machines")
def test_program_beside_plain_rust(bb: str) -> None:
    """Each list gives the same bytes by both, timed in one run."""
    parts = ["--part", "peer", "--part", "searches"]
    command = [str(TOP / "benchmarks" / "measure.py"), bb, "--runs", "1", *parts]
    done = subprocess.run(command, stdout=subprocess.PIPE, stderr=subprocess.STDOUT, text=True)
    print(done.stdout)
    assert done.returncode == 0, done.stdout
