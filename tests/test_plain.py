"""The programs without contracts, as cargo builds them, against the proved ones, byte for byte.

clap's own texts may differ by its version: of these only the status and the stream are compared.
"""

import pathlib
import random
import re
import subprocess
from typing import Callable

import pytest
from support import TOP, ListMachines, build
from support.edge_cases import COMMANDS, EDGES, EDGES_OF_LISTS, FOUR, GIVEN, PLANS, WORDS
from support.machines import random_machines, spoil
from support.program import ROWS, CommandResult, as_lines, kind_of, options, processor_time
from support.program import on_terminal, replies, run_command
from support.second_checker import answer, made_claims, tight_claims

TERMINAL = ["/nonexistent", "/tmp", "--depth 9 --cells 3", "--steps 2000000000000"]
# What the build by cargo may take, beside the proved one.
BAR = 1.25
Programs = tuple[str, str]
Builds = Callable[[str], Programs]


@pytest.fixture(scope="module")
def builds(plain: pathlib.Path) -> Builds:
    """A function that returns the paths of a proved program and of the one that cargo builds."""
    return lambda name: (str(build(name, "crates/%s/out/%s" % (name, name))), str(plain / name))


@pytest.fixture(scope="module")
def programs(builds: Builds) -> Programs:
    return builds("bb")


def without_text_of_clap(text: bytes) -> bytes:
    """Drop a text of clap's: help, or a sentence with the usage or a hint to help."""
    text = text.replace(b" (plain)\n", b"\n")
    is_of_clap = b"Usage: " in text or text.startswith(b"error: ") and b"'bb help'" not in text
    return b"" if is_of_clap else text


def require_same(programs: Programs, run: Callable[[str], CommandResult]) -> CommandResult:
    ends = (run(program) for program in programs)
    first, second = (CommandResult(end.status, *map(without_text_of_clap, end[1:])) for end in ends)
    assert first == second
    return first


@pytest.fixture
def folder(tmp_path: pathlib.Path, four_states: list[str]) -> pathlib.Path:
    """A folder with lists."""
    (tmp_path / "list.txt").write_bytes(b"1RB1LB_1LA1RZ\n1rB1LB\n0RB---_0LA---\n")
    (tmp_path / "four.txt").write_bytes(as_lines(four_states[:20_000]))
    return tmp_path


def test_all_machines_of_four_states(programs: Programs, builds: Builds, four_states: list[str]) -> None:
    lines = as_lines(four_states)
    decided = require_same(programs, lambda bb: run_command([bb, "decide", *FOUR], lines))
    require_same(programs, lambda bb: run_command([bb, "check", *FOUR], decided.output))
    checked = require_same(builds("cover"), lambda cover: run_command([cover, *FOUR], decided.output))
    assert checked.status == 0
    require_same(builds("recurrence"), lambda path: run_command([path, "--entries"], decided.output))
    print("%d machines decided, checked, covered and searched by both" % len(four_states))


@pytest.mark.parametrize("limits", ROWS)
def test_random_machines(programs: Programs, rng: random.Random, limits: tuple[int, ...]) -> None:
    lines = as_lines(random_machines(3_000, rng))
    decided = require_same(programs, lambda bb: run_command([bb, "decide", *options(limits)], lines))
    forged = re.sub(rb"\d(?=\n)", lambda digit: b"%d" % (rng.randrange(10)), decided.output)
    require_same(programs, lambda bb: run_command([bb, "check", *options(limits)], forged))


@pytest.mark.parametrize("plan", PLANS)
def test_deciders(programs: Programs, rng: random.Random, four_states: list[str], plan: str) -> None:
    lines = as_lines([*four_states[::100], *random_machines(3_000, rng)])
    require_same(programs, lambda bb: run_command([bb, "decide", *plan.split(), *FOUR], lines))


def test_traces(programs: Programs, rng: random.Random) -> None:
    for machine in random_machines(200, rng):
        words = ["--upto", str(rng.randrange(60)), "--cells", str(rng.randint(1, 40)), "--", machine]
        require_same(programs, lambda bb: run_command([bb, "trace", *words]))


def test_lines_with_an_error(programs: Programs, builds: Builds, rng: random.Random) -> None:
    machines = list(random_machines(10_000, rng))
    spoilt = as_lines(spoil(rng, machine) for machine in machines)
    done = require_same(programs, lambda bb: run_command([bb, "decide", *FOUR], spoilt))
    assert done.output.count(b"refused") > 5_000
    decided = run_command([programs[0], "decide", *FOUR], as_lines(machines)).output.decode().splitlines()
    claims = as_lines(spoil(rng, line) for line in decided)
    require_same(programs, lambda bb: run_command([bb, "check", *FOUR], claims))
    require_same(builds("cover"), lambda cover: run_command([cover, *FOUR], claims))


def test_claims(programs: Programs, rng: random.Random, four_states: list[str]) -> None:
    """Claims made by changes of verdicts and by plain runs, and at limits that are just enough and just not."""
    lines = replies([programs[0], "decide", *FOUR], four_states[::40])
    for claims in (*made_claims(programs[0], rng, lines, 40_000), *tight_claims(rng, lines, 50)):
        require_same(programs, lambda bb: answer([bb, "check"], claims))


def test_random_command_lines(programs: Programs, rng: random.Random, folder: pathlib.Path) -> None:
    for _ in range(2_000):
        words = rng.choices(WORDS, k=rng.randint(1, 6))
        if rng.random() < 0.7:
            words[0] = rng.choice(COMMANDS)
        require_same(programs, lambda bb: run_command([bb, *words], GIVEN, str(folder)))


@pytest.mark.parametrize("command", EDGES, ids=str.strip)
def test_streams_and_memory(programs: Programs, folder: pathlib.Path, command: str) -> None:
    run = lambda bb: run_command(["sh", "-c", command.replace("PROGRAM", bb)], cwd=str(folder))  # noqa: E731
    require_same(programs, run)


@pytest.mark.parametrize("command", EDGES_OF_LISTS, ids=str.strip)
def test_streams_and_memory_of_lists(
    builds: Builds, folder: pathlib.Path, list_machines: ListMachines, command: str
) -> None:
    decided = run_command([builds("bb")[0], "decide"], as_lines(list_machines(2)))
    (folder / "verdicts.txt").write_bytes(decided.output)
    for name in ("cover", "recurrence"):
        test_streams_and_memory(builds(name), folder, command)


@pytest.mark.parametrize("words", [[b"\xff"], ["decide", b"\xff"], ["decide", "a" * 5000], ["decide", ""]])
def test_words_that_name_no_file(programs: Programs, words: list[str]) -> None:
    assert require_same(programs, lambda bb: run_command([bb, *words])).status in (2, 3)


@pytest.mark.parametrize("words", TERMINAL)
def test_hints_on_a_terminal(programs: Programs, words: str) -> None:
    command = ["decide", *words.split()]
    first, second = (on_terminal([bb, *command], b"", subprocess.DEVNULL) for bb in programs)
    assert first == second and first[1].count("\n") > 1


@pytest.mark.needs("cargo")
def test_tests_of_the_crates(plain: pathlib.Path) -> None:
    """`cargo test` runs the tests of all crates, with overflow checks."""
    command = ["cargo", "test", "--quiet"]
    done = subprocess.run(command, cwd=plain.parents[1], capture_output=True, text=True)
    assert done.returncode == 0, done.stdout + done.stderr
    counts = [int(count) for count in re.findall(r"(\d+) passed", done.stdout)]
    written = [path.read_text().count("#[test]") for path in TOP.glob("crates/*/src/**/*.rt")]
    assert sum(counts) == sum(written) > 100
    print("%d tests of the crates passed" % sum(counts))


@pytest.mark.timing
def test_speed(programs: Programs, four_states: list[str]) -> None:
    """Of machines on which nothing is found each makes all its steps, the first in registers, most on tapes."""
    found = replies([programs[0], "decide", *FOUR], four_states)
    undecided = [line.split()[0] for line in found if kind_of(line) == "undecided"]
    given = as_lines(undecided[:: len(undecided) // 200])
    spent: dict[str, list[float]] = {program: [] for program in programs}
    for program in 7 * programs:
        before = processor_time()
        assert run_command([program, "decide"], given).status == 0
        spent[program].append(processor_time() - before)
    proved, by_cargo = (min(times) for times in spent.values())
    print("%.2f s by cargo, %.2f s proved: %.2f" % (by_cargo, proved, by_cargo / proved))
    assert by_cargo <= BAR * proved


@pytest.mark.slow
@pytest.mark.usefixtures("plain")
def test_two_folders_give_the_same_bytes(tmp_path: pathlib.Path) -> None:
    """Also the archive for C, and in folders of different lengths."""
    built = []
    for folder in (tmp_path / "one", tmp_path / "another folder"):
        subprocess.run([str(TOP / "plain" / "erase.py"), str(folder)], check=True)
        command = "cargo build --release --quiet -p bb -p cover -p recurrence -p bb_c"
        subprocess.run(command.split(), cwd=folder, check=True)
        release = folder / "target" / "release"
        names = ("bb", "cover", "recurrence", "libbb_c.a", "libbb_c.so")
        built.append({name: (release / name).read_bytes() for name in names})
    assert [name for name in built[0] if built[0][name] != built[1][name]] == []
