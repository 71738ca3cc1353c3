"""The library for other languages and its examples, against the program: the proved one, and cargo's."""

import os
import pathlib
import re
import subprocess
import sys
from typing import Callable

import pytest
from support import TOP, ListMachines, build, require
from support.program import as_lines, replies, run_command, unaligned_branches
from support.simulation import compare_lines
from support.traces import trace

LIMITS = ["--steps", "1000", "--cells", "200", "--depth", "60"]
SMALL = ["--steps", "1000", "--cells", "64", "--depth", "30", "--nodes", "1000"]
MACHINES = ["1RB1LB_1LA1RZ", "1RA1RA", "1rB1LB", "", "0RB---_0LA---"]
CALLS = "bb_check bb_check_cost bb_check_line bb_decide bb_decide_line bb_line_of bb_look bb_recurrence bb_trace".split()
C, CPP = ["gcc", "-std=c99"], ["g++", "-x", "c++"]
C_WORDS = ["-Wall", "-Wextra", "-Werror", "-O2", "-pthread", "-I", str(TOP / "include")]
VALGRIND = ["valgrind", "-q", "--error-exitcode=9", "--leak-check=full"]
LONG = b"1RB1LB_1LA1RZ" * 100_000
Compile = Callable[..., str]


@pytest.fixture(scope="module", params=["proved", "plain"])
def library(request: pytest.FixtureRequest) -> pathlib.Path:
    """The path of libbb.so; libbb.a is beside it."""
    if request.param == "proved":
        return build("library", "crates/bb_c/out/libbb.so")
    path: pathlib.Path = request.getfixturevalue("plain_library")
    return path


@pytest.fixture
def compile_source(library: pathlib.Path, tmp_path: pathlib.Path) -> Compile:
    """A function that compiles a source of the repository with the library, and returns the program."""
    archive = str(library.with_suffix(".a"))

    def compile_source(source: str, compiler: list[str] = C) -> str:
        require(compiler[0])
        path, made = str(TOP / source), str(tmp_path / pathlib.Path(source).stem)
        command = [*compiler, *C_WORDS, path, "-x", "none", archive, "-o", made]
        if compiler == ["rustc"]:
            command = ["rustc", "-O", path, "-L", str(library.parent), "-l", "static=bb", "-o", made]
        subprocess.run(command, check=True)
        return made

    return compile_source


@pytest.fixture(scope="module")
def machines(list_machines: ListMachines) -> list[str]:
    """The first 100,000 machines of four states in tree normal form."""
    return list_machines(4)[:100_000]


@pytest.mark.needs("nm")
def test_library_exports_its_calls_alone(library: pathlib.Path) -> None:
    symbols = run_command(["nm", "-D", "--defined-only", str(library)]).output.decode().split()[2::3]
    is_plain = library.parent.name == "release"
    assert sorted(symbols) == sorted([*CALLS, *(["bb_is_plain"] if is_plain else [])])


@pytest.mark.needs("objdump")
@pytest.mark.parametrize(
    "target, path", [("library", "crates/bb_c/out/libbb.so"), ("bb", "crates/bb/out/bb")]
)
def test_branches_are_aligned(target: str, path: str) -> None:
    """In what is proved; rustc aligns the branches of the build without the kit."""
    unaligned, aligned = unaligned_branches(str(build(target, path)))
    assert unaligned == 0 < aligned


@pytest.mark.parametrize("compiler", [C, CPP], ids=" ".join)
def test_calls_keep_their_contracts(compile_source: Compile, compiler: list[str]) -> None:
    """Also under valgrind, which finds nothing wrong."""
    require("valgrind")
    made = compile_source("tests/library/calls.c", compiler)
    assert run_command([made]) == run_command([*VALGRIND, made]) == (0, b"", b"")


@pytest.mark.needs("cc")
def test_a_program_finds_the_library_that_it_loads(library: pathlib.Path, tmp_path: pathlib.Path) -> None:
    """The command of docs/library.md gives it the folder."""
    (command,) = re.findall(r"^    (cc .*-lbb.*)$", (TOP / "docs" / "library.md").read_text(), flags=re.M)
    command = re.sub(r"(\$PWD/)?crates/bb_c/out", lambda _: str(library.parent), command)
    made = str(tmp_path / "decide")
    words = [command.replace("program.c", "examples/c/decide.c"), "-o", made]
    subprocess.run(" ".join(words), shell=True, check=True, cwd=TOP)
    assert run_command([made, "1RA1RA"], cwd="/").output == b"1RA1RA translated R 1 2 1 1\n"


@pytest.mark.parametrize(
    "source, compiler",
    [("examples/c/decide.c", C), ("examples/rust/decide.rs", ["rustc"])],
    ids=["C", "Rust"],
)
def test_examples_decide_words(bb: str, compile_source: Compile, source: str, compiler: list[str]) -> None:
    """Also under valgrind."""
    require("valgrind")
    made, decided = compile_source(source, compiler), run_command([bb, "decide"], as_lines(MACHINES))
    for command in ([made], [*VALGRIND, made]):
        assert run_command([*command, *MACHINES])[:2] == decided[:2]
        assert run_command([*command, "1RZ---"]) == (0, b"1RZ--- halt 1 1\n", b"")


def test_example_decides_all_machines_of_two_states(bb: str, compile_source: Compile) -> None:
    output = run_command([compile_source("examples/c/two_states.c"), "lines"]).output.decode()
    lines = output.splitlines()[:-5]
    machines = [line.split()[0] for line in lines]
    assert len(lines) == 28_561
    compare_lines("two states", lines, replies([bb, "decide", *SMALL], machines))


def test_example_traces(bb: str, compile_source: Compile) -> None:
    require("valgrind")
    command = [*VALGRIND, compile_source("examples/c/trace.c")]
    rows = as_lines(row.line for row in trace(bb, MACHINES[0], 5))
    assert run_command([*command, MACHINES[0], "5"]) == (0, rows, b"")
    assert run_command([*command, "", "5", "2"]) == (1, b"refused 1\n", b"")
    assert run_command([*command, MACHINES[0], "5", "0"])[:2] == (2, b"")


@pytest.mark.parametrize("threads", ["1", "4", "9"])
def test_many_cores_write_what_one_does(
    bb: str, compile_source: Compile, machines: list[str], threads: str
) -> None:
    made = compile_source("examples/rust/many_cores.rs", ["rustc"])
    lists = [b"", b"1RZ---", b"\n", as_lines(MACHINES), LONG + b"\n1RZ---\n" + LONG]
    for given in [*lists, b"1RB1LB_1LA1RZ\n" * 99_999, as_lines(machines)]:
        found = run_command([made, *LIMITS, "--threads", threads], given)
        assert found[:2] == run_command([bb, "decide", *LIMITS], given)[:2]


@pytest.mark.parametrize("words", ["--steps", "--cells 0", "--levels 3", "--steps many"])
def test_many_cores_refuse_wrong_words(compile_source: Compile, words: str) -> None:
    made = compile_source("examples/rust/many_cores.rs", ["rustc"])
    assert run_command([made, *words.split()])[:2] == (2, b"")


def test_example_in_python(library: pathlib.Path) -> None:
    environment = {**os.environ, "BB_LIBRARY": str(library), "PYTHONPATH": str(TOP / "python" / "src")}
    command = [sys.executable, str(TOP / "examples" / "python" / "list.py")]
    output = run_command(command, b"1RZ---\nx\n", env=environment).output
    assert output == b"ok 1RZ--- halt 1 1\nopen refused 1\n"
