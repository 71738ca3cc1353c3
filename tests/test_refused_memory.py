"""The programs with one allocation refused at a time: each ends as ever, or with status 3 and its cause.

The k-th allocation is refused, up to the first k that isn't reached. The last ones make the tapes and the
path, before a byte is read: if one of them is refused, nothing is written and memory is the cause.
"""

import os
import pathlib
import subprocess

import pytest
from support import TOP, require
from support.program import CommandResult, run_command

# Standard input, and the files that the words name.
INPUTS = {
    "list": b"1RB1LB_1LA1RZ\n1RB0RA_1LA---\n0RB---_0LA---\n",
    "claims": b"1RB1LB_1LA1RZ halt 6 4\n1RB0RA_1LA--- translated R 4 8 2 1\n"
    b"0RB---_0LA--- backward 2 4\n0RB---_0LA--- cycler 2 4\n",
    # A list of two states that ends too soon.
    "begun": b"------_------ halt 0 0\n0RA---_------ translated R 1 2 1 1\n",
}
# What ends a program early, but for a read that failed.
FAULTS = (b"out of memory", b"write failed")
LIMITS = "--steps=1000 --cells=64 --depth=10 --nodes=100"
# The words of commands, by the command, its standard input, and the allocations of the tapes and the path.
ENDS_EARLY = ["--cells=4", "--steps=x"]
RUNS = {
    ("bb decide", "list", 4): ["", LIMITS, LIMITS + " list", "--no-cyclers --no-translated " + LIMITS],
    ("bb decide", "list", 0): ENDS_EARLY,
    ("bb check", "claims", 3): ["", LIMITS, LIMITS + " claims"],
    ("bb check", "claims", 0): ENDS_EARLY,
    ("bb trace --upto=10", "list", 1): ["1RB1LB_1LA1RZ", "--cells=2 1RA1RA", "1RB1LB_1LA1RC"],
    ("bb", "list", 0): ["trace --upto=10", "--help"],
    ("cover", "begun", 4): [LIMITS, LIMITS + " begun"],
    ("cover", "begun", 0): [*ENDS_EARLY, "--help"],
    ("recurrence", "claims", 4): ["", "--steps=1000 --cells=64 --entries", "--cells=64 claims"],
    ("recurrence", "claims", 0): ["--cells=0", "--steps=x", "--help"],
}
COMMANDS = [(" ".join([run[0], words]).strip(), *run[1:]) for run, more in RUNS.items() for words in more]


@pytest.fixture(scope="module")
def folder(tmp_path_factory: pytest.TempPathFactory) -> pathlib.Path:
    """A folder with the inputs and the library that refuses allocations."""
    require("cc")
    folder = tmp_path_factory.mktemp("refused")
    for name, content in INPUTS.items():
        (folder / name).write_bytes(content)
    source = TOP / "tests" / "library" / "refuser.c"
    subprocess.run(["cc", "-shared", "-fPIC", "-O1", "-o", folder / "refuser.so", source, "-ldl"], check=True)
    return folder


def refuse_in_turn(command: list[str], given: bytes, folder: pathlib.Path) -> list[CommandResult]:
    """Run a command with each of its allocations refused in turn, and return how it ends."""
    ends: list[CommandResult] = []
    trace = folder / "trace"
    while True:
        refusal = {"LD_PRELOAD": str(folder / "refuser.so"), "REFUSE_TRACE": str(trace)}
        environment = {**os.environ, **refusal, "REFUSE_AT": str(len(ends) + 1)}
        end = run_command(command, given, cwd=str(folder), env=environment)
        if not trace.is_symlink():
            return ends
        trace.unlink()
        ends.append(end)


@pytest.mark.parametrize("run", COMMANDS, ids=[run[0] for run in COMMANDS])
def test_refused_allocation(
    request: pytest.FixtureRequest, folder: pathlib.Path, run: tuple[str, str, int]
) -> None:
    name, *words = run[0].split()
    command, given = [request.getfixturevalue(name), *words], INPUTS[run[1]]
    ends, whole = refuse_in_turn(command, given, folder), run_command(command, given, cwd=str(folder))
    faults = [b"%s: %s\n" % (name.encode(), fault) for fault in FAULTS]
    before_tapes = len(ends) - run[2]
    assert before_tapes > 0
    assert ends[before_tapes:] == [(3, b"", faults[0])] * run[2]
    for end in ends[:before_tapes]:
        is_fault = end.status == 3 and whole.output.startswith(end.output) and end.error in faults
        assert end == whole or is_fault
    print("%d allocations refused in turn" % len(ends))
