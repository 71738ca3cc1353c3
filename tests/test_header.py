"""The header of the library: the order of parameters and counts, and the room that its macros give.

A program in C passes `bb_trace` its parameters, and prints the counts of `bb_look`, by the header's names.
The numbers differ so much that an exchange of two shows.
"""

import itertools
import pathlib
import re
import subprocess

import pytest
from support import TOP
from support.program import CommandResult, as_lines, run_command
from support.traces import trace

HEADER = (TOP / "include" / "bb.h").read_text(encoding="utf-8")
SOURCES = TOP / "tests" / "library"
WARNINGS = ["-Wall", "-Wextra", "-Werror"]
MACHINE = "1RA1RA"
# What `bb_trace` is given; no two exchanged print the same lines with the same status.
GIVEN = {"steps": 9, "cells": 7, "from": 2, "every": 3}
# Each kind of reply: the header's name for its count, the line, and the reply; the first comes once, the
# second twice, and so on.
KINDS: dict[str, tuple[str, str]] = {
    "BB_COUNT_HALT": ("1RZ---", "1RZ--- halt 1 1"),
    "BB_COUNT_CYCLER": ("1RZ---", "1RZ--- cycler 1 2"),
    "BB_COUNT_TRANSLATED": ("1RZ---", "1RZ--- translated R 1 2 1 1"),
    "BB_COUNT_BACKWARD": ("1RZ---", "1RZ--- backward 1 1"),
    "BB_COUNT_UNDECIDED_STEPS": ("1RZ---", "1RZ--- undecided steps"),
    "BB_COUNT_UNDECIDED_CELLS": ("1RZ---", "1RZ--- undecided cells"),
    "BB_COUNT_REFUSED": ("1RZ", "refused 4"),
}
EXCHANGES = [*itertools.combinations(GIVEN, 2), *itertools.combinations(KINDS, 2)]


def parameters(header: str) -> list[str]:
    """Return the names of `bb_trace`'s parameters, in the order of a header."""
    found = re.search(r"uint32_t bb_trace\(([^)]*)\)", header)
    return re.findall(r"(\w+)(?:,|$)", found[1]) if found else []


def exchange(one: str, two: str) -> str:
    """Exchange two parameters wherever the header declares them, or the numbers of two counts."""
    names = {one: two, two: one}
    form = r"(?<=#define )(%s|%s)\b" if one in KINDS else r"\b(%s|%s)(?=[,)])"
    return re.sub(form % (one, two), lambda found: names[found[1]], HEADER)


def run_with(header: str, library: pathlib.Path, folder: pathlib.Path) -> CommandResult:
    (folder / "bb.h").write_text(header, encoding="utf-8")
    defined = "-DTRACE_PARAMETERS=%s" % ",".join("given_" + name for name in parameters(header))
    command = ["gcc", "-std=c99", *WARNINGS, "-O1", defined, "-I", str(folder), str(SOURCES / "order.c")]
    archive = str(library.with_suffix(".a"))
    subprocess.run([*command, archive, "-o", str(folder / "order")], check=True)
    pairs = [pair for count, pair in enumerate(KINDS.values(), 1) for pair in [pair] * count]
    lists = ["".join(line + "\n" for line in column) for column in zip(*pairs)]
    return run_command([str(folder / "order"), MACHINE, *map(str, GIVEN.values()), *lists])


@pytest.fixture(scope="module")
def right(bb: str) -> bytes:
    """What the program in C must print: the lines and the status of the trace, then the counts by name."""
    limits = ["--upto", str(GIVEN["steps"]), "--cells", str(GIVEN["cells"])]
    status = run_command([bb, "trace", *limits, "--", MACHINE]).status
    rows = trace(bb, MACHINE, GIVEN["steps"], GIVEN["cells"])[GIVEN["from"] :: GIVEN["every"]]
    counts = ["%s %d" % (name, count) for count, name in enumerate(KINDS, 1)]
    return as_lines([*(row.line for row in rows), "status %d" % status, *counts])


@pytest.mark.needs("gcc")
def test_parameters_and_counts_in_order(library: pathlib.Path, right: bytes, tmp_path: pathlib.Path) -> None:
    names = parameters(HEADER)
    assert set(GIVEN) <= set(names) and len(names) == 9
    assert run_with(HEADER, library, tmp_path) == (0, right, b"")


@pytest.mark.needs("gcc")
@pytest.mark.parametrize("one, two", EXCHANGES)
def test_exchange_shows(
    library: pathlib.Path, right: bytes, tmp_path: pathlib.Path, one: str, two: str
) -> None:
    status, output, _ = run_with(exchange(one, two), library, tmp_path)
    assert status == 0 and output != right


@pytest.mark.needs("gcc", "g++")
@pytest.mark.parametrize("compiler", [["gcc", "-std=c99"], ["g++", "-x", "c++"]], ids=" ".join)
def test_macros_give_enough_room(tmp_path: pathlib.Path, compiler: list[str]) -> None:
    """The compiler's checks for undefined behaviour are on."""
    checks = ["-fsanitize=undefined", "-fno-sanitize-recover=undefined", "-I", str(TOP / "include")]
    made = str(tmp_path / "room")
    subprocess.run([*compiler, *WARNINGS, *checks, str(SOURCES / "room.c"), "-o", made], check=True)
    assert run_command([made]) == (0, b"", b"")
