"""`recheck.py`, the package's checker in plain Python, beside the program's checker."""

import ast
import collections
import itertools
import pathlib
import random
import re
import subprocess
import sys

import pytest
from support import TOP, ListMachines
from support.claims import forge
from support.machines import mixed_machines, seldom_halting
from support.program import as_lines, options, peak_memory, replies, run_command
from support.runs import expected_verdicts

RECHECK = str(TOP / "python" / "src" / "budlarem" / "recheck.py")
# What it may have of lines.
MOST = 150
# The limits by which the machines of four states are decided, and what the first ones leave.
FIRST, LATER = (200, 256, 20, 1_000), (100_000, 4_096, 100, 10_000)
# Within these no claim of so many steps, or of a tree of so many nodes, needs more cells or levels.
STEPS, NODES = 2_000, 1_000
LIMITS = (STEPS, 2 * STEPS, NODES, NODES)
# Numbers about these limits and far beyond.
FAR = [" %d" % number for number in (STEPS, STEPS + 1, NODES, NODES + 1, 2**64 - 1, 2**64, 10**30)]
WORDS = {"ok": "true", "bad": "false", "open": "no claim", "over": "too long", "unread": "not a verdict line"}


def run_recheck(*more: str, given: bytes = b"") -> tuple[int, list[bytes], bytes]:
    """The status of recheck.py over these lines, its answers, and what it says on standard error."""
    done = run_command([sys.executable, "-I", "-S", RECHECK, *more], given)
    return done.status, done.output.split(b"\n")[:-1], done.error


def test_form() -> None:
    """It is short, and imports `sys` alone."""
    text = pathlib.Path(RECHECK).read_text(encoding="utf-8")
    assert text.count("\n") <= MOST
    nodes = [node for node in ast.walk(ast.parse(text)) if isinstance(node, (ast.Import, ast.ImportFrom))]
    assert [ast.unparse(node) for node in nodes] == ["import sys"]


def test_words() -> None:
    halt = b"1RB1LB_1LA1RZ halt 6 4\n"
    cases: list[tuple[list[str], bytes, int, bytes]] = [
        ([], halt, 0, b"true"),
        (["--steps", "6"], halt, 0, b"true"),
        (["--steps", "5"], halt, 1, b"too long"),
        (["--nodes", "0"], b"0RA--- backward 1 1\n", 1, b"too long"),
        ([], b"1RA1RA undecided cells\n", 0, b"no claim"),
        ([], b"1RB1LB_1LA1RZ halt 6 5\n", 1, b"false"),
        ([], b"1RB1LB_1LA1RZ halt 6 4\r\n", 1, b"not a verdict line"),
    ]
    for more, given, status, answer in cases:
        found = run_recheck(*more, given=given)
        assert found[:2] == (status, [answer]) and b"1 " + answer in found[2]
    for more in (["--steps"], ["--steps", "x"], ["--help"], ["one", "two"]):
        status, _, error = run_recheck(*more)
        assert status == 2 and b"--steps N" in error, (more, status, error)
    status, _, error = run_recheck(str(TOP / "no such file"))
    assert status == 3 and b"no such file" in error, (status, error)
    done = run_command(["sh", "-c", 'exec "$0" "$1" >/dev/full', sys.executable, RECHECK], halt)
    assert done.status == 3 and b"No space left" in done.error, done.error


def test_memory(tmp_path: pathlib.Path) -> None:
    path, most = tmp_path / "claim.txt", []
    for steps in (2, 2_000_000):
        path.write_text("0RB---_0LA--- cycler 0 %d\n" % steps)
        words = [sys.executable, RECHECK, "--steps", str(steps), str(path)]
        most.append(peak_memory(subprocess.Popen(words)))
    few, many = most
    assert 0 < few and 0 < many < few + 1_024, (few, many)


@pytest.mark.parametrize("every", ["10", pytest.param("1", marks=pytest.mark.slow)])
def test_verdicts_on_four_states(bb: str, list_machines: ListMachines, every: str) -> None:
    machines = as_lines(list_machines(4, "--every", every))
    lines = expected_verdicts(bb, machines, (FIRST, LATER))
    status, answers, error = run_recheck("--steps", str(LATER[0]), "--nodes", str(LATER[3]), given=lines)
    assert status == 0
    expected = [b"no claim" if b" undecided " in line else b"true" for line in lines.split(b"\n")[:-1]]
    assert len(expected) > 80_000
    assert answers == expected
    print("%d lines compared" % len(lines))


def is_right(line: bytes, printed: bytes, answer: bytes) -> bool:
    """Whether an answer is the program's; a tree never has more levels than nodes, which have the bound."""
    if printed == b"over" and b" backward " in line and int(line.split(b" ")[2]) > NODES:
        return answer in (b"too long", b"false")
    return answer.decode() == WORDS[printed.decode()]


@pytest.mark.parametrize("count", [4_000, pytest.param(40_000, marks=pytest.mark.slow)])
def test_forged_lines(bb: str, count: int, rng: random.Random) -> None:
    """Verdicts on random machines, and what is forged of them, are answered as by the program."""
    # Machines of all sizes, and those of 3 and 4 symbols that halt seldom.
    machines = list(mixed_machines(count // 2, rng.randrange(1 << 30)))
    while len(machines) < count:
        machines.append(seldom_halting(rng, rng.randint(1, 4), rng.randint(2, 4)))
    verdicts = replies([bb, "decide", *options(LIMITS)], machines)
    texts = [*verdicts, *forge(rng, verdicts, count), "refused 775", "refused 776", ""]
    texts += (re.sub(r" \d+", lambda found: rng.choice([found[0], *FAR]), line) for line in verdicts)
    for line, word in itertools.product(verdicts[::20], ("steps", "cells", "nodes")):
        texts.append("%s undecided %s" % (line.split(" ")[0], word))
    lines = [text.encode("latin-1") for text in (*texts, "1RA1RA undecided steps")]
    given = b"\n".join(lines)
    printed = run_command([bb, "check", *options(LIMITS)], given).output.split(b"\n")[:-1]
    _, answers, _ = run_recheck("--steps", str(STEPS), "--nodes", str(NODES), given=given)
    assert len(lines) == len(printed) == len(answers)
    counts: collections.Counter[bytes] = collections.Counter(printed)
    assert len(counts) == 5 and min(counts.values()) >= 20, counts
    assert not [row for row in zip(lines, printed, answers) if not is_right(*row)]
    print("%d lines compared" % len(lines))
