"""The checker that Coq extracts and that of the program answer alike, byte for byte, and end alike."""

import random
import subprocess
from typing import Callable, Iterator

import pytest
from support import ListMachines
from support.program import GREATEST, run_command, options
from support.second_checker import Claims, compare_answers, long_claims, quick_claims

GIVEN = b"1RB1LB_1LA1RZ halt 6 4\n\n1RA1RA undecided steps\n------ halt 0 0"
# Command lines, separated by commas.
LINES = (
    "--steps 5, --steps=+5 --cells 009, --depth 3 --cells 5, --depth 3 --cells 4, --steps 1000000000001, "
    "--cells 0, --cells 67108865, --depth 10001, --nodes 1000000000001, --nodes 99999999999999999999999999, "
    "--steps, --steps x, --steps 0x10, --steps 1_000, --steps=, --steps -1, --steps 1 --steps 2, --leaps 5, "
    "--no-cyclers, -x, /no/such/file, /dev/null /dev/null, -- /dev/null, -- --steps, /, -, /dev/null, --help"
)
WORDS: list[list[str]] = [options(GREATEST), [""], *(line.split(" ") for line in LINES.split(", "))]


@pytest.mark.parametrize("words", WORDS, ids=" ".join)
def test_words_end_both_checkers_alike(bb: str, checker: str, words: list[str]) -> None:
    ours, theirs = run_command([bb, "check", *words], GIVEN), run_command([checker, *words], GIVEN)
    assert ours.status == theirs.status
    assert ours.status > 1 or "--help" in words or ours.output == theirs.output
    assert bool(theirs.error) == (ours.status > 1)


def test_failed_write_ends_both_checkers_alike(bb: str, checker: str) -> None:
    for command in ([bb, "check"], [checker]):
        with open("/dev/full", "wb") as full:
            done = subprocess.run(command, input=GIVEN, stdout=full, stderr=subprocess.PIPE)
        assert done.returncode == 3 and b"write failed" in done.stderr


@pytest.mark.parametrize("claims", [quick_claims, pytest.param(long_claims, marks=pytest.mark.slow)])
def test_lines_are_answered_alike(
    bb: str,
    checker: str,
    list_machines: ListMachines,
    rng: random.Random,
    claims: Callable[..., Iterator[tuple[str, Claims]]],
) -> None:
    for what, batch in claims(bb, list_machines, rng):
        compare_answers(bb, checker, what, batch)
