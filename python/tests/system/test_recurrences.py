"""Recurrences and judged starts and periods, beside a brute force over the steps of each run."""

from __future__ import annotations

import gzip
import pathlib
import random
from typing import Sequence

import budlarem
import pytest
from budlarem import Cycler, Exactness, Judged, Judgement, Limits, Translated
from support import ListMachines
from support.claims import forge
from support.program import as_lines, replies, run_package
from support.recurrences import repeats, reply_to_pair
from support.simulation import compare_lines, simulate

# Under the first limits most machines have a pair, under the others none.
SMALL, LEAST = Limits(300, 128, 0, 0), Limits(1, 128, 0, 0)
HEADER = "machine,start,period"
JUDGE = "judge - --machine 1 --start 2 --period 3".split()
RIGHT = {**dict.fromkeys(Exactness, Judgement.CONFIRMED), Exactness.FALSE: Judgement.CONTRADICTED}


def judged(rows: Sequence[str], limits: Limits = SMALL) -> list[Judged]:
    checker = Limits(100_000, 1_000, 30, 1_000)
    return list(budlarem.judge([HEADER, *rows], limits=limits, checker=checker, start_offset=0))


def pairs_of(machines: Sequence[str]) -> dict[str, tuple[int, int, int]]:
    """The exact start and period of each machine with a pair, by brute force, and the pair's last step."""
    verdicts = budlarem.decide(machines, SMALL)
    pairs = [verdict for verdict in verdicts if isinstance(verdict, (Cycler, Translated))]
    replies = [reply_to_pair(str(pair)).split(" ") for pair in pairs]
    return {one[0]: (int(one[2]), int(one[3]), pair.second) for one, pair in zip(replies, pairs)}


def truth(machine: str, start: int, period: int, exact: tuple[int, int, int]) -> Exactness:
    """Whether the run repeats so: each step from `start` on is compared, far beyond the pair's last one."""
    if (start, period) == exact[:2]:
        return Exactness.EXACT
    count = 2 * exact[2] + period
    run = simulate(machine, start + period + count)
    used = [(now.state, now.tape.get(now.head, 0)) for now in run]
    return Exactness.TRUE if repeats(used, start, period, count) else Exactness.FALSE


# Sizes, the number of machines, and bounds of starts and periods.
SIZES = [("2x2", 100, (9, 7)), ("3x2", 40, (30, 9)), ("2x3", 40, (30, 9))]


@pytest.mark.parametrize("size, count, most", SIZES)
def test_each_start_and_period(
    list_machines: ListMachines, rng: random.Random, size: str, count: int, most: tuple[int, int]
) -> None:
    """With a pair of ours the exact numbers judge, without one theirs is checked as a pair: both as the run does."""
    states, symbols = size.split("x")
    machines = list_machines(int(states), "--symbols", symbols, "--steps", "100")
    exact = pairs_of(rng.sample(machines, min(count, len(machines))))
    claims = [(m, s, p) for m in exact for s in range(most[0]) for p in range(1, most[1])]
    claims += [(m, s, k * p) for m, (s, p, _) in exact.items() for k in (1, 2, 3)]
    rows = ["%s,%d,%d" % claim for claim in claims]
    expected = [truth(*claim, exact[claim[0]]) for claim in claims]
    for limits in (SMALL, LEAST):
        found = judged(rows, limits)
        assert [one.exactness for one in found] == expected
        assert [one.judgement for one in found] == [RIGHT[kind] for kind in expected]
        for one in found if limits is SMALL else ():
            assert one.exact and (one.exact.start, one.exact.period) == exact[one.exact.machine][:2]
    assert {*expected} == {*Exactness}


LEFT, CYCLE = "1RB---_1LB0RB", "0RB---_0LA---"
# Rows under limits that decide nothing, the judgement of each, and words of its reason.
ROWS = {
    "1RB1LB_1LA1RZ,3,4": ("contradicted", "start 3, period 4: false; it halts before step 7"),
    LEFT + ",4,0": ("contradicted", "start 4, period 0: false; no run repeats so"),
    LEFT + ",4,": ("not-judged", "start 4: no pair of steps, and ours has none"),
    LEFT + ",1,4": ("contradicted", "start 1, period 4: false; the checker refutes cycler 1 5"),
    LEFT + ",1,3": ("contradicted", "start 1, period 3: false; the checker refutes translated R 4 7"),
    CYCLE + ",1,3": ("contradicted", "start 1, period 3: false; the head doesn't move on so"),
    LEFT + ",99999,2": ("not-judged", "start 99999, period 2: over the checker's limits"),
    LEFT + ",5000,1": ("not-judged", "start 5000, period 1: over the checker's limits"),
}


def test_reasons() -> None:
    for one, (row, (judgement, reason)) in zip(judged(list(ROWS), LEAST), ROWS.items()):
        assert str(one.judgement) == judgement and one.reason.startswith(reason), (row, one.reason)


def test_offset_of_a_complete_list() -> None:
    rows = [LEFT + ",%d,1", CYCLE + ",%d,2", LEFT + ",%d,3"]
    for offset, kinds in ((1, ["exact", "exact", "true"]), (0, ["exact", "exact", "true"]), (7, None)):
        given = [row % (start + offset) for row, start in zip(rows, (4, 0, 4))]
        judging = budlarem.judge([HEADER, *given], limits=SMALL)
        assert judging.start_offset == offset
        found = [str(one.exactness) for one in judging]
        assert found == (kinds or ["exact", "exact", "true"])
        exactness = [str(one.exactness) for one in judged(given)]
        assert exactness == [kind if offset == 0 else "true" for kind in found]
    for starts in ((5, 0, 5), (5, 1, 4), (3, 1, 5)):
        mixed = budlarem.judge([HEADER, *(row % start for row, start in zip(rows, starts))], limits=SMALL)
        assert mixed.start_offset == 0
    assert budlarem.judge([HEADER, LEFT + ",5,1"], limits=SMALL).start_offset == 0


# Machines with the same exact start, 4, that are the same up to names and sides.
ALIKE = [[LEFT, LEFT], [LEFT, "1LB---_1RB0LB"], ["1RB---_1LB0RB_------", "1RC---_------_1LC0RC"]]


@pytest.mark.parametrize("machines", ALIKE)
def test_machines_that_are_alike_make_no_offset(machines: list[str]) -> None:
    for start, judgement in ((2, Judgement.CONTRADICTED), (5, Judgement.CONFIRMED)):
        judging = budlarem.judge([HEADER, *("%s,%d,1" % (one, start) for one in machines)], limits=SMALL)
        assert judging.start_offset == 0
        assert [one.judgement for one in judging] == [judgement] * 2
    found = run_package(*JUDGE, given=as_lines(["%s;2;1" % one for one in machines]))
    assert found.status == 1 and b"offset" not in found.error + found.output


def test_a_negative_offset_is_only_a_given_one() -> None:
    given = [HEADER, LEFT + ",3,1", "0RB---_0LA0RB_------,-1,2", "1RB---_1RC---_1LC0RC,4,1"]
    judging = budlarem.judge(given, limits=SMALL)
    assert judging.start_offset == 0 and next(judging).judgement is Judgement.CONTRADICTED
    given = [HEADER, LEFT + ",3,1", "1RC---_------_1LC0RC,3,1"]
    assert next(budlarem.judge(given, limits=SMALL, start_offset=-1)).judgement is Judgement.CONFIRMED


def test_the_command() -> None:
    given = as_lines([LEFT + ";5;1", CYCLE + ";1;2", "1RA1RA;1;1"])
    cases: list[tuple[list[str], int, list[str]]] = [
        ([], 0, ["an offset of 1 in each start", "starts and periods: exact 3"]),
        (["--start-offset", "0"], 0, ["starts and periods: true 3"]),
        (["--start-offset=2"], 1, ["an offset of 2 in each start", "starts and periods: false 3"]),
    ]
    for more, status, printed in cases:
        found = run_package(*JUDGE, *more, given=given)
        assert found.status == status
        lines = found.error.decode().splitlines()
        assert [line.partition(": ")[2] for line in lines[1:-1]] == printed, lines


LIMITS = ["--steps", "3000", "--cells", "512"]


def is_pair(line: str) -> bool:
    return line.split(" ")[1:2] in (["cycler"], ["translated"])


def expected_replies(bb: str, lines: list[str]) -> list[str]:
    """The answers of the program, with recurrences and entries in place of confirmed pairs."""
    answers = replies([bb, "check", *LIMITS, "--depth", "30"], lines)
    for place, line in enumerate(lines):
        if answers[place] == "ok" and is_pair(line):
            answers[place] = reply_to_pair(line, True)
        elif answers[place] != "unread" and not is_pair(line):
            answers[place] = "open"
    return answers


def test_claims_of_any_origin(
    bb: str, list_machines: ListMachines, tmp_path: pathlib.Path, rng: random.Random
) -> None:
    """Later pairs, multiples and false claims, from a gzip, with entries."""
    decided = replies([bb, "decide", *LIMITS, "--depth", "30"], list_machines(3, "--steps", "1000"))
    lines = list(forge(rng, decided, 5_000)) + ["x", "refused 3", ""]
    lines = [line for line in lines if "\n" not in line]
    path = tmp_path / "claims.txt.gz"
    path.write_bytes(gzip.compress(as_lines(lines)))
    found = run_package("recurrence", *LIMITS, "--entries", "--threads", "2", str(path))
    expected = expected_replies(bb, lines)
    compare_lines("forged claims", found.output.decode("latin-1").splitlines(), expected, lines)
    assert [str(budlarem.parse_recurrence(reply)) for reply in expected] == expected
    first = next(place for place, reply in enumerate(expected) if reply in ("bad", "over", "unread"))
    error = found.error.decode()
    assert found.status == 1 and "%s:%d: %s: " % (path, first + 1, expected[first]) in error
    kinds = ("recurs", "bad", "over", "open", "unread", "quasihalts")
    counts = ["%s %d" % (kind, sum(kind in reply.split(" ") for reply in expected)) for kind in kinds]
    assert ": %s\n" % ", ".join(counts) in error and not [count for count in counts if count.endswith(" 0")]


def test_errors(tmp_path: pathlib.Path) -> None:
    for words, status, sentence in (
        (["--cells", "0"], 2, "cells is 0, but may be 1 to 67,108,864"),
        (["--steps", "x"], 2, "x is no whole number"),
        (["--threads", "0"], 2, "threads is 0, but must be 1 or more"),
        ([str(tmp_path / "none.txt")], 3, "none.txt"),
        (["--depth", "3"], 2, "unrecognized arguments"),
    ):
        found = run_package("recurrence", *words)
        assert (found.status, found.output) == (status, b"") and sentence in found.error.decode(), words
