"""Conclusions from verdicts: about mirrored, renamed and completed machines, and other starts.

The machines are those of two states and two symbols, padded to three for renamings. Conclusions that only
look alike must fail for some machine. Those about later steps are in `python/tests/unit/test_engine.py`.
"""

from __future__ import annotations

import itertools
import random
from typing import Iterator, Sequence

import pytest
from support.machines import Change, all_machines, entries_of, join_groups, machine, random_change
from support.machines import table_of
from support.program import PLANS, decide_machines, options, replies
from support.simulation import compare_lines, find_undefined, simulate

LIMITS = options((1_000, 64, 20, 1_000))
TREES_ALONE = ["--no-cyclers", "--no-translated"]
# The limits of random machines, and how many there are under each.
RANDOM_LIMITS = (options((50, 9, 5, 20)), LIMITS)
BATCH = 250
# No machine of two states and two symbols halts later.
LONGEST = 6
# How many more steps are simulated than a tree has levels.
BEYOND = 20
Words = Sequence[str]


@pytest.fixture(scope="module", params=[7, pytest.param(1, marks=pytest.mark.slow)], ids="every {}".format)
def machines(request: pytest.FixtureRequest) -> list[str]:
    """Every seventh machine of two states and two symbols, or all 28,561."""
    return list(all_machines(2, 2))[:: request.param]


def decide(bb: str, machines: Words, plan: Words = (), limits: Words = LIMITS) -> list[str]:
    return decide_machines(bb, machines, *limits, *plan)


def check(bb: str, machines: Words, claims: Words, limits: Words = LIMITS) -> list[str]:
    """Return the checker's answers to claims about these machines."""
    return replies([bb, "check", *limits], ["%s %s" % pair for pair in zip(machines, claims)])


def compare_changed(
    bb: str, machines: Words, changes: Sequence[Change], plan: Words = (), limits: Words = LIMITS
) -> None:
    """Compare verdicts of machines and changed ones, and the answers to their claims, true and false."""
    changed = [change.machine(text) for text, change in zip(machines, changes)]
    verdicts = decide(bb, machines, plan, limits)
    expected = [change.verdict(verdict) for verdict, change in zip(verdicts, changes)]
    compare_lines("verdicts", decide(bb, changed, plan, limits), expected, machines)
    for claims in (verdicts, [*verdicts[1:], verdicts[0]]):
        theirs = [change.verdict(claim) for claim, change in zip(claims, changes)]
        answers = check(bb, machines, claims, limits), check(bb, changed, theirs, limits)
        compare_lines("answers", answers[1], answers[0], machines)


@pytest.mark.parametrize("plan", [[], TREES_ALONE], ids=["all deciders", "trees alone"])
@pytest.mark.parametrize("mirrored, names", [(True, (0, 1, 2)), (False, (0, 2, 1)), (True, (0, 2, 1))])
def test_mirrored_and_renamed_machines_have_the_same_verdicts(
    bb: str, machines: Words, mirrored: bool, names: Sequence[int], plan: Words
) -> None:
    padded = ["_".join(group + "---" for group in text.split("_")) + "_---------" for text in machines]
    compare_changed(bb, padded, [Change(mirrored, names, names)] * len(machines), plan)


@pytest.mark.parametrize("count", [1_500, pytest.param(12_000, marks=pytest.mark.slow)])
def test_random_machines_changed_at_random(bb: str, rng: random.Random, count: int) -> None:
    for case in range(count // BATCH):
        plan, limits = PLANS[case % len(PLANS)], RANDOM_LIMITS[case // len(PLANS) % len(RANDOM_LIMITS)]
        sizes = [(rng.randint(1, 6), rng.randint(2, 5)) for _ in range(BATCH)]
        changes = [random_change(rng, *size) for size in sizes]
        compare_changed(bb, [machine(rng, *size) for size in sizes], changes, plan, limits)


@pytest.mark.parametrize("change", [Change(False, (1, 0), (0, 1)), Change(False, (0, 1), (1, 0))])
def test_renaming_a_or_0_changes_some_verdict(bb: str, machines: list[str], change: Change) -> None:
    assert decide(bb, [change.machine(text) for text in machines]) != decide(bb, machines)


def completions(text: str) -> Iterator[tuple[str, tuple[int, ...]]]:
    """Yield a machine of two symbols with some `---` filled, and their places, as 2 * state + symbol."""
    old = [entry for group in table_of(text) for entry in group]
    choices = [entries_of(len(old) // 2, 2) if entry == "---" else [entry] for entry in old]
    for new in itertools.product(*choices):
        filled = tuple(k for k, entry in enumerate(new) if entry != old[k])
        if filled:
            yield join_groups(new, 2), filled


@pytest.mark.parametrize("fills_met", [False, True])
def test_completions_keep_halts_and_pairs(bb: str, machines: list[str], fills_met: bool) -> None:
    """A filled `---` that the run doesn't meet keeps the verdict; the one that it halts on changes it."""
    cases = [
        (verdict, other)
        for text, verdict in zip(machines, decide(bb, machines))
        if verdict.split(" ")[0] in ("halt", "cycler", "translated")
        for other, filled in completions(text)
        if (verdict.startswith("halt ") and find_undefined(text, LONGEST) in filled) == fills_met
    ]
    verdicts, others = [verdict for verdict, _ in cases], [other for _, other in cases]
    found = decide(bb, others)
    if not fills_met:
        compare_lines("verdicts of completions", found, verdicts, others)
    assert not fills_met or not any(now == verdict for now, verdict in zip(found, verdicts))
    answers = check(bb, others, verdicts)
    compare_lines("answers", answers, ["bad" if fills_met else "ok"] * len(cases), others)


def test_no_completion_halts_where_a_tree_ends(bb: str, machines: list[str]) -> None:
    cases = [
        (verdict, other)
        for text, verdict in zip(machines, decide(bb, machines, TREES_ALONE))
        if verdict.startswith("backward ")
        for other, _ in completions(text)
    ]
    others = [other for _, other in cases]
    assert not [now for now in decide(bb, others) if now.startswith("halt ")]
    assert [verdict for verdict, _ in cases] != decide(bb, others, TREES_ALONE)
    print("%d completions by a tree" % len(cases))


def latest_halt(text: str, levels: int) -> int:
    """Return the most steps from any start of a machine of two symbols to a halt; -1 where none halts."""
    # All tapes are tried as far as `levels` steps reach, with 0 and with 1 beyond, for some steps more.
    latest, most = -1, levels + BEYOND
    near = range(-levels, levels + 1)
    tapes = itertools.product((0, 1), repeat=len(near))
    starts = itertools.product((0, 1), range(len(table_of(text))), tapes)
    for beyond, state, cells in starts:
        tape = {**dict.fromkeys(range(-most, most + 1), beyond), **dict(zip(near, cells))}
        steps = sum(1 for _ in simulate(text, most, state, tape)) - 1
        latest = max(latest, steps) if steps < most else latest
    return latest


def test_no_start_halts_later_than_its_tree_has_levels(bb: str, machines: list[str]) -> None:
    levels_and_halts = []
    for text, verdict in zip(machines, decide(bb, machines, TREES_ALONE)):
        if verdict.startswith("backward "):
            levels = int(verdict.split(" ")[1])
            levels_and_halts.append((levels, latest_halt(text, levels)))
            assert levels_and_halts[-1][1] in (levels - 1, levels), (text, verdict)
    assert any(levels == latest > 0 for levels, latest in levels_and_halts)
    print("%d trees that end" % len(levels_and_halts))
