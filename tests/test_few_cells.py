"""Machines in few cells, whose verdicts are derived anew by the definitions of run, halt, span and cycle.

A machine of q states and k symbols has q * S * k^S configurations in S cells. With three times as many steps
none may be `undecided steps`.
"""

from __future__ import annotations

import random

import pytest
from support.machines import all_machines, seldom_halting
from support.program import decide_machines
from support.simulation import compare_lines, simulate


def derive_verdict(machine: str, steps: int, cells: int) -> str:
    """Derive the verdict of simulation and cyclers alone from the definitions."""
    seen: list[tuple[object, ...]] = []
    score = 0
    for step, now in enumerate(simulate(machine, steps + 1)):
        if step > steps:
            return "undecided steps"
        if now.high - now.low + 1 > cells:
            return "undecided cells"
        written = frozenset((place, symbol) for place, symbol in now.tape.items() if symbol)
        here, partner, score = (now.state, now.head, written), 1 << (step - 1).bit_length() >> 1, len(written)
        if step >= 2 and now.state is not None and here == seen[partner]:
            return "cycler %d %d" % (partner, step)
        seen.append(here)
    return "halt %d %d" % (len(seen) - 1, score)


@pytest.mark.parametrize(
    "states, symbols, cells, steps, count",
    [
        (2, 2, 4, None, None),
        (3, 2, 6, None, 10_000),
        (4, 2, 6, None, 10_000),
        (2, 3, 4, None, 10_000),
        (5, 2, 12, 1_000_000, 1_000),
    ],
)
def test_verdicts_follow_from_definitions(
    bb: str, rng: random.Random, states: int, symbols: int, cells: int, steps: int | None, count: int | None
) -> None:
    """Of so many random machines, or of all where no count is given."""
    machines = [seldom_halting(rng, states, symbols) for _ in range(count or 0)]
    machines = machines or list(all_machines(states, symbols))
    configurations = states * cells * symbols**cells
    limit = steps or 3 * configurations
    options = ["--steps=%d" % limit, "--cells=%d" % cells, "--depth=%d" % (cells // 2)]
    expected = [derive_verdict(machine, limit, cells) for machine in machines]
    alone = decide_machines(bb, machines, *options, "--no-translated", "--no-backward")
    compare_lines("%d states, %d symbols, %d cells" % (states, symbols, cells), alone, expected, machines)
    whole = decide_machines(bb, machines, *options)
    assert "undecided steps" not in [*expected, *whole]
    decided = [pair for pair in zip(whole, expected) if not pair[1].startswith("undecided")]
    assert len(whole) == len(expected) and all(line == verdict for line, verdict in decided)
    halts = [int(verdict.split()[1]) for verdict in expected if verdict.startswith("halt")]
    cycles = [int(verdict.split()[2]) for verdict in expected if verdict.startswith("cycler")]
    assert max(halts) <= configurations and max(cycles) <= 3 * configurations
    print("the latest cycle is found at step %d; the bound is %d" % (max(cycles), 3 * configurations))
