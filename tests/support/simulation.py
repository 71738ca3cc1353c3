"""Runs of machines by the definition of a step alone, and complete lists compared."""

from __future__ import annotations

from typing import Iterator, NamedTuple, Sequence

from .machines import LETTERS, table_of
from .program import kind_of, replies

Words = Sequence[str]


class Configuration(NamedTuple):
    """A machine's state (None in Z), head, outermost positions so far outside Z, and tape."""

    state: int | None
    head: int
    low: int
    high: int
    tape: dict[int, int]


def simulate(
    text: str, steps: int, state: int | None = 0, tape: dict[int, int] | None = None
) -> Iterator[Configuration]:
    """Yield the configurations of steps 0 to `steps`, or until a halt; all share one tape."""
    table, cells = table_of(text), {} if tape is None else tape
    head = low = high = 0
    for _ in range(steps + 1):
        yield Configuration(state, head, low, high, cells)
        entry = "---" if state is None else table[state][cells.get(head, 0)]
        if entry == "---":
            return
        cells[head] = int(entry[0])
        head += 1 if entry[1] == "R" else -1
        state = None if entry[2] == "Z" else LETTERS.index(entry[2])
        if state is not None:
            low, high = min(low, head), max(high, head)


def find_undefined(text: str, steps: int) -> int | None:
    """Return the place of the undefined entry that a machine meets within so many steps, if any."""
    table = table_of(text)
    for now in simulate(text, steps):
        symbol = now.tape.get(now.head, 0)
        if now.state is not None and table[now.state][symbol] == "---":
            return now.state * len(table[0]) + symbol
    return None


def decide_confirmed(bb: str, machines: Words, limits: Words, plan: Words = ()) -> list[str]:
    """Return the verdict lines of machines under limits and a plan; the checker must confirm each."""
    lines = replies([bb, "decide", *limits, *plan], machines)
    assert [line.split(" ")[0] for line in lines] == list(machines)
    expected = ["open" if kind_of(line) == "undecided" else "ok" for line in lines]
    answers = replies([bb, "check", *limits], lines)
    compare_lines("answers under %s" % " ".join(limits), answers, expected, lines)
    return lines


def compare_lines(name: str, found: Words, expected: Words, given: Words = ()) -> None:
    """Require equal lists, and print their length; a failure names lines of `given` whose replies differ."""
    assert len(found) == len(expected), "%s: %d lines, not %d" % (name, len(found), len(expected))
    wrong = [k for k, pair in enumerate(zip(found, expected)) if pair[0] != pair[1]]
    shown = ["%s%r, not %r" % (given and given[k] + ": ", found[k], expected[k]) for k in wrong[:10]]
    assert not wrong, "%s: %d lines differ:\n%s" % (name, len(wrong), "\n".join(shown))
    assert found, "%s: no line to compare" % name
    print("%s: %d lines compared" % (name, len(found)))
