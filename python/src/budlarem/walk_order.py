"""The order of the machines of a list in tree normal form."""

from __future__ import annotations

import functools
from typing import Iterator


class WalkOrder:
    """Accepts machines below a machine, each behind the one before in the walk of `tree_normal_form`."""

    def __init__(self, machine: str, symbols: int, steps: int) -> None:
        """`symbols` of the machine; `steps` of the list's runs."""
        self._above, self._before = machine, ""
        rows = range(0, len(machine), 3 * symbols + 1)
        self._places = [row + 3 * at for row in rows for at in range(symbols)]
        # Lines behind one another mostly part at a few machines.
        run = functools.partial(first_undefined, symbols=symbols, steps=steps)
        self._first_undefined = functools.lru_cache(maxsize=1 << 16)(run)

    def accept(self, machine: str) -> bool:
        """Whether a machine is below the first one, and comes behind the one before."""
        above, before, self._before = self._above, self._before, machine
        if len(machine) != len(above):
            return False
        if any(above[at : at + 3] not in ("---", machine[at : at + 3]) for at in self._places):
            return False
        return not before or self.is_behind(before, machine)

    def is_behind(self, before: str, machine: str) -> bool:
        """Whether the first entry that two machines meet and don't share puts one behind the other."""
        shared = machine
        for at in self._places:
            if before[at : at + 3] != machine[at : at + 3]:
                shared = shared[:at] + "---" + shared[at + 3 :]
        place = self._first_undefined(shared)
        if place is None:
            return False
        first, second = before[place : place + 3], machine[place : place + 3]
        return second != "---" and (first == "---" or _rank(first) < _rank(second))


def _rank(entry: str) -> tuple[str, bool, str]:
    """The place of an entry among those that are tried: by symbol, right before left, by state."""
    return entry[0], entry[1] == "L", entry[2]


def entries_of(machine: str, symbols: int, steps: int) -> Iterator[tuple[int, int]]:
    """Where the text of a machine has each entry that a run uses, up to `steps`, the one that halts and an undefined one
    too; and the head's position before it."""
    tape: dict[int, int] = {}
    width, state, cell = 3 * symbols + 1, 0, 0
    for _ in range(steps + 1):
        place = width * state + 3 * tape.get(cell, 0)
        yield place, cell
        if machine[place] == "-" or machine[place + 2] == "Z":
            return
        tape[cell] = int(machine[place])
        cell += 1 if machine[place + 1] == "R" else -1
        state = ord(machine[place + 2]) - ord("A")


def first_undefined(machine: str, symbols: int, steps: int) -> int | None:
    """Where the text of a machine has the undefined entry that it meets first; None within so many steps."""
    places = (place for place, _ in entries_of(machine, symbols, steps) if machine[place] == "-")
    return next(places, None)
