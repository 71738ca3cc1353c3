"""The normal form of machines, by their lines (`lines_of`).

`normal` keeps the entries that a run uses: states and symbols are named in the order in which that run meets them,
the first move is to the right, and the other entries are `---`. So machines stand in lists in tree normal form.

`forms_of` renames whole tables in the same way. Machines of one form are the same up to names and sides, so the laws of
verdicts give them one verdict: `compare` and `judge` identify them. Machines that are the same have one form if the
run makes a step, and at most one state and one symbol are left that it doesn't meet.
"""

from __future__ import annotations

import dataclasses
from typing import Iterable, Iterator, NamedTuple

from .engine import MachineError
from .settling import Line, lines_of
from .verdicts import SIDES, STATES, size_of
from .walk_order import first_undefined

# The steps and the cells of the runs that name states and symbols for comparing.
_STEPS, _CELLS = 1_000, 1_024


@dataclasses.dataclass(frozen=True)
class Normal:
    """A machine in normal form. `states` has the state of the machine for each state of the form, `symbols` the
    symbol for each symbol; `mirrored`: left and right were exchanged."""

    machine: str
    normal: str
    states: str
    mirrored: bool
    symbols: str

    def __str__(self) -> str:
        side = "L" if self.mirrored else "R"
        return "\t".join((self.normal, self.machine, self.states, side, self.symbols))


class CanonicalForm(NamedTuple):
    """The text that all machines of a form have in common, and whether left and right are exchanged in it."""

    text: str
    mirrored: bool


def _rename(line: Line, entry: str) -> str:
    """An entry of a machine, in the names of its line."""
    if entry == "---":
        return entry
    state = entry[2] if entry[2] == "Z" else STATES[line.states.index(entry[2])]
    return "%d%s%s" % (line.symbols.index(entry[0]), SIDES[line.is_mirrored][entry[1]], state)


def _name_last(line: Line) -> Line:
    """A line whose names go on with the machine's own entry where the line halts: a step into Z may write a symbol
    without a name, and it is the first move of a line without entries."""
    if line.halt is None or line.halt.entry == "---":
        return line
    used = [*map(int, filter(str.isdigit, line.line))]
    symbols, next_name = [*line.symbols], 1 + max(used, default=0)
    if (place := symbols.index(line.halt.entry[0])) > next_name:
        symbols[next_name], symbols[place] = symbols[place], symbols[next_name]
    is_mirrored = line.is_mirrored or (not used and line.halt.entry[1] == "L")
    return dataclasses.replace(line, symbols="".join(symbols), is_mirrored=is_mirrored)


def _normal(found: Line, steps: int) -> Normal:
    line = _name_last(found)
    text = line.line
    if line.halt is not None and line.halt.entry != "---":
        place = first_undefined(text, len(line.symbols), steps)
        assert place is not None
        text = text[:place] + _rename(line, line.halt.entry) + text[place + 3 :]
    return Normal(line.machine, text, line.states, line.is_mirrored, line.symbols)


def normal(machine: str, *, steps: int = 10_000, cells: int = 65_536) -> Normal:
    """The normal form of a machine by a run of `steps`.

    Raises MachineError for a text that is no machine, and LimitsError.

    >>> print(normal("1LC1RZ_1RB---_1RA1LA").normal)
    1RB1LZ_1LA---_------
    >>> print(normal("2RB2RZ1LB_1LA2LB1RB").normal)
    1RB2LB1RZ_2LA2RB1LB
    """
    try:
        (line,) = lines_of([machine], steps=steps, cells=cells)
    except MachineError as error:
        raise MachineError(machine, error.column) from None
    return _normal(line, steps)


def distinct(
    machines: Iterable[str], *, steps: int = 10_000, cells: int = 65_536
) -> Iterator[tuple[Normal, str | None]]:
    """The normal form of each machine, and the first machine before it with the same one, or None. The normal
    forms so far are held. Raises as `lines_of` does, with the place of the item.

    >>> [(form.machine, before) for form, before in distinct(["1RA---", "1LA---"])]
    [('1RA---', None), ('1LA---', '1RA---')]
    """
    met: dict[str, str] = {}
    for line in lines_of(machines, steps=steps, cells=cells):
        form = _normal(line, steps)
        yield form, met.get(form.normal)
        met.setdefault(form.normal, form.machine)


def forms_of(machines: Iterable[str]) -> Iterator[CanonicalForm]:
    """The form of each machine. Raises as `lines_of` does.

    >>> [form.text for form in forms_of(["1LB1LZ2RB_2RA1RB2LB", "2RB2RZ1LB_1LA2LB1RB"])]
    ['1RB1RZ2LB_2LA1LB2RB', '1RB2LB1RZ_2LA2RB1LB']
    """
    for line in map(_name_last, lines_of(machines, steps=_STEPS, cells=_CELLS)):
        width = 3 * size_of(line.machine)[1] + 1
        rows = (width * STATES.index(state) for state in line.states)
        places = ([row + 3 * int(symbol) for symbol in line.symbols] for row in rows)
        groups = ("".join(_rename(line, line.machine[at : at + 3]) for at in row) for row in places)
        yield CanonicalForm("_".join(groups), line.is_mirrored)
