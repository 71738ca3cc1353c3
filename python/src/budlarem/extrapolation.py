"""The place of a machine after steps that no run reaches, by its verdict."""

from __future__ import annotations

import dataclasses

from .engine import Configuration, check, trace
from .limits import Limits, in_range, whole
from .verdicts import VERDICTS, Answer, Cycler, Halt, Translated, Verdict


@dataclasses.dataclass(frozen=True)
class Place:
    """A machine after `step` steps: its state (`Z` after a step into it) and the head's position."""

    step: int
    state: str
    position: int

    def __str__(self) -> str:
        return "%d %s %d" % (self.step, self.state, self.position)


def _configuration_at(machine: str, step: int, cells: int) -> Configuration:
    (now,) = trace(machine, step, cells, start=step)
    return now


def _shift_of(verdict: Translated, cells: int) -> int:
    """How far the head moves from the first step of a pair to the second; left is negative."""
    if verdict.extent is not None:
        return verdict.extent.shift if verdict.side == "R" else -verdict.extent.shift
    first = _configuration_at(verdict.machine, verdict.first, cells)
    return _configuration_at(verdict.machine, verdict.second, cells).position - first.position


def at(verdict: Verdict, step: int, cells: int = 65_536) -> Place:
    """The state and the head's position after `step` steps, however many, by a halt, a cycler or a translated
    cycler.

    From the first step of a cycler's pair on, the configurations repeat. From that of a translated cycler's pair
    on, the states repeat, with the head farther out by the shift each time. So the machine is run at most to the
    last step of the verdict, within `cells`. The checker has to confirm the verdict first.

    Raises ValueError if the verdict doesn't fix that step (a halt later ones; a tree, an undecided machine or
    a refusal any), the checker doesn't answer `ok`, the run needs more than `cells`, or `step` is below 0.
    Raises LimitsError, a ValueError, if `cells` are out of their range or the verdict names more than
    1,000,000,000,000 steps. Raises TypeError if `verdict` is no verdict, or another argument no whole number.

    >>> from budlarem import parse
    >>> print(at(parse("0RB---_0LA--- cycler 2 4"), 10**15 + 1))
    1000000000000001 B 1
    >>> print(at(parse("1RA1RA translated R 1 2 1 1"), 10**15))
    1000000000000000 A 1000000000000000
    """
    if not isinstance(verdict, VERDICTS):
        raise TypeError("verdict is of type %s, but parse() makes one of a line" % type(verdict).__name__)
    step, cells = whole("step", step), in_range("cells", cells, *Limits.RANGES["cells"])
    if step < 0:
        raise ValueError("step is %d, but must be 0 or more" % step)
    if not isinstance(verdict, (Halt, Cycler, Translated)):
        why = f"doesn't say where its machine is after {step} steps; trace() runs a machine"
        raise ValueError(f"{verdict} {why}")
    if isinstance(verdict, Halt) and step > verdict.steps:
        raise ValueError("the machine halts after %d steps, so it makes no %d" % (verdict.steps, step))
    last = verdict.steps if isinstance(verdict, Halt) else max(verdict.first, verdict.second)
    (answer,) = check([verdict], Limits(steps=last, cells=cells, depth=0, nodes=0))
    if answer is Answer.OVER:
        raise ValueError("the run of %s needs more than %d cells; give more" % (verdict, cells))
    if answer is not Answer.OK:
        raise ValueError("the checker answers %s to %s" % (answer, verdict))
    if isinstance(verdict, Halt) or step < verdict.first:
        times, early = 0, step
    else:
        times, early = divmod(step - verdict.first, verdict.second - verdict.first)
        early += verdict.first
    now = _configuration_at(verdict.machine, early, cells)
    farther = times * _shift_of(verdict, cells) if isinstance(verdict, Translated) else 0
    return Place(step, now.state, now.position + farther)
