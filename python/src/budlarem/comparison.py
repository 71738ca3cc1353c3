"""Compares two lists of verdicts, as streams."""

from __future__ import annotations

import collections
import contextlib
import dataclasses
import itertools
import tempfile
from typing import Callable, Iterable, Iterator, NamedTuple

from ._text import Words
from .normal_forms import CanonicalForm, forms_of
from .verdicts import Backward, Cycler, Halt, MachineVerdict, Refused, Translated, Undecided, Verdict
from .verdicts import mirror_verdict, verdicts_of


class Agreement(Words):
    """The relation of two lists' verdicts on a machine."""

    AGREE = "agree"
    FIRST_DECIDES = "first-decides"
    SECOND_DECIDES = "second-decides"
    CONTRADICT = "contradict"
    ONLY_FIRST = "only-first"
    ONLY_SECOND = "only-second"


@dataclasses.dataclass(frozen=True)
class Comparison:
    """The verdicts of two lists on a machine, None in a list without it, and their relation."""

    agreement: Agreement
    machine: str
    first: Verdict | None
    second: Verdict | None

    def __str__(self) -> str:
        verdicts = ("-" if verdict is None else str(verdict) for verdict in (self.first, self.second))
        return "%s\t%s" % (self.agreement, " | ".join(verdicts))


def _halts_agree(first: Halt, second: Halt, undefined_steps: bool) -> bool:
    """Whether two halts are equal, or by `undefined_steps` one counts a step for an undefined transition."""
    if (first.steps, first.score) == (second.steps, second.score):
        return True
    fewer, more = sorted((first, second), key=lambda halt: halt.steps)
    is_step = more.steps == fewer.steps + 1 and more.score in (fewer.score, fewer.score + 1)
    return undefined_steps and "---" in first.machine and is_step


def agreement(first: Verdict, second: Verdict, undefined_steps: bool = False) -> Agreement:
    """The relation of two verdicts on a machine.

    Verdicts that can't both be right contradict each other: halting and never halting, two different halts, a
    cycler and a translated cycler, translated cyclers to both sides, two different trees.
    """
    if isinstance(first, Undecided) != isinstance(second, Undecided):
        return Agreement.SECOND_DECIDES if isinstance(first, Undecided) else Agreement.FIRST_DECIDES
    if isinstance(first, Undecided):
        return Agreement.AGREE
    if isinstance(first, Halt) and isinstance(second, Halt):
        agree = _halts_agree(first, second, undefined_steps)
    elif isinstance(first, Translated) and isinstance(second, Translated):
        agree = first.side == second.side
    elif isinstance(first, Backward) and isinstance(second, Backward):
        agree = first == second
    else:
        kinds = {type(first), type(second)}
        agree = Halt not in kinds and kinds != {Cycler, Translated}
    return Agreement.AGREE if agree else Agreement.CONTRADICT


def compare(
    first: Iterable[str | Verdict], second: Iterable[str | Verdict], *, undefined_steps: bool = False
) -> Iterator[Comparison]:
    """Compares two lists of verdicts, or verdict lines, by machine, in any order.

    Both are read side by side; verdicts for which the other list has none yet are held, so lists in about the
    same order take little memory. Compared pairs are kept too, on the disk once they are many. The rest is
    compared up to the names of states and symbols and up to mirror images. A list may have several verdicts on a
    machine: each is compared, one too many with the first one of the other list. Machines of only one list come
    last. Refusals have no machine and are skipped, as are fields behind a tab. `undefined_steps`: one of the lists
    counts a step for an undefined transition.

    Raises ValueError with its place for a text that is no verdict line, TypeError for an item that is no text;
    OSError if the disk is full.

    >>> for found in compare(["1RB1LB_1LA1RZ halt 6 4"], ["1RA1RA cycler 1 2", "1RB1LB_1LA1RZ halt 5 4"]):
    ...     print(found.agreement, found.machine)
    contradict 1RB1LB_1LA1RZ
    only-second 1RA1RA
    """
    lists = (verdicts_of(first, "first"), verdicts_of(second, "second"))
    sides = [(one for one in items if not isinstance(one, Refused)) for items in lists]
    # The verdicts of each list for which the other one has none yet.
    waiting: list[dict[str, list[MachineVerdict]]] = [{}, {}]
    is_open = [True, True]
    with contextlib.closing(_ComparedPairs()) as compared:
        while any(is_open):
            for here, side in enumerate(sides):
                if (verdict := next(side, None)) is None:
                    is_open[here] = False
                    continue
                if (others := waiting[1 - here].get(verdict.machine)) is None:
                    waiting[here].setdefault(verdict.machine, []).append(verdict)
                    continue
                pair = (verdict, others.pop(0)) if here == 0 else (others.pop(0), verdict)
                if not others:
                    del waiting[1 - here][verdict.machine]
                compared.add(pair)
                yield Comparison(agreement(*pair, undefined_steps), verdict.machine, *pair)
        left, right = ([*itertools.chain.from_iterable(one.values())] for one in waiting)
        yield from _compare_by_form(left, right, compared, undefined_steps)


Pair = tuple[MachineVerdict, MachineVerdict]
# The bytes of pairs that are held in memory.
_HELD = 1 << 24


class _ComparedPairs:
    """The pairs of verdicts that were compared, a line each, in a temporary file."""

    def __init__(self) -> None:
        self._file = tempfile.SpooledTemporaryFile(_HELD, "w+", encoding="ascii", newline="\n")
        self.close = self._file.close

    def add(self, pair: Pair) -> None:
        self._file.write("%s\t%s\n" % pair)

    def find(self, forms: dict[str, str]) -> dict[str, list[_Formed]]:
        """The verdicts of the first pair of each form of some machines, if any."""
        # Most machines have the same text there.
        found = self._first_of({*forms.values()}, lambda machines: (forms.get(one, "") for one in machines))
        rest = {*forms.values()} - found.keys()
        return {**found, **self._first_of(rest, lambda machines: (one.text for one in forms_of(machines)))}

    def _first_of(
        self, needed: set[str], forms_in: Callable[[Iterator[str]], Iterator[str]]
    ) -> dict[str, list[_Formed]]:
        """The first pair of each of these forms, by a call for the forms of machines."""
        found: dict[str, list[_Formed]] = {}
        self._file.seek(0)
        lines, again = itertools.tee(self._file if needed else ())
        for form, line in zip(forms_in(line.partition(" ")[0] for line in again), lines):
            if form in needed and form not in found:
                found[form] = [*_with_forms(verdicts_of(line[:-1].split("\t"), "pair"))]
        return found


class _Formed(NamedTuple):
    """A verdict, and the canonical form of its machine."""

    verdict: MachineVerdict
    form: CanonicalForm

    def compare(self, other: _Formed, undefined_steps: bool) -> Comparison:
        is_mirrored = self.form.mirrored != other.form.mirrored
        kind = agreement(self.verdict, mirror_verdict(other.verdict, is_mirrored), undefined_steps)
        return Comparison(kind, self.verdict.machine, self.verdict, other.verdict)


def _with_forms(verdicts: Iterable[Verdict]) -> Iterator[_Formed]:
    """Verdicts on machines, with the forms of these."""
    held = [verdict for verdict in verdicts if not isinstance(verdict, Refused)]
    return map(_Formed, held, forms_of(verdict.machine for verdict in held))


def _compare_by_form(
    first: list[MachineVerdict], second: list[MachineVerdict], compared: _ComparedPairs, undefined_steps: bool
) -> Iterator[Comparison]:
    """Compares verdicts on machines that the other list has in another form, in a pair or not at all."""
    sides = [[*_with_forms(first)], [*_with_forms(second)]]
    waiting: dict[str, list[_Formed]] = collections.defaultdict(list)
    for formed in sides[1]:
        waiting[formed.form.text].append(formed)
    partners: dict[str, list[_Formed]] = {}
    rest: list[list[_Formed]] = [[], []]
    for formed in sides[0]:
        if not (found := waiting.get(formed.form.text)):
            rest[0].append(formed)
            continue
        other = found.pop(0)
        partners.setdefault(formed.form.text, [formed, other])
        yield formed.compare(other, undefined_steps)
    rest[1] = list(itertools.chain.from_iterable(waiting.values()))
    more = [formed for formed in itertools.chain(*rest) if formed.form.text not in partners]
    partners.update(compared.find({formed.verdict.machine: formed.form.text for formed in more}))
    for formed in rest[0]:
        pair = partners.get(formed.form.text)
        only = Comparison(Agreement.ONLY_FIRST, formed.verdict.machine, formed.verdict, None)
        yield only if pair is None else formed.compare(pair[1], undefined_steps)
    for formed in rest[1]:
        pair = partners.get(formed.form.text)
        only = Comparison(Agreement.ONLY_SECOND, formed.verdict.machine, None, formed.verdict)
        yield only if pair is None else pair[0].compare(formed, undefined_steps)
