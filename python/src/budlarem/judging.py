"""Judges the claims of others by our verdicts and the checker's answers."""

from __future__ import annotations

import collections
import dataclasses
import itertools
import time
from typing import Callable, Iterable, Iterator, TypeVar

from ._text import Words, escape_controls, quote
from .claim_lists import Columns, RereadableList
from .claims import WORDS, Claim, Claims, Translation, Word, translation_of
from .comparison import Agreement, agreement
from .engine import decide
from .limits import GREATEST, Limits, Plan
from .normal_forms import forms_of
from .reading import Form, Reading, Readings, read
from .list_files import Source
from .recurrence_claims import Exactness, Finding, NumbersJudge, find_start_offset
from .verdicts import Answer, Halt, Recurrence, Refused, Undecided, Verdict
from .verification import answers_of

# The most lines of a batch, and the most seconds that its first one waits.
_TOGETHER, _SECONDS = 4_096, 1.0


class Judgement(Words):
    """The judgement of a line.

    `CONFIRMED`: the checker confirms the claim, or our verdict agrees with the word. `CONTRADICTED`: the
    checker refutes the claim, or our verdict disagrees. `NOT_JUDGED`: neither, or the line makes no claim.
    `UNREADABLE`: the line has no one machine.
    """

    CONFIRMED = "confirmed"
    CONTRADICTED = "contradicted"
    NOT_JUDGED = "not-judged"
    UNREADABLE = "unreadable"


@dataclasses.dataclass(frozen=True)
class Judged:
    """A claim of theirs, its judgement and the reason, and our verdict on its machine, if it has one. For a claim
    with a start or a period, `exactness` says whether they hold; `exact` are the exact ones, if known."""

    judgement: Judgement
    claim: Claim
    ours: Verdict | None
    reason: str
    exactness: Exactness | None = None
    exact: Recurrence | None = None

    @property
    def number(self) -> int:
        """The line's number, from 1 on."""
        return self.claim.reading.number

    @property
    def is_open(self) -> bool:
        """Whether a machine's claim isn't contradicted."""
        return self.judgement in (Judgement.CONFIRMED, Judgement.NOT_JUDGED)

    def __str__(self) -> str:
        line = escape_controls(self.claim.reading.line.replace("\t", " "))
        ours = line if self.ours is None else str(self.ours)
        return "%s\t%d\t%s\t%s" % (self.judgement, self.number, ours, self.reason)


# Called with a description of the work, and the lines done.
ProgressCallback = Callable[[str, int], None]
_Item = TypeVar("_Item")


def count_progress(items: Iterable[_Item], what: str, progress: ProgressCallback) -> Iterator[_Item]:
    """The items; `progress` is called with each one's count."""
    for count, item in enumerate(items, 1):
        progress(what, count)
        yield item


class ListOverlap:
    """The machines of two lists with their line numbers. Machines of one canonical form are the same."""

    def __init__(self, listed: Iterable[Reading], progress: ProgressCallback) -> None:
        self._listed: dict[str, int] = {}
        self._theirs: dict[str, list[int]] = {}
        self._progress = progress
        for reading in count_progress(listed, "of the list read", progress):
            if reading.machine is not None:
                self._listed.setdefault(reading.machine, reading.number)

    def add(self, reading: Reading) -> None:
        """Counts a line for its machine. A record with words beside the machine in its cell may mean another."""
        if reading.machine is not None and (reading.row is None or not reading.fields):
            self._theirs.setdefault(reading.machine, []).append(reading.number)

    def missing(self) -> list[tuple[int, str]]:
        """The machines of the list without a line of theirs, each with its first line's number."""
        return [(self._listed[machine], machine) for machine in self._others(self._listed, self._theirs)]

    def foreign(self) -> list[tuple[int, str]]:
        """Their lines with machines missing from the list: number and machine."""
        found = self._others(self._theirs, self._listed)
        return sorted((number, machine) for machine in found for number in self._theirs[machine])

    def _others(self, machines: Iterable[str], those: dict[str, _Item]) -> Iterator[str]:
        """The machines that aren't among those, in any form."""
        rest = [machine for machine in machines if machine not in those]
        compared = count_progress(those if rest else (), "compared by form", self._progress)
        forms = {form.text for form in forms_of(compared)}
        found = count_progress(forms_of(rest), "compared by form", self._progress)
        return (machine for machine, form in zip(rest, found) if form.text not in forms)


def judge(
    theirs: Source,
    listed: Source | Readings | None = None,
    *,
    limits: Limits = Limits(),
    plan: Plan = Plan(),
    checker: Limits = GREATEST,
    undefined_steps: bool | None = None,
    start_offset: int | None = None,
    threads: int = 1,
    progress: ProgressCallback = lambda what, lines: None,
    form: Form | None = None,
    columns: Columns = Columns(),
    words: dict[str, Word] | None = None,
) -> Judging:
    """Judges the claim of each line of a list, by the form of the list.

    A verdict line claims its verdict. A record of a table claims the words and numbers of its columns, by the
    translation `words` (default: `WORDS`). A line of a text makes a claim if its other words are one verdict.
    Nothing else is judged. Each machine is decided within `limits` by `plan`, and each claim that our verdict
    doesn't settle is checked within `checker`.

    `undefined_steps`: they count a step for an undefined transition. By default their halts show it: each halt
    of theirs at such a transition is true of the machine with `1RZ` there, and there is one. `start_offset`: how
    much later than the exact start they give each start of a recurrence. By default it is the one difference of
    all starts, if that is above 0 and two different machines have it. Machines that are the same up to names and
    sides count as one. `missing` and `foreign` of the result compare with the machines `listed`.

    Both lists are what `read` takes; `listed` may be its result. Their list is read twice; a long one that
    isn't a regular file is copied to the disk first. `progress` is called with a description of work other
    than judging, and the lines done. Raises what `read` and `decide` do, and ValueError for a table with two
    columns that may have the verdicts, the steps or the scores.

    >>> lines = ["1RB1LB_1LA1RZ halt 6 4", "1LB1RB_1RA1LZ halt 7 4", "1RA1RA undecided steps"]
    >>> for judged in judge(lines):
    ...     print(judged.judgement, judged.ours)
    confirmed 1RB1LB_1LA1RZ halt 6 4
    contradicted 1LB1RB_1RA1LZ halt 6 4
    not-judged 1RA1RA translated R 1 2 1 1
    """
    source = RereadableList(theirs, form, columns)
    words = WORDS if words is None else words
    translation = translation_in(source, words, progress)
    if undefined_steps is None:
        counted = count_progress(Claims(source, words), "looked at for steps at ---", progress)
        undefined_steps = counts_undefined_steps(counted, limits, checker, threads)
    if start_offset is None:
        start_offset = 0
        if source.form.layout is not None and "start" in source.form.layout.columns:
            counted = count_progress(Claims(source, words), "looked at for their starts", progress)
            start_offset = find_start_offset(counted, limits, plan, threads)
    readings = listed if listed is None or isinstance(listed, Readings) else read(listed)
    lists = None if readings is None else ListOverlap(readings, progress)
    claims = Claims(source, words, is_last=True)
    claims.translation = translation
    decided = _decide_claims(claims, limits, plan, threads)
    numbers = NumbersJudge(limits, checker, start_offset, threads)
    return Judging(decided, lists, numbers, undefined_steps, claims)


def translation_in(
    source: RereadableList, words: dict[str, Word], progress: ProgressCallback
) -> Translation | None:
    """The translation of a table's words, if any. Raises ValueError for two columns of one role."""
    layout = source.form.layout
    if layout is not None and layout.doubts:
        raise ValueError("%s: say which" % layout.doubts[0])
    if layout is None or "verdict" not in layout.columns:
        return None
    counted = count_progress(Claims(source, words), "looked at for their words", progress)
    return translation_of(counted, layout, words)


def _decide_claims(
    claims: Iterable[Claim], limits: Limits, plan: Plan, threads: int
) -> Iterator[tuple[Claim, Verdict | None]]:
    """Each claim with our verdict on its machine, if it has one."""
    waiting: collections.deque[Claim] = collections.deque()

    def machines() -> Iterator[str]:
        for claim in claims:
            waiting.append(claim)
            yield claim.reading.machine or ""

    for verdict in decide(machines(), limits, plan, threads=threads):
        claim = waiting.popleft()
        yield claim, verdict if claim.reading.machine else None


class Judging(Iterator[Judged]):
    """The judgements, one after another. `undefined_steps` says whether a step is counted for an undefined
    transition, `start_offset` how much later each start is given; `theirs` describes the list. At the end `missing`
    and `foreign` compare it with the other list."""

    def __init__(
        self,
        decided: Iterator[tuple[Claim, Verdict | None]],
        lists: ListOverlap | None,
        numbers: NumbersJudge,
        undefined_steps: bool,
        theirs: Claims,
    ) -> None:
        self.undefined_steps, self.start_offset, self.theirs = undefined_steps, numbers.offset, theirs
        self._decided, self._lists, self._numbers = decided, lists, numbers
        self._judged = itertools.chain.from_iterable(iter(self._judge_batch, []))

    def __next__(self) -> Judged:
        return next(self._judged)

    def missing(self) -> list[tuple[int, str]]:
        """The machines of the other list that have no line, each with the number of its line there."""
        return [] if self._lists is None else self._lists.missing()

    def foreign(self) -> list[tuple[int, str]]:
        """The lines with machines missing from the other list: number and machine."""
        return [] if self._lists is None else self._lists.foreign()

    def _judge_batch(self) -> list[Judged]:
        started = time.monotonic()
        batch: list[tuple[Claim, Verdict | None, Judged | None]] = []
        for claim, ours in self._decided:
            if self._lists is not None:
                self._lists.add(claim.reading)
            batch.append((claim, ours, self._judge_without_checker(claim, ours)))
            if len(batch) == _TOGETHER or time.monotonic() - started > _SECONDS:
                break
        verdicts = [self._checked_claim(claim) for claim, _, judged in batch if judged is None]
        numbers = self._numbers
        answers = iter(answers_of(verdicts, numbers.checker, numbers.threads) if verdicts else [])
        found = [judged or self._judge_by_answer(claim, ours, next(answers)) for claim, ours, judged in batch]
        # A claim that is contradicted already needs no numbers.
        places = [place for place, one in enumerate(found) if one.claim.has_recurrence and one.is_open]
        pairs = [(one.claim, one.ours) for one in (found[place] for place in places) if one.ours is not None]
        for place, finding in zip(places, numbers.findings(pairs)):
            found[place] = _with_numbers(found[place], finding)
        return found

    def _checked_claim(self, claim: Claim) -> Verdict:
        assert claim.verdict is not None
        if self.undefined_steps and isinstance(claim.verdict, Halt):
            return with_steps(claim.verdict)
        return claim.verdict

    def _judge_without_checker(self, claim: Claim, ours: Verdict | None) -> Judged | None:
        """The judgement of a claim, or None if it needs the checker."""
        if ours is None:
            text = str(claim.reading.reason or "a refusal names no machine")
            return Judged(Judgement.UNREADABLE, claim, ours, text)
        if claim.trouble is not None:
            return Judged(Judgement.NOT_JUDGED, claim, ours, claim.trouble)
        if claim.verdict is None or isinstance(claim.verdict, (Undecided, Refused)):
            return self._judge_word(claim, ours)
        if isinstance(ours, Undecided):
            return None
        verdict = self._checked_claim(claim)
        if verdict == ours:
            return Judged(Judgement.CONFIRMED, claim, ours, "our verdict is the same")
        is_halt = isinstance(verdict, Halt) and isinstance(ours, Halt)
        if agreement(verdict, ours) is Agreement.CONTRADICT and not (is_halt and verdict != claim.verdict):
            return Judged(Judgement.CONTRADICTED, claim, ours, _disagreement(claim, ours))
        return None

    def _judge_word(self, claim: Claim, ours: Verdict) -> Judged:
        """The judgement of a line with a word and no verdict."""
        word = Word.UNDECIDED if claim.verdict is not None else claim.word
        if word not in (Word.HALTS, Word.NEVER_HALTS):
            text = "no word says whether it halts" if word is None else "%s says neither" % word
            return Judged(Judgement.NOT_JUDGED, claim, ours, text)
        if isinstance(ours, Undecided):
            return Judged(Judgement.NOT_JUDGED, claim, ours, "%s; undecided here" % word)
        if isinstance(ours, Halt) != (word is Word.HALTS):
            return Judged(Judgement.CONTRADICTED, claim, ours, _disagreement(claim, ours))
        if claim.steps is None and claim.score is None:
            reason = "%s, as ours says%s" % (word, _unjudged_suffix(claim))
            return Judged(Judgement.CONFIRMED, claim, ours, reason)
        assert isinstance(ours, Halt)
        halt = halt_with_steps(ours) if self.undefined_steps else ours
        if claim.steps not in (None, halt.steps) or claim.score not in (None, halt.score):
            return Judged(Judgement.CONTRADICTED, claim, ours, _disagreement(claim, ours))
        suffix = " with 1RZ for ---" if halt.machine != ours.machine else ""
        return Judged(Judgement.CONFIRMED, claim, ours, "%s, as ours says%s" % (_words_of(claim), suffix))

    def _judge_by_answer(self, claim: Claim, ours: Verdict | None, answer: Answer) -> Judged:
        suffix = " with 1RZ for ---" if self._checked_claim(claim) != claim.verdict else ""
        words = str(claim.verdict).partition(" ")[2]
        if answer is Answer.OK:
            return Judged(Judgement.CONFIRMED, claim, ours, "the checker confirms %s%s" % (words, suffix))
        if answer is Answer.BAD:
            return Judged(Judgement.CONTRADICTED, claim, ours, "the checker refutes %s%s" % (words, suffix))
        return Judged(Judgement.NOT_JUDGED, claim, ours, "%s: over the checker's limits" % words)


def _with_numbers(judged: Judged, finding: Finding) -> Judged:
    """The judgement of a claim with a start or a period: of these alone, or of a verdict beside them too."""
    judgement = Judgement.NOT_JUDGED if finding.exactness is None else Judgement.CONFIRMED
    judgement = Judgement.CONTRADICTED if finding.exactness is Exactness.FALSE else judgement
    reason = finding.reason + _unjudged_suffix(judged.claim)
    if judged.claim.verdict is not None:
        is_worse = judgement is Judgement.CONTRADICTED or judged.judgement is Judgement.CONFIRMED
        judgement = judgement if is_worse else judged.judgement
        reason = "%s; %s" % (judged.reason, reason)
    return Judged(judgement, judged.claim, judged.ours, reason, finding.exactness, finding.exact)


def _unjudged_suffix(claim: Claim) -> str:
    """The numbers beside a word that mean nothing, as the end of a reason."""
    return "; not judged: %s" % quote(", ".join(claim.unjudged)) if claim.unjudged else ""


def _disagreement(claim: Claim, ours: Verdict) -> str:
    text = _words_of(claim) if claim.verdict is None else str(claim.verdict).partition(" ")[2]
    return "%s; ours is %s" % (text, str(ours).partition(" ")[2])


def _words_of(claim: Claim) -> str:
    steps = [] if claim.steps is None else ["after {:,} steps".format(claim.steps)]
    score = [] if claim.score is None else ["with a score of {:,}".format(claim.score)]
    return " ".join([str(claim.word), *steps, *score])


def with_steps(halt: Halt) -> Halt:
    """The same halt of the machine with `1RZ` for each undefined transition."""
    return dataclasses.replace(halt, machine=halt.machine.replace("---", "1RZ"))


def halt_with_steps(halt: Halt) -> Halt:
    """The halt of the machine with `1RZ` for each undefined transition; `halt` if there is no later one."""
    machine = with_steps(halt).machine
    if machine == halt.machine:
        return halt
    cells = max(1_024, min(halt.steps + 2, GREATEST.cells))
    verdict = next(decide([machine], Limits(min(halt.steps + 1, GREATEST.steps), cells)))
    return verdict if isinstance(verdict, Halt) else halt


def counts_undefined_steps(claims: Iterable[Claim], limits: Limits, checker: Limits, threads: int) -> bool:
    """Whether each halt at an undefined transition, one or more, is true of the machine with `1RZ` there."""
    verdicts = (claim.verdict or _complete_halt(claim, limits) for claim in claims)
    halts = (verdict for verdict in verdicts if isinstance(verdict, Halt) and "---" in verdict.machine)
    is_counted = False
    while batch := list(itertools.islice(halts, _TOGETHER)):
        found = _counts_steps(batch, limits, checker, threads)
        if not all(found):
            return False
        is_counted = is_counted or bool(found)
    return is_counted


def _complete_halt(claim: Claim, limits: Limits) -> Halt | None:
    """The halt of a record that has one of its numbers; the other is that of the run."""
    machine = claim.reading.machine
    if machine is None or "---" not in machine or (claim.steps is None and claim.score is None):
        return None
    ours = next(decide([machine], limits))
    if not isinstance(ours, Halt):
        return None
    later = halt_with_steps(ours)
    is_later = claim.steps in (None, later.steps) and claim.score in (None, later.score)
    steps, score = (later.steps, later.score) if is_later else (claim.steps, claim.score)
    return Halt(machine, ours.steps if steps is None else steps, ours.score if score is None else score)


def _counts_steps(halts: list[Halt], limits: Limits, checker: Limits, threads: int) -> list[bool]:
    """For each halt that is one at an undefined transition, as far as known: whether it counts a step."""
    verdicts = list(decide([halt.machine for halt in halts], limits, threads=threads))
    pairs = [(halt, ours) for halt, ours in zip(halts, verdicts) if isinstance(ours, (Halt, Undecided))]
    known = [ours if isinstance(ours, Halt) else halt for halt, ours in pairs]
    stepped, plain, same = (
        answers_of(those, checker, threads)
        for those in ([with_steps(halt) for halt, _ in pairs], known, list(map(with_steps, known)))
    )
    # A halt is at an undefined transition if it is one of the machine and none with `1RZ` there, or the other
    # way round.
    return [
        counted is Answer.OK
        for counted, own, unchanged in zip(stepped, plain, same)
        if (unchanged is Answer.BAD if own is Answer.OK else counted is Answer.OK)
    ]
