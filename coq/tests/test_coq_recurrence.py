"""The checker of exact recurrence that Coq extracts confirms true numbers, and refuses each wrong one."""

from __future__ import annotations

import itertools
import pathlib
import random
from typing import Iterator, Sequence

import pytest
from support import ListMachines
from support.machines import DIGITS, LETTERS
from support.program import as_lines, kind_of, options, replies, run_command
from support.recurrences import GREATEST, GREATEST_REPLY, Numbers, Step, numbers_of, numbers_of_pair
from support.recurrences import repeats, steps_of
from support.second_checker import Edit, build_wrong

SIZES = ((2, 2), (3, 2), (2, 3))
LIMITS = (3_000, 1_024, 30, 100)
FOUR = (1_000, 1_024, 40, 500)
FIVE = (20_000, 4_096, 40, 500)
WORDS = ["bad", "over", "open", "unread"]
WRONG = [
    Edit(name, "checker/RecurrenceChecker.v", *change)
    for name, *change in (
        ("compares no symbols", "then Nat.eqb (under z) (under y)", "then true"),
        ("takes a repeat for a cycle", "Some (check_cycler M s (s + p))", "Some true"),
        ("takes any shift", "(Z.of_N (add_nat (back y) 0) + d)", "(Z.of_N (add_nat (beyond y) 0))"),
        ("takes a later start", "Some (z, y) => negb (alike z y) | None", "Some _ => true | None"),
        ("tests no small divisor", "if test_divisor M z p e then", "if true then"),
        ("tests no large divisor", "if test_divisor M z p (p / e) then", "if true then"),
        ("notes the step after a use", "then Some n else snd uo", "then Some (N.succ n) else snd uo"),
        ("takes the first use of the period for the last", "if N.ltb n s then", "if N.leb n s then"),
        ("counts no step to the quasihalt", "None => Some (n + 1)%N", "None => Some n"),
        ("looks at no entry", "then Nat.eqb (under z) r else false", "then true else false"),
        ("answers over to what doesn't repeat", "| Some false => Bad", "| Some false => Over"),
        (
            "answers over to a wrong shift",
            "(has_shift M s p (shift x)) then Bad",
            "(has_shift M s p (shift x)) then Over",
        ),
        ("prints nothing again", "if String.eqb s (recurrence_line M x) then", "if true then"),
    )
]


@pytest.fixture(scope="module")
def pairs(bb: str, list_machines: ListMachines) -> dict[str, Numbers]:
    """The numbers of all machines of three small sizes that have a pair."""
    machines = [machine for s, k in SIZES for machine in list_machines(s, "--symbols", str(k))]
    lines = replies([bb, "decide", *options(LIMITS)], machines)
    pairs = (line for line in lines if kind_of(line) in ("cycler", "translated"))
    return {line.split(" ")[0]: numbers_of_pair(line) for line in pairs}


def answers(coq_recurrence: str, lines: Sequence[str], *words: str) -> list[str]:
    """The answers to lines; all of them are lines that are answered."""
    answered = replies([coq_recurrence, *words], lines)
    assert len(answered) == len(lines) > 0
    return answered


def wrong_numbers(numbers: Numbers) -> Iterator[Numbers]:
    """Yield the numbers with one of them, or two that go together, changed."""
    start, period, shift, states, quasihalt, entries = numbers
    yield from (numbers._replace(start=other) for other in (start + 1, *((start - 1, 0) if start else ())))
    yield from (numbers._replace(period=other) for other in (period + 1, 2 * period, 0))
    yield from (numbers._replace(period=k * period, shift=k * shift) for k in (2, 3))
    yield numbers._replace(period=period // 2, shift=shift // 2)
    shifts = {shift + 1, shift - 1, -shift} - {shift}
    yield from (numbers._replace(shift=other) for other in sorted(shifts))
    others: list[int | None] = [1] if quasihalt is None else [quasihalt + 1, quasihalt - 1, None]
    yield from (numbers._replace(quasihalt=other) for other in others)
    for at, use in enumerate(states):
        for other in wrong_uses(use, numbers):
            uses = [*states[:at], other, *states[at + 1 :]]
            yield numbers._replace(states=uses)
            last = max((int(use) for use in uses if use.isdecimal()), default=None)
            yield numbers._replace(states=uses, quasihalt=None if last is None else last + 1)
    for at, use in enumerate(entries):
        for other in wrong_uses(use, numbers):
            yield numbers._replace(entries=[*entries[:at], other, *entries[at + 1 :]])


def wrong_uses(use: str, numbers: Numbers) -> list[str]:
    """Other uses than this one."""
    others = ["*", "-", "0", str(numbers.start), str(numbers.start + numbers.period)]
    if use.isdecimal():
        others += [str(int(use) + 1), str(max(0, int(use) - 1))]
    return [other for other in others if other != use]


@pytest.mark.parametrize("with_entries", [False, True])
def test_true_numbers_are_confirmed(
    coq_recurrence: str, pairs: dict[str, Numbers], with_entries: bool
) -> None:
    lines = [numbers.line_of(machine, with_entries) for machine, numbers in pairs.items()]
    limits = options(LIMITS[:2])
    assert answers(coq_recurrence, lines, *limits) == ["ok"] * len(lines)
    assert sum(" quasihalts " in line for line in lines) > 100
    print("%d lines confirmed" % len(lines))


def test_wrong_numbers_are_refused(coq_recurrence: str, pairs: dict[str, Numbers]) -> None:
    lines = []
    for machine, numbers in pairs.items():
        line = numbers.line_of(machine, True)
        wrong = (other.line_of(machine, True) for other in wrong_numbers(numbers))
        lines += [other for other in wrong if other != line]
    assert answers(coq_recurrence, lines) == ["bad"] * len(lines)
    print("%d lines refused" % len(lines))


def spoil_line(line: str, source: random.Random) -> str:
    """Change a character, or leave out, double or add a word."""
    fields = line.split(" ")
    at, place = source.randrange(2, len(fields)), source.randrange(len(line))
    added = source.choice(["*", "-", "0", "7", "-0", "00", "+1"])
    words = source.choice([[], [fields[at]] * 2, [added, fields[at]]])
    others = [
        line[:place] + source.choice(DIGITS + LETTERS + "*- _\r\0\xff") + line[place + 1 :],
        line[:place],
    ]
    others.append(line + source.choice([" ", " *", " -", " quasihalts 1", " entries", "\r"]))
    return source.choice([*others, *[" ".join([*fields[:at], *words, *fields[at + 1 :]])] * 3])


def test_spoilt_lines_are_refused(coq_recurrence: str, pairs: dict[str, Numbers], rng: random.Random) -> None:
    """No line is confirmed but those of true numbers."""
    true = {numbers.line_of(machine, k) for machine, numbers in pairs.items() for k in (False, True)}
    lines = [spoil_line(line, rng) for line in sorted(true) for _ in range(3)]
    given = "".join(line + "\n" for line in lines).encode("latin-1")
    answered = run_command([coq_recurrence], given).output.decode().splitlines()
    assert len(answered) == len(lines)
    for line, answer in zip(lines, answered):
        assert answer in ("bad", "unread") or line in true or line in WORDS, line
    assert answered.count("bad") > 100 and answered.count("unread") > 100


def record_after(steps: Sequence[Step], shift: int, first: int) -> int:
    """The first step from this one on at which the head is farther out than before."""
    sign = 1 if shift > 0 else -1
    outs = [sign * step.head for step in steps]
    return next(n for n in range(first, len(outs)) if outs[n] > max(outs[:n], default=-1))


def test_limits(coq_recurrence: str, pairs: dict[str, Numbers], rng: random.Random) -> None:
    """With limits that are just enough and just not."""
    for machine, numbers in rng.sample(sorted(pairs.items()), 150):
        line, end = numbers.line_of(machine, False), numbers.start + numbers.period
        steps = steps_of(machine, 2 * end + 400)
        heads = [step.head for step in steps[: end + 1]]
        cells = max(heads) - min(heads) + 1
        seen = record_after(steps, numbers.shift, end) if numbers.shift else end
        for limits in (seen, cells), (seen - 1, cells), (end - 1, cells), (seen, cells - 1):
            expected = ["ok" if limits == (seen, cells) else "over"]
            if limits[1] > 0:
                assert answers(coq_recurrence, [line], *options(limits)) == expected, (line, limits)


UNREAD = ["ok", "", "1RB1LB_1LA1RZ halt 6 4", "0RB---_0LA--- recurs 0 2 -0 * *"]
UNREAD += ["1RA1RA recurs " + words for words in ("00 1 1 *", "0 1 +1 *", "0 1 1 * *", "0 1 1")]
UNREAD += ["1RA1RA recurs 0 1 1 * entries *" + more for more in ("", " - -")]
UNREAD += ["1RA1RA recurs 0 18446744073709551616 1 *"]
# First the machines of two and three states with the latest quasihalt that is known, and one of four states,
# beside the latest of all.
OK = [
    "1RB1LB_1LB1LA recurs 6 1 -1 5 * quasihalts 6",
    "1RB0LB_1LA0RC_1LC1LA recurs 55 1 -1 53 54 * quasihalts 55",
]
OK += ["1RB1RC_1LC1RD_1RA1LD_0RD0LB recurs 2819 1 1 2817 2818 2816 * quasihalts 2819"]
OK += ["0RB---_0LA--- recurs 0 2 0 * * entries * - * -"]
OK += ["1RA1RA recurs 0 1 1 *" + more for more in ("", " entries * -")]


@pytest.mark.parametrize(
    "line, answer",
    [
        *((word, "open") for word in WORDS),
        *((line, "unread") for line in UNREAD),
        *((line, "ok") for line in OK),
        ("1RB1LB_1LA1RZ recurs 0 1 1 * *", "bad"),
        ("1RB1LB_1LA1RZ recurs 6 1 1 5 4 quasihalts 6", "bad"),
        ("1RA1RA recurs 0 18446744073709551615 1 *", "over"),
    ],
)
def test_line(coq_recurrence: str, line: str, answer: str) -> None:
    done = run_command([coq_recurrence], as_lines([line]))
    assert done.output.decode() == answer + "\n" and not done.error
    assert done.status == (0 if answer in ("ok", "open") else 1)


def test_longest_line(coq_recurrence: str) -> None:
    line, most = GREATEST_REPLY, "18446744073709551615"
    uses, entries = 25 * (" " + most), 250 * (" " + most)
    long = f"{GREATEST} recurs {most} 1 -{most}{uses} quasihalts {most} entries{entries}"
    given = [line, long, line + " " * 9_000, line]
    assert run_command([coq_recurrence], as_lines(given)).output == b"ok\nover\nunread\nok\n"


# Words by the exit status.
ENDS = {
    0: ["--steps=9 --cells +9", "--help"],
    2: "--steps 1000000000001,--cells 0,--depth 3,--entries,--steps 1 --steps 1,--steps x,a b".split(","),
    3: ["/no/such/file", "/"],
}


@pytest.mark.parametrize("words, status", [(words, status) for status in ENDS for words in ENDS[status]])
def test_words(coq_recurrence: str, words: str, status: int) -> None:
    done = run_command([coq_recurrence, *words.split(" ")], b"open\n")
    assert done.status == status and bool(done.error) == (status > 1)
    assert status > 1 or words == "--help" or done.output == b"open\n"


def seeming_numbers(machine: str) -> Iterator[Numbers]:
    """Yield numbers of runs that use the same transitions again for at least two periods, or for ever."""
    steps = steps_of(machine, 120)
    used = [step[:2] for step in steps]
    for period, start in itertools.product(range(1, 9), range(60)):
        end = start + period
        if end + 2 * period <= len(steps) and repeats(used, start, period, period + 1):
            yield numbers_of(machine, steps[: end + period], start, period)


@pytest.fixture(scope="module")
def seeming_lines(pairs: dict[str, Numbers], list_machines: ListMachines) -> list[str]:
    """Lines of runs that seem to repeat: a few of each machine that does, and all of the others."""
    machines = [machine for s, k in SIZES for machine in list_machines(s, "--symbols", str(k))]
    return [
        numbers.line_of(machine, False)
        for machine in machines
        for numbers in itertools.islice(seeming_numbers(machine), 5 if machine in pairs else None)
    ]


def test_runs_that_seem_to_repeat(
    coq_recurrence: str, pairs: dict[str, Numbers], seeming_lines: list[str]
) -> None:
    true = {numbers.line_of(machine, False) for machine, numbers in pairs.items()}
    for line, answer in zip(seeming_lines, answers(coq_recurrence, seeming_lines, *options(LIMITS[:2]))):
        assert answer == ("ok" if line in true else "bad"), line
    others = sum(line.split(" ")[0] not in pairs for line in seeming_lines)
    assert others > 1_000
    print("%d lines, %d of machines that don't repeat" % (len(seeming_lines), others))


@pytest.mark.slow
@pytest.mark.needs("coqc", "coqchk", "ocamlfind")
@pytest.mark.parametrize("edit", WRONG, ids=[edit.name for edit in WRONG])
def test_wrong_checker_of_recurrences_is_noticed(
    coq_recurrence: str,
    pairs: dict[str, Numbers],
    seeming_lines: list[str],
    rng: random.Random,
    tmp_path: pathlib.Path,
    edit: Edit,
) -> None:
    """A proof fails; built without its proofs, it answers some line otherwise."""
    true = [numbers.line_of(machine, True) for machine, numbers in pairs.items()]
    lines = [*true, *seeming_lines, *(spoil_line(line, rng) for line in true)]
    for place, (machine, numbers) in enumerate(pairs.items()):
        if place % 9 == 0 or not numbers.shift:
            lines += [other.line_of(machine, True) for other in wrong_numbers(numbers)]
    given = "".join(line + "\n" for line in lines).encode("latin-1")
    programs = build_wrong(tmp_path, edit, "recurrence"), coq_recurrence
    found, expected = (run_command([one, *options(LIMITS[:2])], given).output.split() for one in programs)
    assert len(found) == len(expected) == len(lines) and found != expected
    print("%d lines notice it" % sum(one != other for one, other in zip(found, expected)))


@pytest.mark.slow
@pytest.mark.parametrize(
    "listed, limits",
    [(["4"], FOUR), (["2", "--symbols", "4"], FOUR), (["5", "--steps", "1000", "--every", "900"], FIVE)],
    ids=["four states", "two states and four symbols", "some of five states"],
)
def test_all_replies_of_the_program_are_confirmed(
    bb: str,
    recurrence: str,
    coq_recurrence: str,
    list_machines: ListMachines,
    listed: list[str],
    limits: Sequence[int],
) -> None:
    """Under the same limits; a line of no pair stays open."""
    machines = list_machines(int(listed[0]), *listed[1:])
    words = options(limits[:2])
    found = replies([recurrence, "--entries", *words], replies([bb, "decide", *options(limits)], machines))
    expected = ["ok" if " recurs " in line else "open" for line in found]
    assert answers(coq_recurrence, found, *words) == expected
    print("%d lines confirmed" % sum(" recurs " in line for line in found))
