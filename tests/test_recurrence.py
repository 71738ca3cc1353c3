"""`recurrence` beside a brute force from the definitions alone, and its replies to other lines."""

import pytest
from support import ListMachines
from support.program import as_lines, kind_of, least_time, options, replies, run_command
from support.recurrences import GREATEST, GREATEST_REPLY, numbers_of_pair
from support.simulation import compare_lines

LIMITS = options((3_000, 1_024, 30, 100))
FOUR = options((1_000, 1_024, 40, 500))
# How many times as long as `bb check` a pair may take on a quiet machine; how far above is a failure.
BAR, FAR = 1.8, 2


@pytest.mark.parametrize(
    "states, symbols",
    [(2, 2), (3, 2), (2, 3), *(pytest.param(*size, marks=pytest.mark.slow) for size in [(4, 2), (2, 4)])],
)
def test_replies_are_those_of_a_brute_force(
    bb: str, recurrence: str, list_machines: ListMachines, states: int, symbols: int
) -> None:
    verdicts = replies([bb, "decide", *LIMITS], list_machines(states, "--symbols", str(symbols)))
    pairs = [line for line in verdicts if kind_of(line) in ("cycler", "translated")]
    numbers = {line: numbers_of_pair(line) for line in pairs}
    for words in ("", "--entries"):
        known = {line: found.line_of(line.split(" ")[0], bool(words)) for line, found in numbers.items()}
        expected = [known.get(line, "open") for line in verdicts]
        compare_lines("replies", replies([recurrence, *words.split()], verdicts), expected)


def test_statuses(bb: str, recurrence: str) -> None:
    """The machines of two and three states with the latest quasihalt that is known, and a line of each fault."""
    recurs = ["1RB1LB_1LB1LA recurs 6 1 -1 5 * quasihalts 6"]
    recurs += ["1RB0LB_1LA0RC_1LC1LA recurs 55 1 -1 53 54 * quasihalts 55"]
    verdicts = replies([bb, "decide"], [reply.split(" ")[0] for reply in recurs])
    done = run_command([recurrence], as_lines([*verdicts, "0RB---_0LA--- backward 2 4"]))
    assert done == (0, as_lines([*recurs, "open"]), b"")
    for steps, line, reply in [(9, "cycler 2 5", "bad"), (3, "cycler 2 4", "over"), (9, "", "unread")]:
        done = run_command([recurrence, "--steps=%d" % steps], as_lines(["0RB---_0LA--- " + line]))
        assert done == (1, as_lines([reply]), b"")


def test_greatest_machine(bb: str, recurrence: str) -> None:
    assert replies([recurrence, "--entries"], replies([bb, "decide"], [GREATEST])) == [GREATEST_REPLY]


@pytest.mark.timing
def test_pairs_take_little_longer_than_a_check(bb: str, recurrence: str, four_states: list[str]) -> None:
    """Compares processor times on all pairs of four states, the least of three runs each."""
    decided = replies([bb, "decide", *FOUR], four_states)
    verdicts = as_lines([line for line in decided if kind_of(line) in ("cycler", "translated")])
    check, found = (least_time(command, verdicts) for command in ([bb, "check"], [recurrence]))
    print("check %.2f s, recurrence %.2f s: %.2f (bar: %.1f)" % (check, found, found / check, BAR))
    assert found <= FAR * BAR * check
