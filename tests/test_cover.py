"""`cover` over complete lists, lists without a line, and lists that are wrong at their begin or end.

`coq/tests/test_complete_lists.py` has more of both, and of shards: `cover` answers them as a proved checker does.
"""

import pathlib
import random
import re
from typing import Collection, Sequence

import pytest
from support.program import LIST_LIMITS, Decide, as_lines, least_time, run_command
from support.shards import summarize_bound

# States and symbols of complete lists.
SIZES = [(1, 2), (2, 2), (3, 2), (1, 3), (2, 3), (1, 4), (1, 10)]
LARGE = [pytest.param(*size, marks=pytest.mark.slow) for size in [(2, 4), (4, 2)]]
# The line of a shard whose digest is any.
SHARD = "0RA---_------ below 1 0 0 " + "0123456789abcdef" * 4
# How many times as long as `bb check` `cover` may take on a quiet machine; how far above that is a failure.
BAR, FAR = 1.5, 3


def summarize(states: int, symbols: int, lines: Sequence[str], assumed: Collection[str] = ()) -> str:
    """Return the line that `cover` prints for a complete list, if some machines are assumed never to halt."""
    undecided = [line for line in lines if " undecided " in line]
    wide = sum(line.count("---") > 1 for line in undecided)
    size = "%d %s %d symbols" % (states, "state" if states == 1 else "states", symbols)
    word = "line" if len(lines) == 1 else "lines"
    counts = "%d undecided, %d of them with more than one ---" % (len(undecided), wide)
    return "covers %s: %d %s, %s%s\n" % (size, len(lines), word, counts, summarize_bound(lines, assumed))


@pytest.mark.parametrize("states, symbols", [*SIZES, *LARGE])
def test_complete_lists_cover_their_sizes(cover: str, decide_all: Decide, states: int, symbols: int) -> None:
    """Also a list of one line, of one state."""
    lists = [decide_all(states, symbols)] + [["---" * symbols + " undecided steps"]] * (states == 1)
    for lines in lists:
        expected = 0, summarize(states, symbols, lines).encode(), b""
        assert lines and run_command([cover], as_lines(lines)) == expected


def test_assumed_machines_are_counted_apart(
    cover: str, decide_all: Decide, tmp_path: pathlib.Path, rng: random.Random
) -> None:
    """Each in its line, whatever their order; those that aren't undecided, or come again, count for nothing."""
    lines = decide_all(3, 2)
    undecided = [line.split(" ")[0] for line in lines if " undecided " in line]
    others = [line.split(" ")[0] for line in lines if " halt " in line][:3]
    for count in (0, 1, 7, len(undecided)):
        assumed = rng.sample(undecided, count)
        given = [machine + " nonhalt" for machine in [*assumed, *others, *assumed[:2]]]
        (tmp_path / "assumed").write_text("".join(line + "\n" for line in ["", *given]))
        expected = 0, summarize(3, 2, lines, assumed).encode(), b""
        assert run_command([cover, "--assume", str(tmp_path / "assumed")], as_lines(lines)) == expected


def test_changed_halt_gives_another_bound_or_fails(cover: str, decide_all: Decide) -> None:
    """A greater halt is refused; a halting machine left undecided takes its halt out of the bound."""
    lines = decide_all(3, 2)
    at = next(at for at, line in enumerate(lines) if re.search(r" halt 20 \d+$", line))
    machine = lines[at].split(" ")[0]
    for changed, status in [(re.sub(r"halt 20", "halt 21", lines[at]), 1), (machine + " undecided steps", 0)]:
        given = [*lines[:at], changed, *lines[at + 1 :]]
        done = run_command([cover], as_lines(given))
        assert done.status == status
        begin = "line %d: " % (at + 1) if status else summarize(3, 2, given)
        assert done.output.decode().startswith(begin) and begin != summarize(3, 2, lines)


def require_refused(command: list[str], lines: list[str], at: int) -> None:
    """Require a list without one of its lines, counted from 0, to be refused at that line."""
    given = as_lines([*lines[:at], *lines[at + 1 :]])
    status, output, error = run_command([*command, *LIST_LIMITS], given)
    assert (status, error) == (1, b"") and output.startswith(b"line %d: " % (at + 1))


@pytest.mark.parametrize("count", [25, pytest.param(250, marks=pytest.mark.slow)])
def test_list_without_a_line_is_refused_there(
    cover: str, decide_all: Decide, rng: random.Random, count: int
) -> None:
    lines = decide_all(3, 2)
    for at in rng.sample(range(len(lines)), count):
        require_refused([cover], lines, at)


def test_what_is_wrong_with_a_list_is_named(cover: str, decide_all: Decide) -> None:
    lines = decide_all(2, 2)
    root, first = lines[0].split(" ")[0], lines[1].split(" ")[0]
    rows: list[tuple[list[str], str]] = [
        ([], "line 1: a machine with no entry expected, the list ends"),
        (lines[1:], "line 1: a machine with no entry expected, found %s" % first),
        ([lines[0], ""], "line 2: it is no verdict line"),
        *(([lines[0], line], "line 2: it is no verdict line") for line in ("refused 1", SHARD)),
        ([lines[0], lines[0]], "line 2: %s expected, found %s" % (first, root)),
        ([lines[0]], "line 2: %s expected, the list ends" % first),
        (lines + ["x"], "line %d: no line expected, all machines were visited" % (len(lines) + 1)),
        ([root + " halt 0 1"], "line 1: the claim on %s doesn't hold" % root),
        ([root + " halt 201 1"], "line 1: the claim on %s needs more than the limits" % root),
    ]
    for given, sentence in rows:
        assert run_command([cover, *LIST_LIMITS], as_lines(given)) == (1, sentence.encode() + b"\n", b"")


@pytest.mark.timing
def test_cover_takes_little_longer_than_a_check(bb: str, cover: str, decide_all: Decide) -> None:
    """Compares processor times, the least of three runs each."""
    given = as_lines(decide_all(4, 2))
    check, covering = (least_time([*command, *LIST_LIMITS], given) for command in ([bb, "check"], [cover]))
    print("check %.2f s, cover %.2f s: %.2f (bar: %.1f)" % (check, covering, covering / check, BAR))
    assert covering <= FAR * BAR * check
