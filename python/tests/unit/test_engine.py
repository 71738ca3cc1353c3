"""Deciding, checking and tracing through the library; and places by verdicts, beside plain runs."""

import collections
import io
import itertools
import os
import re
import sys
import threading
from typing import Any, Callable, Iterator, cast

import budlarem
import pytest
from budlarem import Answer, Cycler, Extent, Limits, LimitsError, MachineError, Place, Plan, Translated, at
from budlarem import parse
from budlarem._library import CLEAN, call_library
from support.machines import LETTERS
from support.program import run_command
from support.simulation import simulate

CHAMPION = "1RB1LB_1LA1RZ"
MACHINES = [CHAMPION, "0RB---_0LA---", "1RA1RA", "1rB1LB", ""]
LINES = [CHAMPION + " halt 6 4", "0RB---_0LA--- cycler 2 4", "1RA1RA translated R 1 2 1 1"]
LINES += ["refused 2", "refused 1"]


def test_lists_of_any_kind() -> None:
    for machines in (MACHINES, tuple(MACHINES), iter(MACHINES), dict.fromkeys(MACHINES)):
        assert list(map(str, budlarem.decide(machines))) == LINES
    assert list(budlarem.decide([])) == []


def test_endless_lists() -> None:
    first = itertools.islice(budlarem.decide(itertools.cycle(MACHINES)), 5)
    assert [str(verdict) for verdict in first] == LINES


def test_an_item_that_is_no_text() -> None:
    kinds = {b"1RA1RA": "bytes, not str; decide_bytes", None: "NoneType", 7: "int"}
    for wrong, kind in kinds.items():
        found = budlarem.decide([CHAMPION, "1RA1RA", wrong])  # type: ignore[list-item]
        assert [str(next(found)), str(next(found))] == [LINES[0], LINES[2]]
        with pytest.raises(TypeError, match=r"machines\[2\] is of type " + kind):
            next(found)


def test_wrong_limits_and_threads_at_once() -> None:
    given: dict[str, Any] = {"limits is of type dict": {"limits": {}}, "plan is of type dict": {"plan": {}}}
    given["threads is 0"] = {"threads": 0}
    for text, wrong in given.items():
        with pytest.raises((TypeError, ValueError), match=text):
            budlarem.decide([], **wrong)


def test_an_error_of_the_list_itself() -> None:
    rows = [{"machine": CHAMPION}, dict[str, str]()]
    found = budlarem.decide(row["machine"] for row in rows)
    with pytest.raises(KeyError):
        list(found)


def test_threads_end_with_the_list() -> None:
    before = threading.active_count()
    list(budlarem.decide(MACHINES, threads=3))
    assert threading.active_count() == before


def test_lines_and_verdicts() -> None:
    given: list[Any] = [LINES[0], budlarem.Halt(CHAMPION, 6, 5), "x", budlarem.Refused(3), LINES[2]]
    assert list(budlarem.check(given)) == [Answer.OK, Answer.BAD, Answer.UNREAD, Answer.OPEN, Answer.OK]
    assert list(budlarem.check(LINES[:1], Limits(steps=5))) == [Answer.OVER]
    assert str(Answer.OVER) == "over"


TEXT: Any = "6"
WRONG: dict[str, Any] = {
    " is of type int": 7,
    ".steps is '6' of type str, but must be a whole number": budlarem.Halt(CHAMPION, TEXT, 4),
    ".steps is 6.0 of type float": budlarem.Halt(CHAMPION, cast(Any, 6.0), 4),
    ".steps is True": budlarem.Halt(CHAMPION, True, 4),
    ".machine is None of type NoneType, not str": budlarem.Halt(cast(Any, None), 6, 4),
    ".second is '6'": budlarem.Cycler(CHAMPION, 1, TEXT),
    ".nodes is '6'": budlarem.Backward(CHAMPION, 1, TEXT),
    ".extent is of type tuple, not Extent": budlarem.Translated(CHAMPION, "R", 1, 2, cast(Any, (1, 1))),
    ".extent.length is '6'": budlarem.Translated(CHAMPION, "R", 1, 2, budlarem.Extent(1, TEXT)),
    ".reason is None": budlarem.Undecided(CHAMPION, cast(Any, None)),
    ".column is '6'": budlarem.Refused(TEXT),
}


def test_lines_without_an_end() -> None:
    noise = (b"1RZ------" * 100_000 for _ in range(20))
    assert b"".join(budlarem.decide_bytes(noise)) == b"refused 31\n"
    twice = [b"1RZ------" * 100_000, b"\n1RZ---\n"]
    assert b"".join(budlarem.decide_bytes(twice)) == b"refused 31\n1RZ--- halt 1 1\n"
    assert b"".join(budlarem.check_bytes([b"refused 1", b" " * 5_000, b"\n"])) == b"unread\n"


def test_replies_longer_than_their_room() -> None:
    assert b"".join(budlarem.check_bytes(b"\n" * 1_000)) == b"unread\n" * 1_000
    asked = (*Limits().numbers(), *Plan().switches())
    for room in (1, 22, 23, 1_000_000):
        reply = call_library("bb_decide", asked, b"1RB1LB_1LA1RZ\n", room)
        assert reply == (CLEAN, 23, b"1RB1LB_1LA1RZ halt 6 4\n")


def test_lists_of_many_batches() -> None:
    lines = b"".join(b"1RZ---%s\n" % (b"x" * (place % 700)) for place in range(5_000))
    lines += b"1" * 2_000_000 + b"\n1RA1RA\n" + b"\n" * 5_000 + lines
    expected = b"".join(budlarem.decide_bytes([lines], Limits(steps=0)))
    assert expected.count(b"\n") == lines.count(b"\n")
    view = memoryview(lines)
    cut = [view[begin : begin + 99_991] for begin in range(0, len(lines), 99_991)]
    kinds: list[Any] = [lines, bytearray(lines), view, io.BytesIO(lines), cut, iter([lines])]
    for blocks in kinds:
        assert b"".join(budlarem.decide_bytes(blocks, Limits(steps=0))) == expected
    assert b"".join(budlarem.decide_bytes(b"")) == b""


def test_whether_it_was_cut() -> None:
    for upto, cells, cut in ((6, 4, False), (6, 3, True), (3, 3, False), (4, 3, True)):
        trace = budlarem.trace(CHAMPION, upto, cells)
        assert trace.cut is None
        assert list(trace) and trace.cut == cut, (upto, cells)
        with pytest.raises(StopIteration):
            next(trace)


def run_with(code: str, **variables: str) -> str:
    status, output, _ = run_command([sys.executable, "-c", code], env={**os.environ, **variables})
    assert status == 0
    return output.decode()


def test_a_library_that_is_not_there() -> None:
    code = "import budlarem\ntry: budlarem.decide([])\nexcept budlarem.LibraryError as error: print(error)"
    assert "/nowhere/libbb.so" in run_with(code, BB_LIBRARY="/nowhere/libbb.so")
    assert "can't be loaded" in run_with(code, BB_LIBRARY=__file__)


FORKS = """
import os, threading, warnings
import budlarem
warnings.simplefilter("ignore")
given = threading.Event()
def run_forked():
    child = os.fork()
    if child: return os.waitpid(child, 0)
    try: print(len(list(budlarem.decide(["1RA1RA"]))), flush=True)
    except RuntimeError as error: print(error, flush=True)
    os._exit(0)
run_forked()
thread = threading.Thread(target=given.wait)
thread.start()
run_forked()
given.set()
thread.join()
"""


def test_a_fork_with_threads_is_refused() -> None:
    first, second = run_with(FORKS).splitlines()
    assert first == "1" and "spawn" in second


# Two translated cyclers with a shift above 1, to the left and to the right, and a cycler.
FAR = ["1RB0LA_0RC---_1RD0LD_1LA1RB", "1LB0RA_0LC---_1LD0RD_1RA1LB", "1LB1RB_1RA1LA"]


def plain(machine: str, steps: int) -> Iterator[tuple[str, int]]:
    """The states and positions of a machine, up to so many steps or its halt."""
    for now in simulate(machine, steps):
        yield "Z" if now.state is None else LETTERS[now.state], now.head


def small_machines() -> list[str]:
    """Some machines of two states: each entry of A at 0 and of B at 1 goes on, the others are any."""
    entries = ["---", "0LA", "1LB", "1RA", "1RZ"]
    tables = itertools.product(["1RB", "0LA"], entries, entries, ["1LA", "0RA"])
    return ["%s%s_%s%s" % table for table in tables]


def test_plain_runs() -> None:
    small = budlarem.decide(small_machines(), Limits(steps=100, cells=64, depth=0, nodes=0))
    counts: collections.Counter[str] = collections.Counter()
    for verdict in itertools.chain(small, budlarem.decide(FAR)):
        if isinstance(verdict, (budlarem.Halt, Cycler, Translated)):
            counts[verdict.kind] += 1
            last = 25 if isinstance(verdict, budlarem.Halt) else 6 * verdict.second
            run = list(plain(verdict.machine, last))
            for step in {*range(0, len(run), 3), len(run) - 1}:
                assert at(verdict, step) == Place(step, *run[step]), (str(verdict), step)
    assert len(counts) == 3, counts


def test_without_an_extent() -> None:
    for machine in FAR[:2]:
        (verdict,) = budlarem.decide([machine])
        assert isinstance(verdict, Translated)
        bare = Translated(machine, verdict.side, verdict.first, verdict.second)
        for step in (verdict.second + 1, 10**15):
            assert at(bare, step) == at(verdict, step)


def test_steps_that_no_run_reaches() -> None:
    assert str(at(parse("1RA1RA translated R 1 2 1 1"), 10**30)) == "%d A %d" % (10**30, 10**30)
    assert at(parse("1LA1LA translated L 1 2 1 1"), 10**15) == Place(10**15, "A", -(10**15))
    assert at(parse("0RB---_0LA--- cycler 2 4"), 10**15) == Place(10**15, "A", 0)


BAD = [CHAMPION + " halt 6 5", CHAMPION + " cycler 2 4", "0RB---_0LA--- cycler 4 2"]
NO_PLACE = ["1RA1RA backward 0 0", "1RA1RA undecided steps", "refused 1"]
BAD += ["1RA1RA translated " + words for words in ("R 1 2 2 1", "L 1 2 1 1", "R 2 2 1 1")]


def test_too_few_cells() -> None:
    assert at(HALT, 6) == Place(6, "Z", 0)
    verdict = Translated("1RA1RA", "R", 9, 10, Extent(1, 1))
    assert at(verdict, 20, cells=11) == Place(20, "A", 20)
    with pytest.raises(ValueError, match="needs more than 10 cells"):
        at(verdict, 20, cells=10)


HALT = parse(CHAMPION + " halt 6 4")
CALLS: dict[Callable[..., Any], list[tuple[tuple[Any, ...], type[Exception], str]]] = {
    budlarem.decide: [
        *(
            (([CHAMPION, one],), ValueError, r"machines\[1\] has a newline")
            for one in ("1RA1RA\n", "x" * 5_000 + "\n")
        ),
        *(((wrong,), TypeError, "") for wrong in (CHAMPION, b"1RA1RA", None, 7)),
    ],
    budlarem.decide_bytes: [((wrong,), TypeError, "") for wrong in ("1RZ---", ["1RZ---"], [1], 7, None)],
    budlarem.check: [
        (([LINES[0], one],), TypeError, r"^lines\[1\]" + re.escape(text)) for text, one in WRONG.items()
    ],
    budlarem.trace: [
        (("1RB1LC_1LA1RZ", 3), MachineError, "from column 14 on"),
        *(
            ((CHAMPION, *row), LimitsError, "")
            for row in ((-1, 1, 0, 1), (1, 0, 0, 1), (1, 1, -1, 1), (1, 1, 0, 0))
        ),
    ],
    budlarem.normal: [(("1RB",), MachineError, "")],
    budlarem.distinct: [
        (([CHAMPION, "1RB"],), MachineError, r"^machines\[1\]: no machine, from column 4 on: '1RB'"),
        (([CHAMPION, None],), TypeError, r"^machines\[1\] is of type NoneType"),
    ],
    budlarem.compare: [(([], ["refused 1", "x"]), ValueError, r"second\[1\]: no verdict line")],
    at: [
        ((HALT, 7), ValueError, "halts after 6 steps, so it makes no 7"),
        ((HALT, -1), ValueError, "step is -1"),
        *(((parse(line), 0), ValueError, "doesn't say where") for line in NO_PLACE),
        *(((parse(line), 3), ValueError, "the checker answers bad") for line in BAD),
        *(((wrong, 0), TypeError, "verdict is of type") for wrong in (CHAMPION + " halt 6 4", None, 7)),
        *(((HALT, wrong), TypeError, "step is") for wrong in ("1", 1.0, None, True)),
        ((HALT, 0, 0), LimitsError, ""),
        ((parse("1RA1RA cycler 1 18446744073709551615"), 0), LimitsError, ""),
    ],
}


@pytest.mark.parametrize("call", CALLS)
def test_wrong_calls(call: Callable[..., Any]) -> None:
    """The call or its result raises the error."""
    for given, error, text in CALLS[call]:
        with pytest.raises(error, match=text):
            list(call(*given))
