"""Limits, plans, verdicts, recurrences and their lines."""

import dataclasses
import pickle
import pydoc
import re
from typing import Any, Callable

import budlarem
import hypothesis
import pytest
from budlarem import Answer, LastUse, Limits, LimitsError, Plan, Recurrence, UseKind, _api, parse
from budlarem import parse_recurrence
from budlarem._text import escape_controls
from hypothesis import strategies as st
from support.machines import join_groups
from support.recurrences import GREATEST_REPLY

CHAMPION = "1RB1LB_1LA1RZ"
OTHERS = ["translated R 1 2 1 1", "translated L 1 2", "undecided steps", "undecided cells", "backward 2 4"]
LINES = [CHAMPION + " halt 6 4", "0RB---_0LA--- cycler 2 4", *("1RA1RA " + words for words in OTHERS)]
LINES += [CHAMPION + " halt 18446744073709551615 0", "refused 1", "refused 775"]
# Changed verdicts are in test_package.
UNREAD = ["", CHAMPION, "1RB1LC_1LA1RZ halt 6 4", CHAMPION + " halt 6 4\n", "1RA1RA undecided nodes"]
UNREAD += ["refused", "refused 0", "refused 01", "refused 776", "refused 1 1"]
PAIR, REPLY = "0RB---_0LA--- cycler 4 16", "0RB---_0LA--- recurs 0 2 0 * *"
REPLIES = [REPLY, "1RB---_1LB0RB recurs 4 1 -1 0 * quasihalts 1"]
REPLIES += [REPLIES[1] + " entries 0 - * 3", REPLY + " entries * - * -", GREATEST_REPLY]
CHANGES = [(" -1", " -0"), (" -1", " +1"), (" 4", " 04"), (" 1 -", " 0 -"), ("ts 1", "ts 2"), (" 0 ", " 00 ")]
NO_REPLIES = ["", "ok", "Bad", REPLY + " ", REPLY[:-2], REPLY + " *", REPLY + " quasihalts 1"]
NO_REPLIES += [REPLIES[1].replace(*pair) for pair in [*CHANGES, (" quasihalts 1", ""), ("1RB", "1RC")]]
NO_REPLIES += [REPLIES[2][:-2], REPLIES[2] + " -", REPLY.replace(" 0 2", " %d 2" % 2**64)]
Parse = Callable[[str], object]


def test_are_the_programs_where_nothing_is_said() -> None:
    assert Limits().numbers() == (1_000_000, 65_536, 300, 1_000_000)
    assert Plan().switches() == (True, True, True)


OUT_OF_RANGE = [("steps", -1), ("steps", 10**12 + 1), ("cells", 0), ("cells", 67_108_865)]
OUT_OF_RANGE += [("depth", 10_001), ("nodes", 2**64)]


@pytest.mark.parametrize("name, given", OUT_OF_RANGE)
def test_numbers_out_of_range(name: str, given: int) -> None:
    with pytest.raises(LimitsError) as raised:
        Limits(**{name: given})
    error, (lowest, highest) = raised.value, Limits.RANGES[name]
    assert (error.limit, error.lowest, error.highest, error.given) == (name, lowest, highest, given)
    assert "{:,}".format(highest) in str(error)


def test_refuse_a_depth_that_does_not_fit() -> None:
    assert Limits(cells=599).depth == 300
    with pytest.raises(LimitsError, match="depth is 300, but may be 0 to 299 .* at most the cells"):
        Limits(cells=598)


WRONG_TYPES: list[Any] = [(Limits, "steps", wrong, "whole number") for wrong in (1e6, "7", None, True, b"1")]
WRONG_TYPES += [(Plan, "cyclers", wrong, "True or False") for wrong in ("no", 1, None)]


@pytest.mark.parametrize("kind, name, wrong, text", WRONG_TYPES)
def test_limits_and_switches_of_another_type(kind: Any, name: str, wrong: Any, text: str) -> None:
    with pytest.raises(TypeError, match="^%s is .*%s" % (name, text)):
        kind(**{name: wrong})


def test_stay_as_they_are() -> None:
    with pytest.raises(dataclasses.FrozenInstanceError):
        setattr(Limits(), "steps", 1)


def test_errors_go_from_process_to_process() -> None:
    error = LimitsError("cells", 1, 5, 7)
    assert str(pickle.loads(pickle.dumps(error))) == str(error)


READ: list[tuple[Parse, str]] = [(parse, line) for line in LINES]
READ += [(parse_recurrence, line) for line in (*REPLIES, "bad", "over", "open", "unread")]


@pytest.mark.parametrize("parse_line, line", READ)
def test_lines_are_read_and_written(parse_line: Parse, line: str) -> None:
    found = parse_line(line)
    assert str(found) == line and parse_line(str(found)) == found
    assert pickle.loads(pickle.dumps(found)) == found


REFUSED: list[tuple[Parse, str, str]] = [(parse, line, "no verdict line") for line in UNREAD]
REFUSED += [(parse_recurrence, line, "no reply of recurrence") for line in NO_REPLIES]


@pytest.mark.parametrize("parse_line, line, text", REFUSED)
def test_other_lines_are_refused(parse_line: Parse, line: str, text: str) -> None:
    with pytest.raises(ValueError, match=text):
        parse_line(line)


@pytest.mark.parametrize("wrong", [b"refused 1", None, 1, []])
def test_only_texts_are_read(wrong: Any) -> None:
    with pytest.raises(TypeError):
        parse(wrong)
    with pytest.raises(TypeError, match="a reply is a str, not %s" % type(wrong).__name__):
        parse_recurrence(wrong)
    with pytest.raises(TypeError, match="^text is of type .*, not str$"):
        budlarem.is_machine(wrong)


def test_parts_have_names() -> None:
    extent = budlarem.Extent(shift=3, length=4)
    moved = budlarem.Translated(machine="1RA1RA", side="R", first=1, second=2, extent=extent)
    assert parse("1RA1RA translated R 1 2 3 4") == moved
    assert parse("1RA1RA translated R 1 2") == budlarem.Translated("1RA1RA", "R", 1, 2, None)


def test_machines_are_of_1_to_25_states_and_2_to_10_symbols() -> None:
    widest = "_".join(["9RY" * 10] * 25)
    for text in ("------", "1RZ---", CHAMPION, widest):
        assert budlarem.is_machine(text), text
    for text in ("", "---", "_", "1RB---", "2RA---", "1RZ---_", "1rZ---", widest + "_" + "---" * 10):
        assert not budlarem.is_machine(text), text


def test_the_calls_come_first() -> None:
    page = pydoc.plain(pydoc.render_doc(budlarem))
    first = page[: page.index("PACKAGE CONTENTS")]
    calls = [name for name in _api.__all__ if name.islower() and callable(getattr(budlarem, name))]
    assert len(calls) > 15
    for name in calls:
        assert re.search(r"\b%s\b" % name, first)


@pytest.mark.parametrize(
    "text, escaped",
    [
        ("a\x1b[31mb\r\x00\x7f", r"a\x1b[31mb\x0d\x00\x7f"),
        ("\x80\x9b\x9f\xa0", r"\x80\x9b\x9f" + "\xa0"),
        (b"\x80\x9b\x9f\xa0".decode("utf-8", "surrogateescape"), r"\x80\x9b\x9f" + "\udca0"),
        ("1RB1LB_1LA1RZ\thalt 6 4\nGrüße, 中\u200b", "1RB1LB_1LA1RZ\thalt 6 4\nGrüße, 中\u200b"),
    ],
)
def test_controls_are_escaped(text: str, escaped: str) -> None:
    assert escape_controls(text) == escaped


def test_no_control_is_left() -> None:
    controls = "".join(map(chr, [*range(0x20), *range(0x7F, 0xA0)])).replace("\t", "").replace("\n", "")
    escaped = escape_controls(controls)
    assert escaped.isprintable(), escaped
    assert escaped.encode().decode("unicode_escape") == controls


uses = st.one_of(
    st.sampled_from([LastUse(UseKind.NEVER), LastUse(UseKind.FOREVER)]),
    st.builds(lambda step: LastUse(UseKind.LAST, step), st.integers(0, 2**64 - 1)),
)


@st.composite
def recurrences(draw: Any) -> Recurrence:
    states, symbols = draw(st.integers(1, 25)), draw(st.integers(2, 10))
    machine = join_groups(["---"] * (states * symbols), symbols)
    start, period = draw(st.integers(0, 2**64 - 1)), draw(st.integers(1, 2**64 - 1))
    shift = draw(st.integers(-(2**63), 2**63 - 1))
    some = draw(st.lists(uses, min_size=states, max_size=states))
    entries = draw(st.none() | st.lists(uses, min_size=states * symbols, max_size=states * symbols))
    return Recurrence(machine, start, period, shift, tuple(some), entries and tuple(entries))


@hypothesis.settings(deadline=None)
@hypothesis.given(recurrences())
def test_recurrences_are_written_and_read(found: Recurrence) -> None:
    assert parse_recurrence(str(found)) == found
    steps = [use.step for use in found.uses if use.step is not None]
    assert found.quasihalts == (max(steps) + 1 if steps else None)
    assert (" quasihalts " in str(found)) == bool(steps)


@hypothesis.settings(deadline=None)
@hypothesis.given(st.sampled_from(REPLIES), st.data())
def test_changed_lines_are_read_as_they_are_or_not(line: str, data: st.DataObject) -> None:
    at = data.draw(st.integers(0, len(line) - 1))
    changed = line[:at] + data.draw(st.sampled_from("0123456789*- sqeLRAB\n")) + line[at + 1 :]
    try:
        assert str(parse_recurrence(changed)) == changed
    except ValueError as error:
        assert "no reply of recurrence" in str(error)


def test_replies_of_the_library() -> None:
    given = [PAIR, "1RA1RA cycler 1 2", "1RB1LB_1LA1RZ halt 6 4", "x", "1RB---_1LB0RB translated L 7 8 1 1"]
    found = list(budlarem.recurrences([*given, budlarem.Cycler("0RB---_0LA---", 4, 1_000_002)]))
    assert list(map(str, found)) == [REPLY, "bad", "open", "unread", REPLIES[1], "over"]
    for threads in (1, 3):
        replies = budlarem.recurrences(given * 5_000, Limits(100, 64, 0, 0), entries=True, threads=threads)
        assert [str(one) for one in replies][4:1_000:5] == [REPLIES[2]] * 200
    assert next(budlarem.recurrences([given[4]], Limits(7, 64, 0, 0))) is Answer.OVER
    with pytest.raises(TypeError, match=r"lines\[1\] is of type int"):
        list(budlarem.recurrences([PAIR, 7]))  # type: ignore[list-item]
