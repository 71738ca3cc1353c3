"""What lines say of machines, and how that is judged."""

from __future__ import annotations

import io
import pathlib
from typing import Iterable
from unittest import mock

import budlarem
import pytest
from budlarem import WORDS, Judgement, Limits, claim_lists
from budlarem.list_files import Source
from budlarem.numbers import number_of, numbers_in

CHAMPION = "1RB1LB_1LA1RZ"
CYCLER = "0RB---_0LA---"
LEFT = "0RB1LD_0RC1RD_0RD---_1LA0RB"
SMALL = Limits(1_000, 1_000, 30, 1_000)


def judgements(lines: Iterable[str], undefined_steps: bool | None = None) -> list[str]:
    judging = budlarem.judge(lines, limits=SMALL, undefined_steps=undefined_steps)
    return [str(one.judgement) for one in judging]


def test_numbers_with_groups_of_three_digits() -> None:
    for text, number in (("47,176,870", 47_176_870), ("1'000", 1_000), ("4 098", 4_098), ("1_000", 1_000)):
        assert number_of(text) == number
    for text in (">3932964", "1,00", "1,000'000", "07", "", "1.5", "-1", "1,0000", "0,100", "1e6"):
        with pytest.raises(ValueError, match="is no number"):
            number_of(text)
    assert numbers_in(["47", "176", "870", "4", "098"], (2,)) == [47_176_870, 4_098]
    with pytest.raises(ValueError, match="in 2 ways"):
        numbers_in(["6", "400", "200"], (2,))


def test_words_are_written_as_they_are_looked_up() -> None:
    assert all(word == word.lower() and word.isalnum() for word in WORDS)


def test_a_claim_over_the_checkers_limits() -> None:
    line = LEFT + " cycler 2000 3000"
    (found,) = budlarem.judge([line], limits=SMALL, checker=Limits(2_999, 1_000, 30, 1_000))
    reason = "cycler 2000 3000: over the checker's limits"
    assert (found.judgement, found.reason) == (Judgement.NOT_JUDGED, reason)


def test_order_and_numbers() -> None:
    lines = ["# c", "x", CHAMPION + " halt 6 4", "", "y", "1ra1ra: cycler 7 9", "z"]
    found = [(one.number, str(one.judgement)) for one in budlarem.judge(lines)]
    right = ["unreadable", "confirmed", "unreadable", "contradicted", "unreadable"]
    assert found == list(zip((2, 3, 5, 6, 7), right))


def test_steps_counted_for_undefined_entries() -> None:
    machines = ["1RB---_1LA---", "1RB1LB_1LA---", CHAMPION]
    verdicts = list(budlarem.decide(machines))
    stepped = budlarem.decide(machine.replace("---", "1RZ") for machine in machines)
    words = [str(verdict).partition(" ")[2] for verdict in stepped]
    theirs = ["%s %s" % pair for pair in zip(machines, words)]
    assert budlarem.judge(theirs).undefined_steps
    assert judgements(theirs, False) == ["contradicted", "contradicted", "confirmed"]
    assert not budlarem.judge(map(str, verdicts)).undefined_steps
    assert not budlarem.judge((theirs + ["1RB1LB_1LA--- halt 9 4"])).undefined_steps


def test_a_list() -> None:
    theirs = ["1LB1RB_1RA1LZ halt 6 4", "1RA1RA nonhalt", "x", "1RA---2RA nonhalt", "1RA---2RA nonhalt"]
    judging = budlarem.judge(theirs, ["# c", CHAMPION, "1RA1RA", CYCLER])
    assert len(list(judging)) == 5
    assert judging.missing() == [(4, CYCLER)]
    assert judging.foreign() == [(4, "1RA---2RA"), (5, "1RA---2RA")]


def test_a_cell_with_words_is_no_line_of_its_machine() -> None:
    rows = ["machine,status", "not 1RA1RA,halt", "1RA---2RA (a mirror),halt", CHAMPION + ",halt"]
    judging = budlarem.judge(rows, ["1RA1RA", CHAMPION])
    assert [str(judged.judgement) for judged in judging] == ["not-judged", "not-judged", "confirmed"]
    assert (judging.missing(), judging.foreign()) == ([(1, "1RA1RA")], [])


def test_files_and_streams(tmp_path: pathlib.Path) -> None:
    path = str(tmp_path / "theirs.txt")
    pathlib.Path(path).write_text(CHAMPION + " halt 6 4\n", encoding="utf-8")
    assert judgements(path) == ["confirmed"]
    with open(path, "rb") as stream:
        assert [str(one.judgement) for one in budlarem.judge(stream)] == ["confirmed"]
    with pytest.raises(FileNotFoundError):
        budlarem.judge(path + "x")


def test_each_reading_has_the_same_lines(tmp_path: pathlib.Path) -> None:
    lines = ["", CHAMPION + " halt 6 4", "", "# \u00e9", "1RA1RA undecided steps"] * 40
    content = "\n".join(lines).encode()
    right = [(number, line) for number, line in enumerate(lines, 1) if line]
    path = str(tmp_path / "theirs.txt")
    pathlib.Path(path).write_bytes(content)
    for kept in (10**6, 100, 0):
        given: tuple[Source, ...] = (path, io.BytesIO(content), iter(lines))
        for source in given:
            with mock.patch.object(claim_lists, "_MOST_BUFFERED", kept):
                twice = claim_lists.RereadableList(source)
                assert [list(twice.lines()), list(twice.lines())] == [right, right]
                assert (list(twice.once()), twice.counted.empty) == (right, 80)
    once = claim_lists.RereadableList(path)
    assert (list(once.once()), once.counted.empty) == (right, 80)
