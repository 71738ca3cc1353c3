"""Lists, pictures, reports and the command."""

import collections
import html
import os
import pathlib
import re
import sys
import time
from unittest import mock

import budlarem
import pytest
from budlarem import pictures, reports
from budlarem.reports import Growth, measure_growth
from support.program import run_command

CHAMPION = "1RB1LB_1LA1RZ"
FOUR_STATES = "1RB1LB_1LA0LC_1RZ1LD_1RD0RA"
UNDECIDED = "0RB1LD_0RC1RD_0RD---_1LA0RB"


def compare(first: list[str], second: list[str], undefined_steps: bool = False) -> list[str]:
    found = budlarem.compare(first, second, undefined_steps=undefined_steps)
    return [str(one.agreement) for one in found]


# Two verdicts each, by their agreement.
PAIRS = {
    "agree": "halt 6 4, halt 6 4; cycler 1 2, cycler 3 4; translated R 1 2, translated R 2 4 1 1; "
    "backward 1 2, translated L 1 2; backward 1 2, backward 1 2; undecided steps, undecided cells",
    "contradict": "halt 6 4, halt 5 4; halt 6 4, cycler 1 2; backward 1 2, halt 6 4; "
    "cycler 1 2, translated R 1 2; translated R 1 2, translated L 1 2; backward 1 2, backward 1 3",
    "second-decides": "undecided steps, halt 6 4",
    "first-decides": "cycler 1 2, undecided cells",
}


def test_what_goes_together() -> None:
    for found, pairs in PAIRS.items():
        for pair in pairs.split("; "):
            first, second = ("%s %s" % (CHAMPION, words) for words in pair.split(", "))
            assert compare([first], [second]) == [found], pair


def test_steps_counted_for_undefined_entries() -> None:
    for numbers, found in (("6 4", "agree"), ("6 5", "agree"), ("6 3", "contradict"), ("7 4", "contradict")):
        first, second = (["1RB---_1LA1RZ halt " + words] for words in ("5 4", numbers))
        assert compare(first, second, True) == compare(second, first, True) == [found]
        assert compare(first, second) == ["contradict"]
    assert compare([CHAMPION + " halt 5 4"], [CHAMPION + " halt 6 4"], True) == ["contradict"]


def test_any_order_and_what_one_lacks() -> None:
    first = ["1RA1RA cycler 1 2", "------ halt 0 0", "refused 3", "1RZ--- halt 1 1\tmore", "1RZ--- halt 1 1"]
    second = ["1RZ--- halt 1 1", CHAMPION + " halt 6 4", "1RA1RA cycler 1 2"]
    found = [(str(one.agreement), one.machine) for one in budlarem.compare(first, second)]
    assert sorted(found[:2]) == [("agree", "1RA1RA"), ("agree", "1RZ---")]
    rest = [("agree", "1RZ---"), ("only-first", "------"), ("only-second", CHAMPION)]
    assert sorted(found[2:]) == rest


MIRRORED = "1LB1RB_1RA1LZ"
# Two lists, and what each of their lines comes to.
SEVERAL: list[tuple[list[str], list[str], list[str]]] = [
    ([CHAMPION + " halt 6 4", CHAMPION + " halt 7 4"], [CHAMPION + " halt 6 4"], ["agree", "contradict"]),
    ([CHAMPION + " halt 7 4", CHAMPION + " halt 6 4"], [CHAMPION + " halt 6 4"], ["contradict", "agree"]),
    ([CHAMPION + " halt 6 4", MIRRORED + " halt 7 4"], [CHAMPION + " halt 6 4"], ["agree", "contradict"]),
    ([CHAMPION + " halt 6 4"] * 2, [MIRRORED + " halt 6 4"], ["agree", "agree"]),
    (["1RA1RA translated R 1 2"] * 2, ["1LA1LA translated L 1 2"], ["agree", "agree"]),
    (["1RA1RA translated R 1 2"] * 2, ["1LA1LA translated R 1 2"], ["contradict", "contradict"]),
    ([CHAMPION + " halt 6 4"] * 2, ["1RA1RA cycler 1 2"], ["only-first", "only-first", "only-second"]),
]


def test_each_of_several_verdicts_on_a_machine_is_compared() -> None:
    for first, second, expected in SEVERAL:
        assert compare(first, second) == expected
        other = [word.replace("first", "SECOND").replace("second", "first").lower() for word in expected]
        assert sorted(compare(second, first)) == sorted(other)


def test_machines_that_are_the_same() -> None:
    first = ["1RA1RA translated R 1 2 1 1", "1RB1LB_1LA1RZ halt 6 4", "1RA1LA cycler 1 3"]
    second = ["1LA1LA translated L 2 4", "1LB1RB_1RA1LZ halt 6 5", "1RA---2RA cycler 1 2"]
    found = [str(one) for one in budlarem.compare(first, second)]
    assert found == [
        "agree\t1RA1RA translated R 1 2 1 1 | 1LA1LA translated L 2 4",
        "contradict\t1RB1LB_1LA1RZ halt 6 4 | 1LB1RB_1RA1LZ halt 6 5",
        "only-first\t1RA1LA cycler 1 3 | -",
        "only-second\t- | 1RA---2RA cycler 1 2",
    ]


def test_growths() -> None:
    counts = [(5, 5, 5), (5, 9, 9), (10, 13, 16), (10, 32, 100), (10, 100, 1_000)]
    found = [reports.classify_growth(visited) for visited in counts]
    assert found == [Growth.STAYS, Growth.STAYS, Growth.LOGARITHM, Growth.ROOT, Growth.LINE]


def test_growth_of_runs() -> None:
    assert measure_growth("1RA1RA", 1_000).visited == (11, 101, 1_001)
    assert measure_growth(UNDECIDED, 10_000).growth is Growth.ROOT
    assert measure_growth(CHAMPION, 100).growth is Growth.HALTS


def test_the_cells_end_a_run() -> None:
    found = measure_growth("1RA1RA", 100_000, 1_001)
    assert (found.steps, found.visited) == (1_000, (11, 101, 1_001))
    assert reports._last_step("1RA1RA", 100_000, 778) == 777
    assert reports._last_step(CHAMPION, 100_000, 65_536) == 6


def test_a_halt_comes_with_its_steps_and_cells() -> None:
    for machine, steps in (("------", 0), ("1RZ---", 1), (CHAMPION, 6), (FOUR_STATES, 107)):
        rows = list(budlarem.trace(machine, steps))
        counts = tuple(len(rows[step].cells) for step in (steps // 100, steps // 10, steps))
        for limit in (107, 108, 199, 250, 1_000_000):
            found = measure_growth(machine, limit)
            assert (found.steps, found.visited, found.growth) == (steps, counts, Growth.HALTS), limit
    assert measure_growth(FOUR_STATES, 106).growth is Growth.ROOT


def test_sampled_rows_are_those_of_the_whole_trace() -> None:
    large = ["1LB2RA3LA4RB0LA_2LA---4RB1LA0RZ", "1LB5RA3LA4RB0LA1LB_2LA---4RB1LA0RZ5LA"]
    for machine in (CHAMPION, UNDECIDED, *large, "1RB---" + "_1LA0RB" * 24):
        rows = list(budlarem.trace(machine, 500))
        chosen, every = pictures.sample_rows(machine, 500, 65_536, 20)
        assert chosen == rows[::every] and len(chosen) <= 20 and (every == 1 or len(chosen) > 10)


def test_pictures_are_saved_scaled_or_cut(tmp_path: pathlib.Path) -> None:
    picture = budlarem.picture(CHAMPION, 6)
    assert picture._repr_png_().startswith(b"\x89PNG")
    with pytest.raises(budlarem.PictureError, match="^x.jpg: a picture is a PNG file"):
        picture.save("x.jpg")
    path = tmp_path / "picture.png"
    picture.save(path)
    assert path.read_bytes() == picture.png
    words = ("picture", "1RA1RA", "--upto", "3000", "--out", str(path))
    status, _, said = run_with(*words)
    assert (status, path.read_bytes()[:4]) == (0, b"\x89PNG")
    assert "a pixel has the mean colour of 2 cells" in said
    status, _, said = run_with(*words, "--left", "3", "--columns", "10")
    assert "positions 3 to 12" in said
    assert "mean colour" not in said


LINES = [CHAMPION + " halt 6 4", "1RA1RA translated R 1 2 1 1", UNDECIDED + " undecided steps", "refused 2"]


def test_positions_far_beyond_the_visited_ones_take_no_time() -> None:
    rows, _ = pictures.sample_rows(FOUR_STATES, 107, 1_000, 2_000)
    for left, right in ((-3_000, 3_000), (-4_001, 7), (3, 5_000), (-2_999, -900), (20_000, 29_000)):
        made = budlarem.picture(FOUR_STATES, 107, left=left, right=right)
        wide = -(-(right - left + 1) // made.across)
        plain = (pictures.row_colours(row, left, left + wide * made.across - 1, False) for row in rows)
        means = (pictures.mean_colours(row, made.across) for row in plain)
        expected = pictures.png_of_colours(wide, len(rows), means)
        assert made.across > 1 and made.png == expected, (left, right)
    began = time.process_time()
    made = budlarem.picture(FOUR_STATES, 107, left=-(10**9), right=10**9)
    assert (made.left, made.right, made.across) == (-(10**9), 10**9, 1_000_001)
    assert time.process_time() - began < 5


def test_bars() -> None:
    assert [reports.bin_of(number) for number in (0, 1, 10, 12, 13, 100)] == [0, 1, 10, 10, 11, 20]


def test_the_smallest_are_kept() -> None:
    found = reports.Statistics(["%s undecided steps" % one for one in ("1RA1RA", UNDECIDED, "1RA0RA")], 2)
    assert [machine for _, machine in found.smallest] == ["1RA0RA", "1RA1RA"]
    assert reports.Statistics(LINES, 0).smallest == []


@pytest.mark.needs(modules=("matplotlib",))
def test_a_page(tmp_path: pathlib.Path) -> None:
    path = tmp_path / "page.html"
    made = budlarem.report(LINES, path, steps=1_000, title="<lists>")
    page = path.read_text(encoding="utf-8")
    assert (made.path, made.html) == (str(path), page)
    assert "html=" not in repr(made) and os.listdir(tmp_path) == ["page.html"]
    form = '<iframe title="&lt;lists&gt;" srcdoc="([^"]*)" style="[^"]*"></iframe>'
    frame = re.fullmatch(form, made._repr_html_())
    assert (frame and html.unescape(frame[1])) == page
    assert "&lt;lists&gt;" in page and "1 of 1 undecided machines" in page
    assert page.count("data:image/png;base64,") == 1
    assert "http" not in page.replace("http://www.w3.org", ""), "an address"


@pytest.mark.needs(modules=("matplotlib",))
def test_lists_that_are_empty_or_wrong(tmp_path: pathlib.Path) -> None:
    path = tmp_path / "page.html"
    with pytest.raises(ValueError, match=r"verdicts\[1\]: no verdict line"):
        budlarem.report(["refused 1", "x"], path)
    assert not path.exists()
    page = budlarem.report([], path).html
    assert "No verdict has numbers" in page and "No machine is left undecided." in page
    page = budlarem.report(LINES, path, diagrams=0).html
    assert "<p>0 of 1 undecided machines are shown.</p>" in page


@pytest.mark.needs(modules=("matplotlib",))
def test_one_bar_stands_at_a_whole_number() -> None:
    drawn = reports.plot(collections.Counter({3: 5}), "shifts")
    assert re.findall(r"<text[^>]*>([0-9.]+)</text>", drawn) == ["3"]


def test_what_is_missing_is_named() -> None:
    with mock.patch.dict("sys.modules", {"matplotlib": None}):
        with pytest.raises(budlarem.ReportError, match="pip install"):
            budlarem.report([], "page.html")


def run_with(*words: str, given: str = "") -> tuple[int, list[str], str]:
    status, output, error = run_command([sys.executable, "-m", "budlarem", *words], given.encode())
    return status, output.decode().splitlines(), error.decode()


def test_a_full_disk_is_named_with_what_was_written() -> None:
    ended = run_command(["sh", "-c", 'exec "$0" -m budlarem decide >/dev/full', sys.executable], b"1RZ---\n")
    assert ended.status == 3
    assert re.search("(?m)^budlarem: standard output: .*No space left on device\n$", ended.error.decode())


def test_files_statuses_and_refused_words(tmp_path: pathlib.Path) -> None:
    path = tmp_path / "verdicts.txt"
    path.write_text(CHAMPION + " halt 6 4\n", encoding="utf-8")
    assert run_with("compare", str(path), str(path))[:2] == (0, [])
    status, lines, said = run_with("compare", str(path), "-", given=CHAMPION + " halt 5 4\n")
    assert (status, lines[0].split("\t")[0]) == (1, "contradict")
    assert "contradict 1" in said
    path.unlink()
    status, _, said = run_with("compare", str(path), str(path))
    assert status == 3 and "verdicts.txt" in said
    for words in ((), ("decide", "--cells", "4"), ("decide", "--steps", "x"), ("normal", "--nowhere")):
        assert run_with(*words)[0] == 2, words
    assert "depth is 300" in run_with("decide", "--cells", "4")[2]
