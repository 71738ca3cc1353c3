"""Reading lists as people have them, lines that never end, and numbers of options in each command."""

import gzip
import importlib.util
import io
import itertools
import json
import os
import pathlib
import random
import re
import sys
import time
from typing import Any, Iterator
from unittest import mock

import budlarem
import pytest
from budlarem import Columns, EncodingError, Form, Reading, Rewriting, Skipped
from budlarem._text import LONGEST_LINE
from budlarem.claim_lists import RereadableList
from budlarem.commands import build_parser
from budlarem.limits import limits_of
from budlarem.numbers import whole_number
from budlarem import list_files
from budlarem.list_files import EndlessLineError, find_encoding
from budlarem.reading.lines import read_line
from budlarem.reading.readings import ADVICE
from support import TOP
from support.program import run_command

CHAMPION = "1RB1LB_1LA1RZ"
FORMS = TOP / "tests" / "support" / "forms.json"


def one(line: str, form: Form = Form.TEXT) -> Reading:
    (reading,) = budlarem.read([line], form)
    return reading


LISTED: dict[str, Any] = json.loads(FORMS.read_text(encoding="utf-8"))


def right_reading(form: dict[str, Any]) -> list[Any]:
    """What a form says that has to be read."""
    if "nothing" in form:
        return []
    if "refusal" in form:
        return [form["refusal"], form["reason"], form["place"]]
    rewritten = form.get("rewritten", [])
    return [form["machine"], rewritten, form.get("before", ""), form.get("behind", "")]


def what_is_read(line: str, form: Form = Form.TEXT, is_found: bool = False) -> list[Any]:
    """What is read of a line, in the same shape."""
    reading = read_line(1, line, form, is_found)
    if isinstance(reading, Skipped):
        return []
    if reading.reason is not None:
        return [reading.reason.kind, reading.reason.text, reading.reason.place]
    return [reading.machine, list(map(str, reading.rewritten)), reading.before, reading.behind]


def test_each_form() -> None:
    assert len(LISTED["forms"]) >= 80
    for form in LISTED["forms"]:
        found = what_is_read(form["line"], Form(form.get("form", "text")), form.get("found", False))
        assert found == right_reading(form), form


def test_kinds_of_lines_mix_behind_the_first_ones() -> None:
    """A form that is found refuses no line for being of another one; a given form does."""
    mixed = ["1RA1RA, x", "1RB1LB_1LA1RZ halt 6 4", "17. 1ra1ra", CHAMPION]
    for first in (CHAMPION, "1RA1RA halt 6 4"):
        lines = [first] * 100 + mixed
        found = [reading.machine for reading in budlarem.read(lines)][100:]
        assert found == ["1RA1RA", CHAMPION, "1RA1RA", CHAMPION]
        given = [reading.machine for reading in budlarem.read(lines, budlarem.read(lines).form)][100:]
        assert given.count(None) == 3


def test_sentences() -> None:
    assert {**LISTED["advice"], **LISTED["advice_of_tables"]} == ADVICE
    assert LISTED["rewritings"] == {rewriting.value: rewriting.sentence for rewriting in Rewriting}
    kinds = {form["refusal"] for form in LISTED["forms"] if "refusal" in form}
    assert kinds | {"long", "row", "column"} == set(ADVICE)


def test_each_encoding_is_named() -> None:
    for entry in LISTED["encodings"]:
        content = bytes.fromhex(entry["bytes"])
        assert find_encoding(content) == entry["encoding"], content
        if entry["encoding"] is not None:
            with pytest.raises(EncodingError, match="^the file is " + entry["encoding"]):
                list(budlarem.read(io.BytesIO(content * 3)))


def test_a_long_line() -> None:
    assert one(CHAMPION + " " * (LONGEST_LINE - len(CHAMPION))).machine is not None
    reading = one(CHAMPION + " " * LONGEST_LINE)
    assert reading.reason is not None
    assert (reading.reason.kind, reading.reason.place) == ("long", LONGEST_LINE + 1)


def test_what_else_stands_there() -> None:
    reading = one("17. `1rb1lb 1la1rh`; halt\t6")
    assert (reading.machine, reading.before, reading.behind) == (CHAMPION, "17.", "halt\t6")
    assert reading.fields == "17.\thalt\t6"
    assert (reading.column, reading.reason) == (None, None)
    assert "H read as Z" in str(reading)


def test_a_refusal() -> None:
    reading = one("12,1RB1LC_1LA1RZ")
    assert reading.reason is not None
    assert (reading.machine, reading.column, reading.reason.place) == (None, 2, 9)
    assert "group for each state" in reading.reason.advice
    assert "at character 9 (for bb column 2)" in str(reading)


def machines(source: Any) -> list[Any]:
    return [(reading.number, reading.machine) for reading in budlarem.read(source)]


def test_paths_files_and_lines(tmp_path: pathlib.Path) -> None:
    text = "\ufeff%s\r\n# c\r\n\r\n1ra1ra\r\nx" % CHAMPION
    right = [(1, CHAMPION), (4, "1RA1RA"), (5, None)]
    path = tmp_path / "list.txt"
    for content in (text.encode(), gzip.compress(text.encode())):
        path.write_bytes(content)
        with open(path, "rb", buffering=0) as raw:
            for source in (str(path), path, io.BytesIO(content), raw):
                assert machines(source) == right
    encoded = (line.encode() for line in text.split("\n"))
    for lines in (text.splitlines(keepends=True), encoded, io.StringIO(text)):
        assert machines(lines) == right


@pytest.mark.parametrize(
    "content, right",
    [
        (b"\xff 1RA1RA \x80\n1RA\xff1RA\n", [(1, "1RA1RA"), (2, None)]),
        (b"x" * 1_000_000 + b"\n1RA1RA\n" + b"1RA1RA," * 100_000, [(1, None), (2, "1RA1RA"), (3, None)]),
    ],
)
def test_bytes_that_are_no_text_and_long_lines(content: bytes, right: list[Any]) -> None:
    assert machines(io.BytesIO(content)) == right


def test_a_line_is_read_when_it_is_needed() -> None:
    def lines() -> Iterator[str]:
        yield CHAMPION
        raise AssertionError("read ahead")

    assert next(budlarem.read(lines(), Form.MACHINES)).machine == CHAMPION
    many = itertools.chain([CHAMPION] * 99, [CHAMPION + " x"], lines(), lines())
    assert next(budlarem.read(many)).number == 1


def test_what_is_no_list() -> None:
    for source, error, text in (
        (b"1RA1RA\n", TypeError, "BytesIO"),
        ("1RA1RA\n1RA1RA", ValueError, "splitlines"),
        (["1RA1RA", 3], TypeError, r"lines\[1\] is of type int"),
        (["1RA1RA", "1RA\n1RA"], ValueError, r"lines\[1\] has a newline"),
        (3, TypeError, "int"),
        ("/nowhere.txt", FileNotFoundError, "nowhere"),
        (os.sep, IsADirectoryError, os.sep),
    ):
        with pytest.raises(error, match=text):
            list(budlarem.read(source))  # type: ignore[arg-type]


def test_a_gzip_that_is_cut() -> None:
    whole = gzip.compress(b"1RA1RA\n" * 1_000)
    for content in (whole[:30], whole[:-4], whole[:-8] + bytes(8)):
        with pytest.raises(OSError, match="can't be read as gzip"):
            list(budlarem.read(io.BytesIO(content)))


def test_lines_that_are_passed_over_are_counted() -> None:
    lines = ["", "\r", "# c", "#17 1RA1RA", "```", "1RA1RA", "```", "|-", "| Machine | x |", "  "]
    readings = budlarem.read(lines)
    assert [reading.number for reading in readings] == [4, 6]
    right = {Skipped.EMPTY: 3, Skipped.COMMENT: 1, Skipped.FENCE: 2, Skipped.RULE: 1, Skipped.HEADER: 1}
    assert dict(readings.skips) == right


def test_empty_lines_have_their_numbers() -> None:
    content = b"\n" * 2_000_000 + b"1RA1RA\n\r\n\n1RA1RA"
    readings = budlarem.read(io.BytesIO(content))
    assert [reading.number for reading in readings] == [2_000_001, 2_000_004]
    assert readings.skips[Skipped.EMPTY] == 2_000_002


def test_tables() -> None:
    judging = budlarem.judge(["machine,x", '1RA1RA,"a""b', '1RA1RA,"a,b"'])
    assert [one.claim.reading.row for one in judging] == [(), ("1RA1RA", "a,b")]
    for form in (Form.TABLE, Form.CSV, Form.TSV):
        with pytest.raises(ValueError, match="the form %s is of claims" % form):
            budlarem.read(["1RA1RA"], form)


CELLS = [CHAMPION, "1RB1LC_1LA1RZ", "1RA1RA", "not 1RA1RA", "`1RA1RA`", "{{TM|1RA1RA|halt}}", "machine"]
CELLS += ["tm", "status", "halt", "-halt", "6", '"a,b"', '"', "", "x", "#", "------"]


def test_no_record_with_a_machine_is_passed_over() -> None:
    """Each record of random tables has a machine, or a reason; or the table is refused as a whole."""
    source, read = random.Random(1), 0
    for _ in range(3_000):
        separators = source.choices((",", ";", "\t", "|", " ", " | "), k=2)
        rows = [source.choices(CELLS, k=source.randint(1, 4)) for _ in range(4)]
        lines = [source.choice(separators).join(row) for row in rows]
        names = source.choices((None, None, "1", "2", "TM"), k=2) if source.random() < 0.4 else []
        try:
            form = RereadableList(lines, source.choice((None, *Form)), Columns(*names)).form
        except ValueError:
            continue
        for number, line in enumerate(lines, 1):
            if "1R" in line:
                reading = form.read(number, line)
                assert isinstance(reading, Reading)
                assert (reading.machine is None) == (reading.reason is not None)
                read += 1
    assert read > 500


# A machine in a line, however it is written, and what may stand beside it in a header or another skipped line.
HAS_MACHINE = re.compile(
    r"(?:[0-9][LRlr][A-Za-z]|---|\.\.\.)(?:[_ ]{0,2}(?:[0-9][LRlr][A-Za-z]|---|\.\.\.))+"
)
MACHINES = [CHAMPION, "1ra1ra", "------_------", "1RB 1LB  1LA 1R_", "1RB1LB1LA1RZ"]
BESIDE = ["", "machine,", "! ", "| TM | ", "# ", "// ", "```", "|- ", "{| ", "{{TM|", "code;", "\t", "halt, "]


def test_no_line_with_a_machine_is_passed_over() -> None:
    """Each line with entries of a machine has a machine, or a refusal with its number."""
    lines = [form["line"] for form in LISTED["forms"]]
    lines += [line for entry in LISTED["lists"] + LISTED["judged"] for line in entry["lines"]]
    lines = [line for line in lines if (found := HAS_MACHINE.search(line)) and found[0].strip("-. ")]
    assert len(lines) > 250
    for before, machine, behind in itertools.product([*BESIDE, "refused 3 "], MACHINES, BESIDE):
        lines += [before + machine + behind, before + machine + " " + behind[::-1]]
    for line, form in itertools.product(lines, (None, Form.TEXT, Form.MACHINES, Form.VERDICTS)):
        (reading,) = [one for one in budlarem.read(["# c", "", line], form) if one.number == 3]
        assert (reading.machine is None) == (reading.reason is not None), line


def test_long_lines_take_little_time() -> None:
    for text in ("`1RB`", "1RB ", "A: 1RA1LA ", "1RA1RA,", '[["1RB"', "1RA1RA ... "):
        before = time.process_time()
        assert len(list(budlarem.read([(text * LONGEST_LINE)[:LONGEST_LINE]], Form.TEXT))) == 1
        assert time.process_time() - before < 1, text


MILLION = ("1000000", "1,000,000", "1_000_000", "1e6", "1E+6", "10^6", "+1000000", "1.0e6")


def test_every_option_of_every_command() -> None:
    commands = next(action.choices for action in build_parser()._actions if isinstance(action.choices, dict))
    tried = 0
    for command in commands.values():
        options = [action for action in command._actions if action.option_strings]
        for option in [one for one in options if one.metavar in ("N", "P", "LINES")]:
            assert {command._get_value(option, text) for text in MILLION} == {1_000_000}, option
            tried += 1
    assert tried > 25


def test_positions() -> None:
    words = "picture --upto 1 --out picture.png 1RB1LB_1LA1RZ --left=-1,000 --right 1e3"
    asked = build_parser().parse_args(words.split())
    assert (asked.left, asked.right) == (-1_000, 1_000)


def test_what_is_no_number() -> None:
    for text in ("1,00", "1_0", "1,000_000", "1e-3", "1.5", "many", "", "0x10", "\u0661"):
        with pytest.raises(ValueError):
            whole_number(text)


def test_the_sentence_says_what_would_do() -> None:
    with mock.patch("sys.stderr", io.StringIO()) as printed, pytest.raises(SystemExit):
        build_parser().parse_args(["decide", "--steps", "1,00"])
    assert "--steps: 1,00 is no whole number; 1000000, 1,000,000" in printed.getvalue()


def test_a_pass() -> None:
    for text in MILLION:
        limits = limits_of("steps=%s,cells=1,024,depth=40" % text)
        assert (limits.steps, limits.cells, limits.depth) == (1_000_000, 1_024, 40)
    for text in ("steps=1,00", "steps=1,,cells=5", "steps=-1", "steps=5,steps=6", "steps"):
        with pytest.raises(ValueError):
            limits_of(text)


# A command over a line that never ends, after 300 that do, with at most 1 GB of memory for its data.
ENDLESS = "(yes 1RA1RA | head -300; yes 1RA1RA, | tr -d '\\n')"
OVER_ENDLESS = 'ulimit -d 1048576; %s | timeout 60 "$0" -m budlarem "$@"' % ENDLESS


def test_commands_over_a_line_that_never_ends(tmp_path: pathlib.Path) -> None:
    more = "line 301 has more than 268,435,456 bytes"
    words = ["read", "decide", "normal", "judge -", "compare --form text /dev/null -", "check --cells 1000"]
    cases = {one: (2, "standard input: " + more) for one in words}
    if importlib.util.find_spec("matplotlib") is not None:
        cases["report --form text --out %s" % (tmp_path / "report.html")] = (2, "standard input: " + more)
    cases["run - --out %s" % (tmp_path / "out")] = (3, "a line of more than 268,435,456 bytes and no newline")
    for given, (status, sentence) in cases.items():
        ended = run_command(["sh", "-c", OVER_ENDLESS, sys.executable, *given.split(" ")])
        error = ended.error.decode()
        assert ended.status == status and sentence in error and "Traceback" not in error, error


def test_lines_that_never_end() -> None:
    with mock.patch.object(list_files, "LONGEST_UNENDED", 1_000_000):
        endless: dict[list_files.Source, int] = {
            "/dev/zero": 1,
            io.BytesIO(b"1RA1RA\n" + b"x" * 2_000_000): 2,
        }
        for source, number in endless.items():
            with pytest.raises(
                EndlessLineError, match="line %d has more than .* no newline" % number
            ) as raised:
                list(list_files.Lines(source))
            assert raised.value.number == number


def test_a_long_line_that_ends() -> None:
    with mock.patch.object(list_files, "LONGEST_UNENDED", 3_000_000):
        lines = list_files.Lines(io.BytesIO((b"x" * 2_000_000 + b"\n") * 3))
        assert [number for number, _ in lines] == [1, 2, 3]
