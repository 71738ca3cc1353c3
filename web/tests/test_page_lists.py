"""Lists in the page: reading of lines, as by the package, and their display."""

import gzip
import json
import pathlib
import random
import re
import time
from typing import Any, Sequence

import budlarem
import pytest
from budlarem._text import LONGEST_LINE
from budlarem.reading import Form, Skipped
from budlarem.reading.lines import read_line
from support import TOP
from web.tests.browser import Page
from support.machines import CHAMPION, mixed_machines
from support.program import as_lines, run_command

Forms = dict[str, Any]
DISGUISES = [
    "%s", "  %s\r", "%s halt 6 4", "17. %s", "12,%s,x", "`%s`, it halts.", "\ufeff%s", "%s # a comment",
    "[%s](https://bbchallenge.org/{})", "https://bbchallenge.org/%s", "| %s | cycler |",
]  # fmt: skip
# Texts that change a line.
MORE = (
    *" \t_-.,;:|#*~`'\"[](){}<>!?\\/&01LRABZHabqr=\u200b\xa0\x1b\u00e9\u2013\u2192\U0001d4b3", "---", "...", "1RB",
    "1R_", "  ", "{{TM|", "}}", "q_A: ", "https://x.org/", "tm,", "| machine |", "[[\"1RB\"", "1RB1LB_1LA1RZ",
)  # fmt: skip
SKIPPED = "3 skipped (empty lines, comments, code fences, rules and headers of tables)"


def read_by_page(asked: Sequence[Any]) -> list[Any]:
    """Return the sentences of the page's reader, and its replies."""
    given = "".join(json.dumps(one) + "\n" for one in asked).encode()
    done = run_command(["node", str(TOP / "web/tests/reader.mjs")], given)
    assert done.status == 0, done.error
    return [json.loads(line) for line in done.output.decode().split("\n") if line]


def expected_reading(form: dict[str, Any]) -> dict[str, Any]:
    """Return the reading of a form."""
    if "nothing" in form:
        return {"kind": "nothing"}
    if "refusal" in form:
        return {"kind": "refusal", **{name: form[name] for name in ("refusal", "reason", "place")}}
    texts = {name: form.get(name, "") for name in ("before", "behind")}
    return {"kind": "machine", "machine": form["machine"], "rewritten": form.get("rewritten", []), **texts}


@pytest.mark.needs("node")
def test_forms_have_their_readings(forms: Forms) -> None:
    lines = [[form["line"], form.get("form", "text"), form.get("found", False)] for form in forms["forms"]]
    sentences, *found = read_by_page([*lines, *forms["lists"], *forms["encodings"]])
    assert sentences == {name: forms[name] for name in ("advice", "rewritings")}
    wanted = [expected_reading(form) for form in forms["forms"]]
    wanted += [entry["form"] for entry in forms["lists"]]
    wanted += [entry["encoding"] for entry in forms["encodings"]]
    assert found == wanted
    print("%d forms, lists and encodings" % len(wanted))


def change(line: str, source: random.Random) -> str:
    """Insert, replace or remove some characters."""
    for _ in range(source.choice((0, 1, 1, 2, 3, 6))):
        at = source.randrange(len(line) + 1)
        more = source.choice(MORE)
        line = line[:at] + (more if source.random() < 0.6 else "") + line[at + source.randrange(2) :]
    return line


def read_by_package(line: str, form: str, is_found: bool = False) -> dict[str, Any]:
    """Return the package's reading of a line in the page's form."""
    reading = read_line(1, line, Form(form), is_found)
    if isinstance(reading, Skipped):
        return {"kind": "nothing"}
    if reading.reason is not None:
        kind, text, place = reading.reason.kind, reading.reason.text, reading.reason.place
        return {"kind": "refusal", "refusal": kind, "reason": text, "place": place}
    texts = {"machine": reading.machine, "before": reading.before, "behind": reading.behind}
    return {"kind": "machine", "rewritten": list(map(str, reading.rewritten)), **texts}


@pytest.mark.needs("node")
@pytest.mark.parametrize("count", [5_000, pytest.param(50_000, marks=pytest.mark.slow)])
def test_package_and_page_read_alike(forms: Forms, rng: random.Random, count: int) -> None:
    """Of changed lines, in each form."""
    lines = [form["line"] for form in forms["forms"] if "\n" not in form["line"]]
    kinds = ("text", "text", "machines", "verdicts")
    asked = [(change(rng.choice(lines), rng), rng.choice(kinds), rng.random() < 0.5) for _ in range(count)]
    _, *found = read_by_page(asked)
    assert found == [read_by_package(*one) for one in asked]
    print("%d lines" % count)


@pytest.mark.needs("node")
def test_long_lines_are_read_alike() -> None:
    """Up to the longest, in time proportional to the length; a character beyond, they are refused."""
    texts = (
        "`1RB`",
        "1RB ",
        "A: 1RA1LA ",
        "1RA1RA,",
        '[["1RB"',
        "1RA1RA ... ",
        "\U0001d4b3 ",
        "1.-" + "." * 16_000,
    )
    lines = [(text * LONGEST_LINE)[:size] for text in texts for size in (LONGEST_LINE, LONGEST_LINE + 1)]
    before = time.monotonic()
    _, *found = read_by_page([[line] for line in lines])
    assert time.monotonic() - before < 60
    assert found == [read_by_package(line, "text") for line in lines]
    assert [one.get("refusal") for one in found[1::2]] == ["long"] * len(texts)


def disguise(machine: str, source: random.Random) -> str:
    """Write a machine in another form."""
    form = source.choice(DISGUISES).replace("{}", machine)
    text = machine.lower() if source.random() < 0.3 and "_" in machine else machine
    if "_" in machine and source.random() < 0.2 and "http" not in form:
        text = text.replace("_", " ")
    return form % text


@pytest.mark.needs("node")
@pytest.mark.parametrize("count", [1_000, pytest.param(20_000, marks=pytest.mark.slow)])
def test_disguised_machines_are_found(rng: random.Random, count: int) -> None:
    """Or refused, seldom; never read as another machine."""
    machines = list(mixed_machines(count, rng.randrange(2**32)))
    _, *found = read_by_page([[disguise(machine, rng)] for machine in machines])
    taken = [one.get("machine") for one in found]
    assert not [pair for pair in zip(machines, taken) if pair[1] not in (None, pair[0])]
    assert taken.count(None) <= count / 10
    print("%d machines" % count)


@pytest.mark.needs("node")
@pytest.mark.parametrize("change, status", [("", 0), ('"huge", ', 1)])
def test_kinds_of_one_letter_are_refused(tmp_path: pathlib.Path, change: str, status: int) -> None:
    """When the module loads."""
    for name in ("worker/replies.mjs", "common/machine.mjs", "lib/memory.mjs"):
        text = (TOP / "web" / name).read_text(encoding="utf-8")
        path = tmp_path / name
        path.parent.mkdir()
        path.write_text(text.replace('["halt", ', '["halt", ' + change, 1), encoding="utf-8")
    assert run_command(["node", str(tmp_path / "worker" / "replies.mjs")]).status == status


def test_file_of_all_forms(tab: Page, forms: Forms) -> None:
    """Each line is decided by its reading, and shown with its number."""
    texts = [form for form in forms["forms"] if "form" not in form and "\n" not in form["line"]]
    # What marks the order of bytes stands at the begin of a file alone.
    lines = [form["line"].replace("\ufeff", "") for form in texts]
    # A rule that is read as a machine elsewhere is refused for a space before it.
    refused = [re.sub(r"^(------|------------)(\r?)$", r" \1\2", line) for line in lines]
    pairs = [pair for pair in zip(texts, refused) if "nothing" not in pair[0]]
    given = [form.get("machine", line) for form, line in pairs]
    tab.plan({"steps": 1000}, "decide", True)
    tab.choose_option("list-form", "text")
    tab.answer_file(as_lines(lines))
    assert tab.save() == tab.program_output("decide", {"steps": 1000}, as_lines(given))
    numbers = [number for number, form in enumerate(texts, 1) if "nothing" not in form]
    rows = tab.rows()
    assert [int(row[0]) for row in rows] == numbers[: len(rows)]


@pytest.mark.parametrize(
    "text, form, rows",
    [
        ("1RA1RA\n------\n", "a list of machines", ["1RA1RA", "------"]),
        ("1RA1RA\n17. 1RA1RA\n------\n", "text", ["1RA1RA", "1RA1RA", "------"]),
        ("1RB1LB_1LA1RZ halt 6 4\n", "verdict lines", ["1RB1LB_1LA1RZ"]),
        ("machine,status\n1RA1RA,halt\n```\n|-\n", "text", ["1RA1RA"]),
        ("{{TM|1RA1RA|halt}}\n1RA1RA | tm\nTM,1RA1RA\n", "text", ["1RA1RA"] * 3),
    ],
)
def test_form_of_a_list_is_found(tab: Page, text: str, form: str, rows: list[str]) -> None:
    """Form and skipped lines are in the status."""
    tab.plan({}, "decide", True)
    tab.open_list(*text.splitlines())
    assert tab.text("status").endswith("Read as %s." % form)
    assert [row[1].partition(" \u2190")[0] for row in tab.rows()] == rows
    assert (SKIPPED in tab.text("status")) == text.startswith("machine")


def test_packed_lists(tab: Page, forms: Forms) -> None:
    """gzip is decompressed. Truncated files, and other encodings and formats are reported."""
    lines = b"1RB1LB_1LA1RZ\n1RA1RA\n" * 40_000
    tab.answer_file(gzip.compress(lines))
    assert tab.save() == tab.program_output("decide", {}, lines)
    tab.answer_file(gzip.compress(b"1RB1LB_1LA1RZ halt 6 4\n"))
    assert "checked: 1 ok" in tab.text("status")
    encodings = [entry for entry in forms["encodings"] if entry["encoding"] is not None]
    cases = [(bytes.fromhex(entry["bytes"]), entry["encoding"] + ", which the page") for entry in encodings]
    for content, words in [*cases, (gzip.compress(lines)[:-9], "can\u2019t be read as gzip")]:
        tab.answer_file(content)
        assert words in tab.text("error")
    tab.answer_file("1RA1RA \u00e9\n1RA1RA \u00fc\n".encode("latin-1"))
    assert tab.text("status").count("not UTF-8") == 1
    tab.answer_file("1RA1RA \u00e9\n".encode())
    assert "UTF-8" not in tab.text("status")
    tab.open_list("1RA1RA")
    assert tab.text("error") == ""


def test_refused_line(tab: Page) -> None:
    """Its text is shown with a caret under the error, the reason, which a chosen form may be, and its number."""
    tab.open_list("# a list", "", "1RB1LB 1LA1RZ", "1RB1LH_1LA1RZ")
    first, second = tab.rows()
    assert first[1] == "1RB1LB_1LA1RZ \u2190 1RB1LB 1LA1RZ"
    assert second == ["4", "1RB1LH_1LA1RZ", "refused 14", "\u2013"]
    assert "spaces between groups read as _" in tab.text("machine-given")
    tab.open_row(1)
    assert "Line 4" in tab.text("machine-text")
    says = tab.text("machine-says")
    assert "H: the halting state is Z here" in says and "refused 14" in says
    assert tab.text("machine-caret").split("\n") == ["1RB1LH_1LA1RZ", "     ^"]
    tab.choose_option("list-form", "machines")
    tab.open_list("1RA1RA", "17. 1RA1RA")
    tab.open_row(1)
    assert "more than the machine 1RA1RA" in tab.text("machine-says")
    tab.reload()
    assert tab.get("list-form", "value") == "machines"


def test_lines_that_are_no_verdict_lines(tab: Page) -> None:
    """They are shown as unread, and count as refused."""
    tab.plan({}, "check", True)
    unread = ["foo bar", "hello world", "1RA1RA undecided foo", "1RB1LB_1LA1RZ halt 7"]
    tab.open_list(*unread, "1RB1LB_1LA1RZ halt 6 4", "1RA1RA translated R 1 2")
    assert "2 decided, 0 undecided, 4 refused" in tab.text("status")
    assert [row[3] for row in tab.rows()] == ["unread"] * 4 + ["ok"] * 2
    for row, line in enumerate(unread):
        tab.open_row(row)
        assert tab.text("machine-text") == "Line %d is no verdict line" % (row + 1)
        assert tab.text("machine-says").startswith("Unread:") and tab.text("machine-caret") == line
    tab.open_row(5)
    tab.wait_until_drawn()
    behind = tab.text("behind")
    assert "cells that agree" in behind and "0 cells" not in behind and "show it" not in behind


def test_each_line_is_counted_once(tab: Page) -> None:
    """As decided, undecided, refused or skipped; the kinds have the same counts. Machines are found in text."""
    tab.answer_file(b"# a list\n\n  1RB1LB_1LA1RZ # two states\n17, 1RA1RA,x\r\n1rB\nno machine\n")
    assert tab.save() == tab.program_output("decide", {}, b"1RB1LB_1LA1RZ\n1RA1RA\n1rB\nno machine\n")
    assert "2 decided, 0 undecided, 2 refused, 2 skipped" in tab.text("status")
    tab.open_list("1RB1LB_1LA1RZ", "1RA1RA", "no", "# c", "", CHAMPION, plan={"steps": 100})
    assert "2 decided, 1 undecided, 1 refused, 2 skipped" in tab.text("status")
    script = "return $$('#kinds button').map((one) => one.textContent)"
    kinds = {text.split()[0]: int(text.split()[1]) for text in tab.js(script)}
    assert (sum(kinds.values()), kinds["refused"]) == (4, 1)


def test_verdict_lines_are_told(tab: Page) -> None:
    """Only whole verdict lines are detected; comments aren't checked."""
    tab.type("list", "# the cycler 1RB\n1RB1LB_1LA1RZ halts\n1RA1RA cycler\n")
    assert tab.text("run") == "Decide"
    claims = ["# theirs", "1RB1LB_1LA1RZ halt 6 4", "", "1RA1RA cycler 1 2\r", "1RB1LB_1LA1RZ"]
    tab.type("list", "\n".join(claims))
    assert tab.text("run") == "Check"
    tab.open_list(*claims)
    assert tab.save() == b"ok\nbad\nunread\n"
    assert [row[0] for row in tab.rows()] == ["2", "4", "5"]
    tab.open_row(1)
    assert "refutes" in tab.text("machine-says")
    assert not re.search("found out", tab.get("mode", "textContent"))
