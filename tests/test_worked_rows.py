"""The worked rows of the crates' tests, against the list in `worked_rows.json`.

The list has the machines worked out by hand, the most writes of deciding or checking a line, and the machines
decided with each allocation refused. A test of the crates may get more rows, and never another machine in the
place of one of these.
"""

import json
import re
from typing import Any

import pytest
from support import TOP

ROWS: dict[str, Any] = json.loads((TOP / "tests" / "worked_rows.json").read_text(encoding="utf-8"))
# A row of a table ends before the next line of bytes that begins with a machine.
SAME_ROW = r'(?:\\n)?"(?:(?!b"[0-9-][LR-]).){0,120}?\b%d\b'


def sources_of_tests() -> dict[str, str]:
    """Return the text of each file of tests in the crates by its path, with digits as `1000000`."""
    paths = [path for path in (TOP / "crates").rglob("*.rt") if "test" in str(path.relative_to(TOP))]
    assert paths
    texts = {str(path.relative_to(TOP)): path.read_text(encoding="utf-8") for path in paths}
    return {path: re.sub(r"(?<=\d)_(?=\d)", "", text) for path, text in texts.items()}


def test_each_worked_machine_stands_in_the_tests_of_the_crates() -> None:
    program = "".join(path.read_text(encoding="utf-8") for path in (TOP / "crates" / "bb").glob("std*"))
    texts = "".join(sources_of_tests().values()) + program
    assert [machine for machine in ROWS["machines"] if machine not in texts] == []


@pytest.mark.parametrize("row", ROWS["writes"], ids=lambda row: "%(line)s: %(most)d" % row)
def test_writes_of_a_line_are_counted(row: dict[str, Any]) -> None:
    pattern = '"' + re.escape(row["line"]) + SAME_ROW % row["most"]
    texts = [text for text in sources_of_tests().values() if "counting_tape" in text]
    assert any(re.search(pattern, text, re.DOTALL) for text in texts)


def test_machines_are_decided_with_each_allocation_refused() -> None:
    pattern = r"\\?n?\s*".join(map(re.escape, ROWS["refused"]))
    texts = [text for path, text in sources_of_tests().items() if "alloc" in path or "refus" in path]
    assert any(re.search(pattern, text) for text in texts)
