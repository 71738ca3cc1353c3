"""Theorems that `coq/theorem` makes of lines: of one line each, true and false ones, and of many."""

import pathlib
import random
import re
import subprocess

import pytest
from support import TOP
from support.machines import CHAMPION, mixed_machines
from support.program import kind_of
from support.second_checker import COQ, LIMITS, decide

# How many lines become one theorem.
LINES = 1_000
HOLDS, FAILS = "accepts that it holds", "accepts that it doesn't hold"


def require_end(
    folder: pathlib.Path, words: list[str], status: int, sentence: str, keep: bool = False
) -> None:
    """Require `coq/theorem` to end with a status and a sentence, and to write its file if the claim holds."""
    made = folder / "Made.v"
    command = [str(COQ / "theorem"), *words, str(made)]
    done = subprocess.run(command, capture_output=True, text=True, timeout=300)
    assert done.returncode == status and sentence in done.stdout + done.stderr, words
    assert made.exists() == (status == 0)
    if not keep:
        made.unlink(missing_ok=True)


@pytest.fixture(scope="module")
def claims(bb: str, checker: str) -> list[str]:
    """Verdicts of random machines that claim something; the proofs are built."""
    lines = decide(bb, LIMITS, list(mixed_machines(4 * LINES, 1)))
    return random.Random(1).sample([line for line in lines if kind_of(line) != "undecided"], LINES)


@pytest.mark.usefixtures("checker")
@pytest.mark.parametrize("numbers", ["100000000000 4", "1000001 4", "2 100000001", "18446744073709551615 1"])
def test_tree_that_the_kernel_cannot_walk_is_refused_at_once(numbers: str) -> None:
    command = [str(COQ / "theorem"), "0RB---_0LA--- backward " + numbers]
    done = subprocess.run(command, capture_output=True, timeout=10)
    assert done.returncode == 2 and b"this tree has more than" in done.stderr


@pytest.mark.parametrize("kind", ["halt", "cycler", "translated", "backward"])
def test_theorem_of_a_line(claims: list[str], tmp_path: pathlib.Path, kind: str) -> None:
    line = next(line for line in claims if kind_of(line) == kind)
    require_end(tmp_path, [line], 0, HOLDS)
    rest, _, number = line.rpartition(" ")
    require_end(tmp_path, ["%s %d" % (rest, int(number) + 1)], 1, FAILS)


@pytest.mark.usefixtures("checker")
@pytest.mark.parametrize(
    "line, status",
    [
        ("1RB1LB_1LB1LA recurs 6 1 -1 5 * quasihalts 6", 0),
        ("1RB1LB_1LB1LA recurs 6 1 -1 5 * quasihalts 7", 1),
        ("1RB1LB_1LB1LA recurs 6 1 1 5 * quasihalts 6", 1),
        ("0RB---_0LA--- recurs 0 2 0 * * entries * - * -", 0),
        ("0RB---_0LA--- recurs 0 4 0 * *", 1),
        ("1RB1LB_1LA1RZ recurs 0 1 1 * *", 1),
    ],
)
def test_theorem_of_a_recurs_line(tmp_path: pathlib.Path, line: str, status: int) -> None:
    require_end(tmp_path, [line], status, FAILS if status else HOLDS)


@pytest.mark.usefixtures("checker")
@pytest.mark.parametrize(
    "line",
    ["1RC1RA halt 0 0", "1RA1RA recurs 0 1 1 * *", "1RA1RA recurs 0 1 -0 *", "1RA1RA undecided steps"]
    + ["1RA1RA recurs 0 1 1 * entries *", "1RC1RA recurs 0 1 1 * *"],
)
def test_line_of_no_claim_is_refused(tmp_path: pathlib.Path, line: str) -> None:
    require_end(tmp_path, [line], 2, "claims nothing" if "undecided" in line else "no line of a claim")


SHARD = "0RB---_0LA--- below 1 0 0 " + "0123456789abcdef" * 4
# The words of `coq/theorem` for each row of the document's table; FILE has the line beside them.
READ = {
    "`coq/theorem LINE`, a verdict line": (["0RB---_0LA--- backward 2 4"], ""),
    "`coq/theorem LINE`, a `recurs` line": (["1RA1RA recurs 0 1 1 *"], ""),
    "`coq/theorem --list`": (["--list", "FILE"], "0RB---_0LA--- backward 2 4"),
    "`coq/theorem --cover`, also with `--assume`": (
        ["--cover", "--assume", "ASSUMED", "FILE"],
        "------ halt 0 0\n0RA--- undecided steps\n1RA--- undecided steps",
    ),
    "`coq/theorem --cover --below`": (
        ["--cover", "--below", "0RB---_0LA---", "FILE"],
        "0RB---_0LA--- backward 2 4",
    ),
    "`coq/theorem --cover --skeleton`": (
        ["--cover", "--skeleton", "--below", "0RB---_0LA---", "FILE"],
        SHARD,
    ),
}


@pytest.mark.usefixtures("coq_cover")
@pytest.mark.parametrize("row", READ)
def test_theorem_is_stated_by_the_definitions_to_read(tmp_path: pathlib.Path, row: str) -> None:
    """Without its proof, its file needs only the files that the document names for it."""
    words, lines = READ[row]
    (tmp_path / "FILE").write_text(lines + "\n")
    (tmp_path / "ASSUMED").write_text("1RA--- nonhalt\n")
    paths = {name: str(tmp_path / name) for name in ("FILE", "ASSUMED")}
    require_end(tmp_path, [paths.get(word, word) for word in words], 0, "accepts", keep=True)
    text = (tmp_path / "Made.v").read_text()
    library = re.findall(r"^From Coq .*\n", text, re.M)
    stated = re.findall(
        r"^((?:Definition (?:M|claimed|lines|undecided|first|open) .*?|Local Open Scope .*?"
        r"|Hypothesis .*?|Theorem .*?))\.\n",
        text,
        flags=re.M | re.S,
    )
    document = (TOP / "docs" / "coq.md").read_text(encoding="utf-8")
    (files,) = re.findall(r"^\| %s \| (.*?) \|" % re.escape(row), document, re.M)
    modules = " ".join(re.findall(r"`(\w+)\.v`", files))
    head = [*library, "From Budlarem Require Import %s.\n" % modules, "Import ListNotations.\n"]
    ends = (".\nAbort.\n" if part.startswith("Theorem") else ".\n" for part in stated)
    statement = "".join(part + end for part, end in zip(stated, ends))
    (tmp_path / "Stated.v").write_text("".join([*head, statement]))
    command = ["coqc", "-q", "-noglob", "-Q", str(COQ / "out"), "Budlarem", "Stated.v"]
    done = subprocess.run(command, capture_output=True, text=True, cwd=tmp_path)
    assert done.returncode == 0, done.stderr


@pytest.mark.slow
@pytest.mark.usefixtures("checker")
def test_theorem_of_the_champion(tmp_path: pathlib.Path) -> None:
    require_end(tmp_path, [CHAMPION + " halt 47176870 4098"], 0, HOLDS)


def test_theorem_of_many_lines(claims: list[str], tmp_path: pathlib.Path) -> None:
    listed = tmp_path / "lines.txt"
    listed.write_text("".join(line + "\n" for line in [*claims, "refused 3"]))
    require_end(tmp_path, ["--list", str(listed)], 0, "%d lines: coqc accepts that all hold" % LINES)
    with open(listed, "a", encoding="ascii") as file:
        file.write("1RB1LB_1LA1RZ halt 6 5\n")
    require_end(tmp_path, ["--list", str(listed)], 1, "1RB1LB_1LA1RZ halt 6 5: false")
    with open(listed, "a", encoding="ascii") as file:
        file.write("1RA1RA recurs 0 1 1 *\n")
    require_end(tmp_path, ["--list", str(listed)], 2, "this is no verdict line: 1RA1RA recurs 0 1 1 *")
