"""Command lines of the programs: files, exit statuses, and standard error."""

import os
import pathlib

import pytest
from support.program import run_command

MACHINES = b"1RB1LB_1LA1RZ\n0RB---_0LA---\n1RA1RA\n"
VERDICTS = b"1RB1LB_1LA1RZ halt 6 4\n0RB---_0LA--- cycler 2 4\n1RA1RA translated R 1 2 1 1\n"
BY_TREES = b"1RB1LB_1LA1RZ halt 6 4\n0RB---_0LA--- backward 2 4\n1RA1RA backward 0 0\n"
CLAIMS = VERDICTS + b"1RA1RA undecided cells\nrefused 14\n"
ANSWERS = b"ok\nok\nok\nopen\nopen\n"
UNREAD, DEPTH = b"bb: read failed\n", b"bb: depth does not fit in cells\n"
CUT = b"the trace is cut: its next step needs more than --cells 2\n"
Case = tuple[str, str, bytes, int, bytes, bytes]
# Name, words, standard input, status, standard output, and standard error, of status 2 a part. The words LISTED,
# CLAIMED, MISSING and FOLDER stand for paths.
CASES: list[Case] = [
    ("a file is read", "decide LISTED", b"------\n", 0, VERDICTS, b""),
    ("standard input is read", "decide", MACHINES, 0, VERDICTS, b""),
    ("an empty input", "decide", b"", 0, b"", b""),
    ("a refused line", "decide", b"1rB1LB\n", 1, b"refused 2\n", b""),
    ("a missing file", "decide MISSING", b"------\n", 3, b"", UNREAD),
    ("a folder", "decide FOLDER", b"", 3, b"", UNREAD),
    ("no search", "decide --no-cyclers --no-translated", MACHINES, 0, BY_TREES, b""),
    ("refused limits", "decide --cells 4 --depth 3 MISSING", b"", 2, b"", DEPTH),
    ("an unknown option", "decide --cels 4", b"", 2, b"", b"--cels"),
    ("a number that is none", "decide --steps x", b"", 2, b"", b"--steps"),
    ("an argument that isn't UTF-8", "decide " + os.fsdecode(b"\xff"), b"", 2, b"", b"not UTF-8"),
    ("no command", "", b"", 2, b"", b"Usage"),
    ("help of two commands", "help decide check", b"", 2, b"", b"'bb help' takes one command"),
    ("help of no command", "help x", b"", 2, b"", b"'x'"),
    ("claims in a file", "check CLAIMED", b"------ halt 1 0\n", 0, ANSWERS, b""),
    ("claims", "check", CLAIMS, 0, ANSWERS, b""),
    ("no claims", "check", b"", 0, b"", b""),
    ("a bad claim", "check", b"------ halt 1 0\n", 1, b"bad\n", b""),
    ("a claim past a limit", "check --steps 5", CLAIMS, 1, b"over\nok\nok\nopen\nopen\n", b""),
    ("no verdict line", "check", b"------ halt 0 0\n\n", 1, b"ok\nunread\n", b""),
    ("a missing file of claims", "check MISSING", b"", 3, b"", UNREAD),
    ("refused limits of a check", "check --cells 4 MISSING", b"", 2, b"", DEPTH),
    ("a check by a plan", "check --no-cyclers", b"", 2, b"", b"--no-cyclers"),
    ("a trace", "trace --upto 1 1RZ---", b"", 0, b"0 A 0 0\n1 Z 1 1\n", b""),
    ("a cut trace", "trace --upto 5 --cells 2 1RA1RA", b"", 1, b"0 A 0 0\n1 A 1 10\n", CUT),
    ("a refused trace", "trace --upto 2 1RB1LB_1LA1RC", b"", 1, b"refused 14\n", b""),
]


OF_WALKS = "--lines reads machines; --below, --skeleton, --assume and --line are for verdict lines"
# Words of the programs that read a list of verdicts, the status, and what follows their name on standard error.
LIST_CASES = [
    ("--steps 1000000000001", 2, "steps out of range"),
    ("--cells 0", 2, "cells out of range"),
    ("MISSING", 3, "read failed\nMISSING: No such file or directory (os error 2)"),
    ("FOLDER", 3, "read failed\nFOLDER: Is a directory (os error 21)"),
]
TREE_CASES = [
    ("--depth 10001", 2, "depth out of range"),
    ("--nodes 1000000000001", 2, "nodes out of range"),
    ("--cells 1 --depth 2", 2, "depth does not fit in cells"),
    ("--assume FOLDER", 3, "read failed\nFOLDER: Is a directory (os error 21)"),
    ("--assume ASSUMED", 2, "line 3 of the file of --assume isn't MACHINE nonhalt"),
    ("--lines --skeleton", 2, OF_WALKS),
    ("--lines --line=0RA0RA", 2, OF_WALKS),
    ("--lines MISSING", 3, "read failed\nMISSING: No such file or directory (os error 2)"),
]
OF_LISTS = [("recurrence", *case) for case in LIST_CASES]
OF_LISTS += [("cover", *case) for case in LIST_CASES + TREE_CASES]


@pytest.fixture
def paths(tmp_path: pathlib.Path) -> dict[str, str]:
    """The files that the command lines name."""
    (tmp_path / "machines.txt").write_bytes(MACHINES)
    (tmp_path / "claims.txt").write_bytes(CLAIMS)
    (tmp_path / "assumed.txt").write_text("0RA--- nonhalt\n\n0RA--- halt\n0RA---\n")
    names = {"LISTED": "machines.txt", "CLAIMED": "claims.txt", "ASSUMED": "assumed.txt"}
    names.update(MISSING="missing.txt", FOLDER="")
    return {word: str(tmp_path / name) for word, name in names.items()}


@pytest.mark.parametrize("case", CASES, ids=[case[0] for case in CASES])
def test_command_line(bb: str, paths: dict[str, str], case: Case) -> None:
    _, words, given, status, output, error = case
    done = run_command([bb, *(paths.get(word, word) for word in words.split())], given)
    assert done[:2] == (status, output)
    assert done.error == error if status in (0, 1, 3) else error in done.error


@pytest.mark.parametrize("name, words, status, error", OF_LISTS)
def test_command_line_of_a_list(
    request: pytest.FixtureRequest, paths: dict[str, str], name: str, words: str, status: int, error: str
) -> None:
    """The list isn't read: the words come first, and the first wrong line of the file of assumptions."""
    for word, path in paths.items():
        error = error.replace(word, path)
    command = [request.getfixturevalue(name), *(paths.get(word, word) for word in words.split())]
    assert run_command(command, b"x\n") == (status, b"", ("%s: %s\n" % (name, error)).encode())


@pytest.mark.parametrize(
    "words, named",
    [("cover --assume a --assume b", b"--assume"), ("cover a b", b"b"), ("recurrence a b", b"b")],
)
def test_files_too_many(request: pytest.FixtureRequest, words: str, named: bytes) -> None:
    name, *more = words.split()
    done = run_command([request.getfixturevalue(name), *more])
    assert done[:2] == (2, b"") and b"'%s" % named in done.error


@pytest.mark.parametrize("name", ["bb", "cover", "recurrence"])
def test_version_goes_to_standard_output(request: pytest.FixtureRequest, name: str) -> None:
    status, output, error = run_command([request.getfixturevalue(name), "--version"])
    assert status == 0 and output.startswith(name.encode() + b" ") and not error


@pytest.mark.parametrize("command", [[], ["decide"], ["check"], ["trace"]])
def test_help_goes_to_standard_output(bb: str, command: list[str]) -> None:
    status, output, error = run_command([bb, *command, "--help"])
    assert status == 0 and b"Usage" in output and not error
    assert run_command([bb, "help", *command]) == (0, output, b"")
