"""How the command `budlarem` begins and what it prints, as processes."""

from __future__ import annotations

import itertools
import os
import pathlib
import re
import signal
import subprocess
import sys
import time
from typing import Any

import pytest
from support import restore_signals
from support.program import MAX_CELLS, MAX_STEPS
from support.runs import LONG_MACHINE
from python.tests.runner import run_budlarem

LONG_PASS = "steps=%d,cells=%d" % (MAX_STEPS, MAX_CELLS)
ENDLESS_PAIR = b"1RA1RA cycler 1 %d\n" % MAX_STEPS
ENDLESS = LONG_MACHINE[:-1] + b" halt %d 1\n" % MAX_STEPS
# How a module that Python imported is told, and the first one of the package's own by then.
_IMPORT = "import time:"
_MODULE = re.compile(r"budlarem\.[a-z]")
# So many seconds without an import are the end of them, and so many has a process to begin, or to end.
QUIET, PATIENCE = 0.3, 60.0
_STATUSES = {signal.SIGINT: 130, signal.SIGTERM: 143, signal.SIGHUP: 129}
# What the command says that a signal ended, and whether SIGTERM and SIGHUP end it as other programs.
_RESUME = r"budlarem: (interrupted|ended by SIG\w+); the same command resumes the run.*\n"
_SENTENCES = {"run": _RESUME, "publish": r"budlarem: SIG\w+: no archive is written\n", "check": ""}
_SENTENCES["recurrence"] = ""


def commands(tmp_path: pathlib.Path) -> dict[str, list[str]]:
    listed, verdicts = tmp_path / "list.txt", tmp_path / "verdicts.txt"
    pairs = tmp_path / "pairs.txt"
    for path, line in ((listed, LONG_MACHINE), (verdicts, ENDLESS), (pairs, ENDLESS_PAIR)):
        path.write_bytes(line)
    return {
        "run": ["run", str(listed), "--out", str(tmp_path / "out"), "--pass", LONG_PASS],
        "publish": ["publish", str(tmp_path / "out.tar"), "--verdicts", str(verdicts)],
        "check": ["check", str(verdicts)],
        "recurrence": ["recurrence", str(pairs)],
    }


def imports_in(text: str) -> int:
    """How many modules were imported, counted from the first one of the package on."""
    lines = [line for line in text.splitlines() if line.startswith(_IMPORT)]
    places = (place for place, line in enumerate(lines) if _MODULE.search(line))
    return len(lines) - next(places, len(lines))


def result_after_signal(
    more: list[str], number: int, imports: int, seconds: float, log: pathlib.Path
) -> tuple[int, str]:
    """What a command prints, and its status, after a signal so many imports, or then seconds, after its start."""
    command = [sys.executable, "-X", "importtime", "-m", "budlarem", *more]
    with open(log, "wb") as file:
        process = subprocess.Popen(command, stdout=file, stderr=file, preexec_fn=restore_signals)
    with process:
        before, since = 0, time.monotonic()
        while before < imports and time.monotonic() - since < (QUIET if before else PATIENCE):
            found = imports_in(log.read_text(errors="replace"))
            before, since = found, time.monotonic() if found != before else since
            time.sleep(0.001)
        time.sleep(seconds)
        process.send_signal(number)
        try:
            process.wait(PATIENCE)
        finally:
            process.kill()
    lines = log.read_text(errors="replace").splitlines(keepends=True)
    return process.returncode, "".join(line for line in lines if not line.startswith(_IMPORT))


@pytest.mark.parametrize("step", [40, pytest.param(15, marks=pytest.mark.slow)])
@pytest.mark.parametrize(
    "name, number",
    [
        *itertools.product(("run", "publish"), _STATUSES),
        ("check", signal.SIGINT),
        ("recurrence", signal.SIGINT),
    ],
)
def test_signals(tmp_path: pathlib.Path, name: str, number: signal.Signals, step: int) -> None:
    moments = [(imports, 0.0) for imports in range(1, 160, step)]
    moments += [(1_000, 0.01 * hundredths) for hundredths in range(0, 20, max(step // 2, 1))]
    for imports, seconds in moments:
        more = commands(tmp_path)[name]
        status, said = result_after_signal(more, number, imports, seconds, tmp_path / "log")
        assert status == _STATUSES[number] and re.fullmatch(_SENTENCES[name], said), (imports, seconds, said)
        assert not [*tmp_path.glob("out.tar*")]
    if name == "run":
        assert said.endswith(" in %s\n" % (tmp_path / "out"))


# Interrupts the process as it imports the module AT.
HOOK = """
import os, signal, sys

def end(event, words):
    if event == "import" and words[0] == os.environ["AT"]:
        os.kill(os.getpid(), signal.SIGINT)

sys.addaudithook(end)
"""
# In the order of the imports.
MODULES = "_fork _version __main__ commands _files judging runner.passes".split()


@pytest.mark.parametrize("module", MODULES)
def test_an_early_interruption_prints_no_traceback(tmp_path: pathlib.Path, module: str) -> None:
    (tmp_path / "sitecustomize.py").write_text(HOOK)
    paths = "%s:%s" % (tmp_path, os.environ.get("PYTHONPATH", ""))
    variables = {**os.environ, "PYTHONPATH": paths, "AT": "budlarem." + module}
    words = [sys.executable, "-m", "budlarem", "judge", "-"]
    how: dict[str, Any] = {"input": b"1RA1RA cycler 1 2\n", "env": variables, "preexec_fn": restore_signals}
    done = subprocess.run(words, capture_output=True, **how)
    is_imported = done.returncode == 130
    assert is_imported or module == "__main__", done.stderr
    assert done.stderr == b"" or not is_imported, done.stderr


@pytest.mark.parametrize("step", [1, pytest.param(4, marks=pytest.mark.slow)])
def test_cut_library(library: pathlib.Path, tmp_path: pathlib.Path, step: int) -> None:
    """A library that was cut short is refused by each command, and never called."""
    cut, listed = tmp_path / "libbb.so", tmp_path / "machines.txt"
    listed.write_bytes(b"1RB1LB_1LA1RZ\n")
    whole = library.read_bytes()
    decide, run = ["decide", str(listed)], ["run", str(listed), "--out", str(tmp_path / "cut")]
    commands = (
        decide,
        run,
        *([name, str(listed)] for name in ("check", "recurrence")),
        ["trace", "1RB1LB_1LA1RZ", "--upto", "6"],
    )
    lengths = [7, 20, *range(64, len(whole), len(whole) // (4 * step)), len(whole) - 1]
    variables = {**os.environ, "BB_LIBRARY": str(cut)}
    for length, more in itertools.product(lengths, commands):
        cut.write_bytes(whole[:length])
        done = run_budlarem(*more, status=3, sentence="was cut short", env=variables)
        assert done.stderr.count("\n") == 1 and not done.stdout, (more, length)
    cut.write_bytes(whole)
    assert "1RB1LB_1LA1RZ halt 6 4" in run_budlarem(*decide, env=variables).stdout.splitlines()


def test_lines_with_control_characters_are_escaped(tmp_path: pathlib.Path) -> None:
    odd = b"\x1b[31mred\x07\x9b1m\xc2\x9b2m\x7f\x00\r"
    listed, verdicts = tmp_path / "odd.txt", tmp_path / "odd-verdicts.txt"
    listed.write_bytes((odd + b"\n") * 3)
    verdicts.write_bytes(b"1RB1LB_1LA1RZ halt 6 4 " + odd + b"\n")
    cases: list[tuple[int, str, list[object]]] = [
        (2, "\\x1b", ["run", listed, "--out", tmp_path / "odd"]),
        (1, "\\x1b", ["check", verdicts]),
        (1, "\\x1b", ["publish", tmp_path / "o.tar", "--verdicts", verdicts]),
        (1, "", ["trace", "1RB1LB\x1b[31m", "--upto", "3"]),
    ]
    for status, text, words in cases:
        require_escaped(run_budlarem(*words, status=status), text)


def require_escaped(done: "subprocess.CompletedProcess[str]", text: str) -> None:
    said = done.stdout + done.stderr
    hidden = [sign for sign in said if not sign.isprintable() and sign not in "\n\t"]
    assert text in done.stderr and said and not hidden, said


# A name that hides, reverses or breaks the text behind it: ESC, C1 as a sign and as a byte, U+202E, U+2028.
ODD_NAME = b"a\x1b[31mb\xc2\x9b\x9b1m\xe2\x80\xaetxt\xe2\x80\xa8c"


@pytest.mark.parametrize(
    "name", "read decide normal check recurrence compare report judge publish run".split()
)
def test_names_of_files_are_escaped_as_lines_are(tmp_path: pathlib.Path, name: str) -> None:
    odd, none = (
        os.fsdecode(os.path.join(os.fsencode(tmp_path), start + ODD_NAME)) for start in (b"", b"no-")
    )
    with open(odd, "wb") as file:
        file.write(b"1RB1LB_1LA1RZ halt 6 4\n1RB1LB_1LA1R halt 6 4\n1RB1LB_1LA1RZ halt 7 4\n")
    more = {
        "compare": [[odd, odd], [odd, none]],
        "judge": [[odd, "--list", odd], [none], [odd, "--words", none]],
        "report": [
            [odd, "--out", none + ".html"],
            [none, "--out", odd],
            [odd, "--out", odd],
            [odd, odd, "--out", none],
        ],
        "publish": [
            [none + ".tar", "--verdicts", odd],
            [odd, "--verdicts", odd],
            [none + ".tar", "--verdicts", none],
        ],
        "run": [[odd, "--out", none], [none, "--out", none], [odd, "--out", odd]],
    }
    for words in more.get(name, [[odd], [none], [odd, none]]):
        done = run_budlarem(name, *words, status=None)
        require_escaped(done, "\\x1b[31mb")
        assert "U+202Etxt" in done.stderr or "\\u202etxt" in done.stderr, (words, done.stderr)
