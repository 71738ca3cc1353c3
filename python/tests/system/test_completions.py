"""Completion of the command lines of all programs in bash, zsh and fish: each shell is asked."""

import os
import pathlib
import re
import subprocess
import sys
from typing import Sequence

import pytest
from support import TOP, require

# It completes the last word of a command line, in bash by the function that was given for its first word.
BASH = """
source "$1"
shift
COMP_WORDS=("$@")
COMP_CWORD=$(($# - 1))
_$1
printf '%s\\n' "${COMPREPLY[@]}"
"""
# The long options that begin a line of the help.
OPTION = re.compile(r"^ +(?:-\w(?: [\w=,]+)?, +)?(--[a-z-]+)", re.MULTILINE)
# What zsh's own functions are given, written out in their place.
ZSH = """
_arguments() { print -rl -- "$@" }
_describe() { print -rl -- ${(P)2} }
complete_here() {
    local file=$1
    shift
    local -a words=("$@")
    local CURRENT=$#
    source $file
}
complete_here "$@"
"""


def help_of(command: Sequence[str]) -> str:
    variables = {**os.environ, "COLUMNS": "200"}
    return subprocess.run([*command, "--help"], stdout=subprocess.PIPE, text=True, env=variables).stdout


class Shell:
    def __init__(self, name: str, files: pathlib.Path, cwd: pathlib.Path) -> None:
        self.name, self.files, self.cwd = name, files, cwd

    def at(self, *line: str) -> list[str]:
        file = str(self.files / ("%s.%s" % (line[0], self.name)))
        if self.name == "fish":
            asked = " ".join(line).replace("'", "\\'")
            command = ["fish", "--no-config", "-c", "source %s; complete -C '%s'" % (file, asked)]
        elif self.name == "zsh":
            command = ["zsh", "-f", "-c", ZSH, "zsh", file, *line]
        else:
            command = ["bash", "--norc", "-c", BASH, "bash", file, *line]
        done = subprocess.run(command, capture_output=True, text=True, cwd=self.cwd)
        return done.stdout.splitlines() + [row for row in done.stderr.splitlines() if self.name != "fish"]

    def words_at(self, *line: str) -> set[str]:
        """The same, without the texts beside them."""
        return {re.split(r"[\t\[:]", row)[0] for row in self.at(*line)} - {""}


@pytest.fixture
def programs_of(bb: str, cover: str, recurrence: str) -> dict[str, str]:
    return {"bb": bb, "cover": cover, "recurrence": recurrence}


@pytest.fixture(params=["bash", "zsh", "fish"])
def shell(request: pytest.FixtureRequest, programs_of: dict[str, str], tmp_path: pathlib.Path) -> Shell:
    require(request.param)
    folder, files = tmp_path / "here", tmp_path / "files"
    folder.mkdir()
    (folder / "a list.txt").touch()
    words = [word for name, path in programs_of.items() for word in ("--" + name, path)]
    subprocess.run([sys.executable, str(TOP / "tools" / "completions"), str(files), *words], check=True)
    return Shell(request.param, files, folder)


@pytest.mark.parametrize("program", ["bb", "budlarem"])
def test_commands_and_options(bb: str, shell: Shell, program: str) -> None:
    """They are those of the program's help; the shell reads the file without a word."""
    file = str(shell.files / ("%s.%s" % (program, shell.name)))
    done = subprocess.run([shell.name, "-n", file], capture_output=True, text=True)
    assert done.returncode == 0 and not done.stderr
    command = [bb] if program == "bb" else [sys.executable, "-m", "budlarem"]
    page = help_of(command).partition("Commands:" if program == "bb" else "COMMAND\n")[2].partition("\n\n")[0]
    names = {*re.findall(r"^ {2,4}([a-z]+)(?: |$)", page, re.MULTILINE), "help"}
    assert len(names) > 3
    assert shell.words_at(program, "") - {"--help", "--version"} == names
    for name in names:
        page = help_of([*command, name]) if (program, name) != ("bb", "help") else ""
        found = {row for row in shell.words_at(program, name, "--") if row.startswith("--")}
        assert found == set(OPTION.findall(page)), name


def test_files(shell: Shell) -> None:
    """Files come where one is asked for, and no others where none is."""
    if shell.name == "zsh":
        rows = shell.at("budlarem", "publish", "--list", "")
        assert [row for row in rows if row.startswith("--list[") and row.endswith(":LIST:_files")]
        return
    for line, wanted in (
        (("bb", "decide", "a li"), True),
        (("budlarem", "publish", "--list", "a li"), True),
        (("budlarem", "run", "--out", "a li"), True),
        (("bb", "decide", "--steps", ""), False),
        (("cover", "a li"), True),
        (("recurrence", "--steps", ""), False),
        (("budlarem", "read", "--form", ""), False),
        (("budlarem", "publish", "--threads", ""), False),
    ):
        shown = (word.replace(" ", "\\ ") if shell.name == "fish" else word for word in line)
        found = shell.at(*shown)
        assert any("a list.txt" in row.replace("\\ ", " ") for row in found) == wanted, line


def test_programs_without_commands_and_few_values(programs_of: dict[str, str], shell: Shell) -> None:
    for program in ("cover", "recurrence"):
        found = {word for word in shell.words_at(program, "--") if word.startswith("--")}
        assert found == set(OPTION.findall(help_of([programs_of[program]])))
    if shell.name == "zsh":
        rows = shell.at("budlarem", "read", "--form", "")
        assert [
            row
            for row in rows
            if row.startswith("--form[") and row.endswith(":FORM:(machines verdicts text)")
        ]
    else:
        assert shell.words_at("budlarem", "read", "--form", "") == {"machines", "verdicts", "text"}
