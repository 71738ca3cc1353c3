"""The sources: types, layout, and how each executable prints its help and refuses wrong words."""

import subprocess

import pytest
from support import TOP, list_files

# Shell scripts that hand their words on to a program, each with the fixture that builds it.
WRAPPERS = {
    "bb": "bb",
    "cover": "cover",
    "recurrence": "recurrence",
    "tools/tree_normal_form": "list_machines",
}
# The classes that it extends have no types.
UNTYPED = "python/setup.py"
# After so many seconds an executable counts as having begun its work.
PATIENCE = 120


def first_line(path: str) -> bytes:
    with open(TOP / path, "rb") as file:
        return file.readline(100)


def python_files() -> list[str]:
    """List all files in Python, with or without the ending."""
    names = list_files("--cached", "--others", "--exclude-standard")
    return [name for name in names if name.endswith(".py") or first_line(name).endswith(b"python3\n")]


def executables() -> list[str]:
    """List the executables that take words: those in Python, and the wrappers."""
    names = [row.split("\t")[1] for row in list_files("--stage") if row.startswith("100755")]
    return [name for name in names if name in WRAPPERS or first_line(name).endswith(b"python3\n")]


def require_pass(*command: str) -> None:
    done = subprocess.run(command, cwd=TOP, stdout=subprocess.PIPE, stderr=subprocess.STDOUT, text=True)
    assert done.returncode == 0, done.stdout


@pytest.mark.needs("mypy")
def test_python_has_strict_types() -> None:
    require_pass("/usr/bin/python3", "-m", "mypy", *(path for path in python_files() if path != UNTYPED))


@pytest.mark.needs("black")
def test_python_is_laid_out_by_black() -> None:
    require_pass("black", "--check", "--quiet", *python_files())


@pytest.mark.needs("tsc")
def test_javascript_has_strict_types() -> None:
    require_pass("tsc", "--noEmit", "-p", "web")


@pytest.mark.parametrize("option, status", [("--help", 0), ("--no-such-option", 2)])
@pytest.mark.parametrize("path", executables())
def test_executable_prints_its_help_and_refuses_wrong_words(
    request: pytest.FixtureRequest, path: str, option: str, status: int
) -> None:
    if path in WRAPPERS:
        request.getfixturevalue(WRAPPERS[path])
    command = [str(TOP / path), option]
    done = subprocess.run(command, stdin=subprocess.DEVNULL, capture_output=True, timeout=PATIENCE)
    assert done.returncode == status and (done.stderr if status else done.stdout).strip()
