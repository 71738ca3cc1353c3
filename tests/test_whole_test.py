"""`./test` itself, over a few tests: it names the failed ones, and prints a line for each reason of skipped ones."""

import pathlib
import re
import shutil

import pytest
from support import TOP
from support.repository import Repository

FILES = "test conftest.py pyproject.toml .ci/packages.txt plain/erase.py tools/build_info.py include/bb.h"
TESTS = """import pytest
from support import require

@pytest.mark.parametrize("number", range(5))
def test_numbers(number):
    assert number != 3

@pytest.mark.parametrize("number", range(3))
@pytest.mark.needs("no-such-program")
def test_program(number):
    pass

def test_another():
    require("no-such-program")

@pytest.mark.timing
def test_time():
    pytest.skip("no clock")

@pytest.fixture
def broken():
    raise ValueError("broken")

def test_fixture(broken):
    pass
"""
SKIPPED = [
    "skipped 1: no clock",
    "skipped 4: no-such-program isn't installed (Debian: no package)",
    "skipped: rt ci: the kit isn't installed",
]


@pytest.mark.needs("make", modules=("xdist",))
def test_failed_and_skipped_tests_are_named(tmp_path: pathlib.Path) -> None:
    made = Repository(tmp_path, FILES)
    shutil.copytree(TOP / "tests" / "support", made.top / "tests" / "support")
    made.write("tests/test_some.py", TESTS)
    made.write("Makefile", "plain:\n")
    done = made.run("./test", PATH="/usr/bin:/bin")
    lines = done.stdout.splitlines()
    assert sorted(line for line in lines if line.startswith("skipped")) == SKIPPED
    named = [re.findall("(?:FAILED|ERROR) [a-z_./]*::([^ ]*)", line) for line in lines]
    assert [name for names in named for name in names] == ["test_numbers[3]", "test_fixture"]
    # The build of the programs passes too.
    assert (lines[-1], done.returncode) == ("5 passed, 2 failed, 6 skipped", 1)
