"""Fixtures of the tests of the package."""

import os
import pathlib
import tempfile
from typing import Iterator

import budlarem
import pytest
from support import TOP
from support.program import place_programs
from python.tests.runner import SMALL, RunCase

# Files there need no disk, so that the tests take no time for it.
MEMORY = "/dev/shm"
SOURCE = TOP / "python" / "src"


@pytest.fixture(scope="session", autouse=True)
def library_of_package(request: pytest.FixtureRequest) -> None:
    """The package of this repository finds the built library, in processes that tests start too."""
    if SOURCE in pathlib.Path(budlarem.__file__).parents:
        library = request.getfixturevalue("library")
        os.environ.update(BB_LIBRARY=str(library), PYTHONPATH=str(SOURCE))


@pytest.fixture
def programs(
    bb: str, cover: str, lister: str, tmp_path: pathlib.Path, monkeypatch: pytest.MonkeyPatch
) -> pathlib.Path:
    """A folder in the PATH with the programs and the command of the package."""
    folder = place_programs(tmp_path / "programs", bb, cover, lister)
    monkeypatch.setenv("PATH", "%s:%s" % (folder, os.environ["PATH"]))
    return folder


@pytest.fixture
def case() -> Iterator[RunCase]:
    with tempfile.TemporaryDirectory(dir=MEMORY if os.path.isdir(MEMORY) else None) as top:
        with RunCase(pathlib.Path(top)) as made:
            yield made


@pytest.fixture
def small(case: RunCase) -> RunCase:
    """A case whose list is decided by one pass."""
    case.run_over(limits=[SMALL])
    return case
