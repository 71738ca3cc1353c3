"""The sources of the package, by each Python from 3.9 on, and its wheel alone, in an empty environment."""

from __future__ import annotations

import doctest
import importlib
import json
import os
import pathlib
import re
import shutil
import subprocess
from typing import Any

import pytest
from support import TOP
from support.runs import expected_verdicts, words_of
from tools.build_info import NEWEST_GLIBC, glibc_of, is_plain

PACKAGE = TOP / "python"
WHEEL = re.compile(
    r"budlarem-[0-9.]+\+(plain\.)?g[0-9a-f]{12}(?:\.changed\.[0-9a-f]{8})?-py3-none-manylinux_(\d+)_(\d+)_\w+\.whl"
)
FIRST_RUN = """
import budlarem
print(budlarem.__version__, budlarem.COMMIT)
for verdict in budlarem.decide(["1RB1LB_1LA1RZ", "1RA1RA", "1rB1LB"]): print(verdict)
"""
METADATA = """
import importlib.metadata, json
found = importlib.metadata.metadata("budlarem")
facts = {name: found[name] for name in ("Summary", "Keywords", "Description-Content-Type")}
print(json.dumps({**facts, "page": found.get_payload()}))
"""
# The champions of two to five states, a translated cycler, and a line that is no machine.
RUN_LIST = (
    b"1RB1LB_1LA1RZ\n1RB1RZ_1LB0RC_1LC1LA\n1RA1RA\n1RB1LB_1LA0LC_1RZ1LD_1RD0RA\n1rB1LB\n"
    b"1RB1LC_1RC1RB_1RD0LE_1LA1LD_1RZ0LA\n"
)
# The first leaves all three that halt within the second, and the five-state champion is left by both.
RUN_PASSES = ((5, 16, 3, 10), (1_000, 1_024, 40, 1_000))
# Of the first pass, and of both together: how many lines are undecided.
RUN_LEFT = [4, 1]
SITE = pathlib.Path(pytest.__file__).parents[1]
# The modules that pytest and hypothesis are, for Pythons and environments that lack it.
PYTEST = "pytest _pytest py pluggy iniconfig packaging attr exceptiongroup".split()
PYTEST += ["hypothesis", "sortedcontainers"]


def run(
    command: list[str], path: str = "", cwd: pathlib.Path = PACKAGE, given: str | None = None
) -> tuple[int, str]:
    """The status and output of a command to which no variable says where the package or the library is."""
    hidden = ("PYTHONPATH", "BB_LIBRARY", "PYTHONHOME", "VIRTUAL_ENV")
    variables = {name: value for name, value in os.environ.items() if name not in hidden}
    variables.update({"PYTHONPATH": path} if path else {})
    how: dict[str, Any] = {"stdout": subprocess.PIPE, "stderr": subprocess.STDOUT, "text": True}
    done = subprocess.run(command, cwd=cwd, env=variables, input=given, **how)
    return done.returncode, done.stdout


def pythons() -> list[str]:
    """A command for each version of Python from 3.9 on that starts, the oldest first."""
    asked = ["/usr/bin/python3", *("python3.%d" % minor for minor in range(9, 20))]
    folders = sorted(pathlib.Path.home().glob(".pyenv/versions/3.*/bin/python3"))
    found: dict[tuple[int, int], str] = {}
    for command in filter(shutil.which, [*asked, *map(str, folders)]):
        status, output = run([command, "-c", "import sys; print(sys.executable, *sys.version_info[:2])"])
        parts = output.split()
        if status == 0 and len(parts) == 3 and (int(parts[1]), int(parts[2])) >= (3, 9):
            found.setdefault((int(parts[1]), int(parts[2])), parts[0])
    return [found[version] for version in sorted(found)]


def run_unit_tests(python: str, top: pathlib.Path, *more: str) -> None:
    """The unit tests, by one Python, which needn't have pytest itself."""
    top.mkdir(exist_ok=True)
    for name in (found for module in PYTEST for found in (module, module + ".py")):
        if (SITE / name).exists():
            (top / name).symlink_to(SITE / name)
    (top / "tomli.py").write_text("from pip._vendor.tomli import *\n")
    words = ["-q", "-p", "no:cacheprovider", *more, "python/tests/unit"]
    status, output = run([python, "-m", "pytest", *words], str(top), TOP)
    counts = re.search(r"(\d+) passed", output)
    assert status == 0 and counts and int(counts.group(1)) > 200, output


@pytest.mark.slow
def test_unit_tests_by_each_python(tmp_path: pathlib.Path) -> None:
    for place, python in enumerate(pythons()):
        run_unit_tests(python, tmp_path / str(place))


def test_examples_of_docstrings() -> None:
    names = sorted((PACKAGE / "src" / "budlarem").rglob("[a-z]*.py"))
    modules = [".".join(path.relative_to(PACKAGE / "src").with_suffix("").parts) for path in names]
    modules.remove("budlarem.recheck")
    found = [doctest.testmod(importlib.import_module(name)) for name in modules]
    assert sum(one.failed for one in found) == 0
    assert sum(one.attempted for one in found) > 15


@pytest.mark.needs("readelf", "nm")
def test_library_asks_for_no_newer_glibc(library: pathlib.Path) -> None:
    """The proved library needs no newer one than the tag of its wheel names."""
    if is_plain(library):
        pytest.skip("the library isn't the proved one")
    assert (0,) < glibc_of(library) <= NEWEST_GLIBC


@pytest.mark.slow
@pytest.mark.needs("pip3", "readelf", "nm", modules=("setuptools", "wheel"))
def test_wheel(bb: str, library: pathlib.Path, tmp_path: pathlib.Path) -> None:
    """Two builds are the same bytes; it works by the oldest and newest Python, and notices a cut library."""
    wheels = []
    for name in ("first", "again"):
        words = ["--library", str(library), "--out", str(tmp_path / name)]
        status, output = run(["/usr/bin/python3", "build_wheel.py", *words])
        assert status == 0, output
        wheels.append(pathlib.Path(output.strip().splitlines()[-1]))
    found_name = WHEEL.fullmatch(wheels[0].name)
    assert found_name and bool(found_name[1]) == is_plain(library)
    assert (int(found_name[2]), int(found_name[3])) == max(glibc_of(library), NEWEST_GLIBC)
    assert wheels[0].read_bytes() == wheels[1].read_bytes()
    found = pythons()
    for place, python in enumerate(dict.fromkeys([found[0], "/usr/bin/python3", found[-1]])):
        folder = tmp_path / ("environment%d" % place)
        if run([python, "-m", "venv", str(folder)])[0] != 0:
            pytest.skip("an environment of %s: no venv (package python3-venv)" % python)
        inside, command = str(folder / "bin" / "python"), str(folder / "bin" / "budlarem")
        status, output = run([inside, "-m", "pip", "install", "--quiet", "--no-index", str(wheels[0])])
        assert status == 0, output
        require_first_run(inside)
        require_metadata(inside)
        run_unit_tests(inside, folder / "pytest", "-o", "pythonpath=tests")
        assert "1RZ--- halt 1 1\tx\n" in run([command, "decide"], cwd=folder, given="1RZ---, x\n")[1]
        require_runner(bb, command, folder)
        require_cut_library(command, folder)


@pytest.mark.slow
@pytest.mark.needs("pip3", "make", modules=("setuptools", "wheel"))
@pytest.mark.usefixtures("wheel")
def test_install_from_a_clone(tmp_path: pathlib.Path) -> None:
    """`pip install ./python` builds the library, and leaves nothing beside the sources."""
    before = {path for path in PACKAGE.rglob("*") if "__pycache__" not in path.parts}
    if run(["/usr/bin/python3", "-m", "venv", "--system-site-packages", str(tmp_path)])[0] != 0:
        pytest.skip("no venv (package python3-venv)")
    inside = str(tmp_path / "bin" / "python")
    words = ["--quiet", "--no-index", "--no-build-isolation", "./python"]
    assert run([inside, "-m", "pip", "install", *words], cwd=TOP)[0] == 0
    require_first_run(inside)
    assert {path for path in PACKAGE.rglob("*") if "__pycache__" not in path.parts} == before


def require_first_run(python: str) -> None:
    """The first run of the documents, by a version that names its commit."""
    status, output = run([python, "-I", "-c", FIRST_RUN])
    first, *lines = output.splitlines()
    version, commit = first.split(maxsplit=1)
    assert lines == ["1RB1LB_1LA1RZ halt 6 4", "1RA1RA translated R 1 2 1 1", "refused 2"]
    assert re.search(r"\+(plain\.)?g" + commit[:12], version)


def require_metadata(python: str) -> None:
    """What the wheel says of itself: a long description, and words by which it is found."""
    facts = json.loads(run([python, "-I", "-c", METADATA])[1])
    assert facts["page"].strip() == (PACKAGE / "README.md").read_text(encoding="utf-8").strip()
    assert facts["Description-Content-Type"] == "text/markdown"
    assert "busy beaver" in facts["Keywords"] and "Turing machines" in facts["Summary"]


def require_runner(bb: str, command: str, folder: pathlib.Path) -> None:
    """The command `run` of the wheel: begun, and gone on with a pass that decides what is left."""
    (folder / "list.txt").write_bytes(RUN_LIST)
    words = [command, "run", "list.txt", "--out", "out", "--check"]
    for count, left in enumerate(RUN_LEFT, 1):
        words += ["--pass", words_of(RUN_PASSES[count - 1])]
        assert run(words, cwd=folder)[0] == 1
        found = (folder / "out" / "verdicts.txt").read_bytes()
        assert found == expected_verdicts(bb, RUN_LIST, RUN_PASSES[:count])
        assert found.count(b" undecided ") == left


def require_cut_library(command: str, folder: pathlib.Path) -> None:
    """The wheel's library is cut short: it has another length than the wheel says, and is never called."""
    (library,) = folder.glob("lib/python3*/site-packages/budlarem/libbb.so")
    whole = library.read_bytes()
    for length in (0, 1_000, len(whole) // 2, len(whole) - 1):
        library.write_bytes(whole[:length])
        status, output = run([command, "decide"], cwd=folder, given="1RZ---\n")
        sentence = "has %d bytes, and that of this package has %d: it was cut" % (length, len(whole))
        assert status == 3 and sentence in output
    library.write_bytes(whole)
    assert "1RZ--- halt 1 1\n" in run([command, "decide"], cwd=folder, given="1RZ---\n")[1]
