"""Helpers that tests in several folders share."""

import fcntl
import functools
import importlib.util
import pathlib
import re
import shutil
import signal
import subprocess
from typing import Callable, Sequence

import pytest

TOP = pathlib.Path(__file__).resolve().parents[2]
# What the fixture `list_machines` gives.
ListMachines = Callable[..., list[str]]
# Targets of the Makefile that take no proof kit.
WITHOUT_KIT = ("coq", "lister", "plain", "plain-library", "wheel")


def missing_requirements(programs: Sequence[str], modules: Sequence[str] = ()) -> list[str]:
    """List the programs and Python modules that aren't installed, each with its Debian package."""
    rows = [line.split("#")[0].split() for line in (TOP / ".ci" / "packages.txt").read_text().splitlines()]
    packages = {program: row[0] for row in reversed(rows) for program in row[1:]}
    absent = [program for program in programs if shutil.which(program) is None]
    missing = ["%s isn't installed (Debian: %s)" % (one, packages.get(one, "no package")) for one in absent]
    unknown = [module for module in modules if importlib.util.find_spec(module) is None]
    words = "Python has no %s (Debian: python3-%s, for /usr/bin/python3)"
    return missing + [words % (module, module) for module in unknown]


def require(*programs: str, modules: Sequence[str] = ()) -> None:
    """Skip the running test where a program or Python module isn't installed."""
    missing = missing_requirements(programs, modules)
    if missing:
        pytest.skip("; ".join(missing))


def has_kit() -> bool:
    """Tell whether the proof kit is installed."""
    return shutil.which("rt") is not None


@functools.lru_cache(maxsize=None)
def build(target: str, path: str) -> pathlib.Path:
    """Build a target of the Makefile where it is out of date, and return its file.

    `path` is relative to the top. Without the proof kit a file that is already built is taken as it is; where
    there is none, the running test is skipped. Processes build one after another.
    """
    built = TOP / path
    if not has_kit() and target not in WITHOUT_KIT:
        if not built.exists():
            pytest.skip("%s isn't built, and there is no kit to build it" % path)
        return built
    with open(TOP / "Makefile", encoding="utf-8") as lock:
        fcntl.flock(lock, fcntl.LOCK_EX)
        done = subprocess.run(["make", "-s", target], cwd=TOP, capture_output=True, text=True)
    assert done.returncode == 0, "make %s failed:\n%s%s" % (target, done.stdout, done.stderr)
    return built


def list_files(*words: str) -> list[str]:
    """List the rows of `git ls-files` by these words whose files exist, from the top."""
    rows = subprocess.check_output(["git", "ls-files", *words], cwd=TOP, text=True).splitlines()
    return [row for row in rows if (TOP / row.split("\t")[-1]).is_file()]


def read_blocks(page: str) -> dict[str, list[str]]:
    """Read the indented blocks of a document, by the heading above them."""
    found: dict[str, list[str]] = {}
    for section in re.split(r"^#+ ", (TOP / page).read_text(encoding="utf-8"), flags=re.M)[1:]:
        heading, _, text = section.partition("\n")
        blocks = re.findall(r"(?:^    .*\n(?:\n(?=    ))?)+", text, flags=re.M)
        if blocks:
            found[heading] = [re.sub("^    ", "", block, flags=re.M).rstrip("\n") for block in blocks]
    return found


def restore_signals() -> None:
    """As `preexec_fn`: let a process end by SIGINT and SIGHUP, also below `&` or `nohup`."""
    for number in (signal.SIGINT, signal.SIGHUP):
        signal.signal(number, signal.SIG_DFL)
