"""Fixtures, options and the closing line of all tests."""

import collections
import functools
import pathlib
import random
import subprocess
import sys
from typing import Any, Callable

import pytest
from support import TOP, ListMachines, build, has_kit, require
from support.program import LIST_LIMITS, LIST_STEPS, replies

sys.path.insert(0, str(TOP))
from plain.erase import DEBIAN, absent_from_debian  # noqa: E402


def pytest_addoption(parser: pytest.Parser) -> None:
    parser.addoption("--seed", type=int, default=1, help="seed of the random machines and lists (default: 1)")


def pytest_runtest_setup(item: pytest.Item) -> None:
    for mark in item.iter_markers("needs"):
        require(*mark.args, modules=mark.kwargs.get("modules", ()))


def pytest_terminal_summary(terminalreporter: Any) -> None:
    """Print one line for each reason of skipped tests, with their number."""
    reports = terminalreporter.stats.get("skipped", [])
    reasons = collections.Counter(report.longrepr[2].partition("Skipped: ")[2] for report in reports)
    for reason, count in sorted(reasons.items()):
        terminalreporter.write_line("skipped %d: %s" % (count, reason))


def pytest_unconfigure(config: pytest.Config) -> None:
    """Print `N passed, M failed, K skipped` as the last line, which `./test` adds up."""
    reporter = config.pluginmanager.get_plugin("terminalreporter")
    if reporter is None or hasattr(config, "workerinput") or config.option.collectonly:
        return

    def count(*outcomes: str) -> int:
        return sum(len(reporter.stats.get(outcome, [])) for outcome in outcomes)

    passed, failed, skipped = count("passed"), count("failed", "error"), count("skipped")
    print("%d passed, %d failed, %d skipped" % (passed, failed, skipped))


@pytest.fixture
def rng(request: pytest.FixtureRequest) -> random.Random:
    """A source of random numbers that depends on `--seed` alone."""
    return random.Random(request.config.getoption("--seed"))


def proved_or_plain(request: pytest.FixtureRequest, name: str, path: str) -> pathlib.Path:
    """Build what is proved. Without the kit, and where nothing proved is built, build it by cargo."""
    if has_kit() or (TOP / path).exists():
        return build(name, path)
    made: pathlib.Path = request.getfixturevalue("plain_library" if name == "library" else "plain")
    return made if name == "library" else made / name


def program(name: str) -> Callable[..., str]:
    """A fixture with the path of a program."""

    @pytest.fixture(scope="session", name=name)
    def path(request: pytest.FixtureRequest) -> str:
        return str(proved_or_plain(request, name, "crates/%s/out/%s" % (name, name)))

    return path


# The program, that which checks whether a list is complete, and that which finds exact recurrences.
bb, cover, recurrence = map(program, ("bb", "cover", "recurrence"))


@pytest.fixture(scope="session")
def library(request: pytest.FixtureRequest) -> pathlib.Path:
    """The path of libbb.so; libbb.a is beside it."""
    return proved_or_plain(request, "library", "crates/bb_c/out/libbb.so")


@pytest.fixture(scope="session")
def registry() -> pathlib.Path:
    """Debian's folder of the crates that the build by cargo takes."""
    require("cargo")
    absent = absent_from_debian()
    if absent:
        pytest.skip("Debian's librust-%s-dev isn't installed" % "-dev and librust-".join(absent))
    return DEBIAN


@pytest.fixture(scope="session")
def plain(registry: pathlib.Path) -> pathlib.Path:
    """The folder of the programs without contracts, built by cargo over Debian's registry."""
    assert registry.is_dir()
    return build("plain", "out/plain/target/release/bb").parent


@pytest.fixture(scope="session")
def plain_library(plain: pathlib.Path) -> pathlib.Path:
    """The path of the libbb.so that cargo builds; libbb.a is beside it."""
    require("ar", "ld", "nm", "objcopy", "cc")
    return build("plain-library", str(plain.relative_to(TOP) / "libbb.so"))


@pytest.fixture(scope="session")
def wheel(request: pytest.FixtureRequest) -> pathlib.Path:
    """The path of the wheel of the Python package."""
    require("pip3", modules=("setuptools", "wheel"))
    request.getfixturevalue("library" if has_kit() else "plain_library")
    build("wheel", "python/dist")
    return max((TOP / "python" / "dist").glob("*.whl"), key=lambda path: path.stat().st_mtime)


@pytest.fixture(scope="session")
def module() -> pathlib.Path:
    """The path of the engine as WebAssembly."""
    return build("web", "web/out/bb.wasm")


@pytest.fixture(scope="session")
def page() -> pathlib.Path:
    """The path of the page, which has the engine inside."""
    require("chromium", "chromedriver", modules=("selenium",))
    return build("web", "web/out/bb.html")


@pytest.fixture(scope="session")
def checker() -> str:
    """The path of the second checker, which Coq extracts."""
    require("coqc", "coqchk", "ocamlfind")
    return str(build("coq", "coq/out/checker"))


@pytest.fixture(scope="session")
def coq_cover(checker: str) -> str:
    """The path of the second checker of complete lists, which Coq extracts too."""
    return str(pathlib.Path(checker).with_name("cover"))


@pytest.fixture(scope="session")
def coq_recurrence(checker: str) -> str:
    """The path of the second checker of exact recurrence, which Coq extracts too."""
    return str(pathlib.Path(checker).with_name("recurrence"))


@pytest.fixture(scope="session")
def lister() -> str:
    """The path of the program that lists machines."""
    require("rustc")
    return str(build("lister", "tools/out/tree_normal_form"))


@pytest.fixture(scope="session")
def list_machines(lister: str) -> ListMachines:
    """A function that lists the machines of so many states in tree normal form; more words are passed on."""

    def list_states(states: int, *words: str) -> list[str]:
        command = [lister, "--states", str(states), *words]
        return subprocess.run(command, stdout=subprocess.PIPE, check=True, text=True).stdout.splitlines()

    return list_states


@pytest.fixture(scope="session")
def decide_all(bb: str, list_machines: ListMachines) -> Callable[[int, int], list[str]]:
    """A function that returns the verdict lines of the complete list of so many states and symbols."""

    @functools.lru_cache(maxsize=None)
    def decide(states: int, symbols: int) -> list[str]:
        machines = list_machines(states, "--symbols", str(symbols), "--steps", str(LIST_STEPS))
        return replies([bb, "decide", *LIST_LIMITS], machines)

    return decide


@pytest.fixture(scope="session")
def four_states(list_machines: ListMachines) -> list[str]:
    """All machines of four states in tree normal form."""
    return list_machines(4)
