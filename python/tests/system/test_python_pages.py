"""The pages on Python: their snippets run in order, each page in one process, and the reference has all names."""

import doctest
import inspect
import itertools
import pathlib
import re
from typing import Any

import budlarem
import pytest
from budlarem import _api
from support import TOP, read_blocks
from support.program import run_package

API = "docs/python-api.md"
NAMES = [*_api.__all__, "COMMIT", "__version__"]
# The pages, and how many of their blocks are commands for a shell; test_wheel runs those.
PAGES = {"docs/python-tutorial.md": 1, API: 0, "python/README.md": 0}


def is_python(block: str) -> bool:
    try:
        compile(block.replace(">>> ", "").replace("... ", ""), "block", "exec")
    except SyntaxError:
        return ">>> " in block
    return True


def run_block(block: str, names: dict[str, Any]) -> None:
    """Runs a snippet, and compares what it prints if it is a session."""
    if ">>> " not in block:
        exec(block, names)
        return
    test = doctest.DocTestParser().get_doctest(block, {}, "block", None, None)
    test.globs = names
    found: list[str] = []
    failed, _ = doctest.DocTestRunner().run(test, out=found.append, clear_globs=False)
    assert not failed, "".join(found)


@pytest.mark.needs(modules=("matplotlib",))
@pytest.mark.parametrize("page", PAGES)
def test_snippets_run_in_order(page: str, tmp_path: pathlib.Path, monkeypatch: pytest.MonkeyPatch) -> None:
    monkeypatch.chdir(tmp_path)
    names: dict[str, Any] = {}
    blocks = [*itertools.chain.from_iterable(read_blocks(page).values())]
    for block in filter(is_python, blocks):
        run_block(block, names)
    assert len(blocks) > PAGES[page] == len([block for block in blocks if not is_python(block)])


def test_reference_has_all_names() -> None:
    text = (TOP / API).read_text(encoding="utf-8")
    named = re.findall(r"\w+", " ".join(re.findall(r"`[^`\n]+`", text)))
    named += re.findall(r"^    (\w+)\(", text, re.M)
    assert set(NAMES) <= set(named)


def test_reference_has_the_parameters() -> None:
    """Their order, names and defaults are those of the calls."""
    text = (TOP / API).read_text(encoding="utf-8")
    rows = re.findall(r"^(?:\| )?`(\w+)\(([^`]*)\)`", text, re.M)
    found: list[tuple[str, list[str]]] = [(name, given.split(", ")) for name, given in rows if name in NAMES]
    assert len(found) > 19
    for name, given in found:
        actual = inspect.signature(getattr(budlarem, name)).parameters
        pairs = [word.partition("=")[::2] for word in given]
        assert [one for one, _ in pairs] == [one for one in actual if one in dict(pairs)], name
        for parameter, default in pairs:
            assert not default or eval(default) == actual[parameter].default, (name, parameter)


def test_limits_of_the_command_are_the_greatest(tmp_path: pathlib.Path) -> None:
    """The page says so beside the answer of the call, `over`."""
    (tmp_path / "claims").write_text("1RB1LC_1RC1RB_1RD0LE_1LA1LD_1RZ0LA halt 47176870 4098\n")
    done = run_package("check", str(tmp_path / "claims"))
    assert (done.status, done.output) == (0, b"ok\n")
