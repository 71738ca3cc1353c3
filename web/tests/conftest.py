"""Fixtures of the page's tests: browsers, colour schemes and forms of lines."""

import json
import pathlib
from typing import Any, Iterator

import pytest
from support import TOP, require
from web.tests.browser import Page
from web.tests.node import Engine


@pytest.fixture(scope="module")
def browser(page: pathlib.Path, bb: str, tmp_path_factory: pytest.TempPathFactory) -> Iterator[Page]:
    """The page in a desktop browser."""
    with Page(page, tmp_path_factory.mktemp("saved"), program=bb) as opened:
        yield opened


@pytest.fixture
def tab(browser: Page) -> Iterator[Page]:
    """The page, opened anew. It sends no request and logs no error."""
    browser.open()
    yield browser
    assert not browser.requests()
    assert not browser.errors()


@pytest.fixture(scope="module")
def engine(module: pathlib.Path, bb: str, tmp_path_factory: pytest.TempPathFactory) -> Iterator[Engine]:
    """The engine in a Node process, beside the program."""
    require("node")
    with Engine(tmp_path_factory.mktemp("engine"), module, bb) as opened:
        if opened.about.get("unsupported"):
            pytest.skip("this Node has no vectors; Node 16.4 or later has (package nodejs)")
        yield opened


@pytest.fixture(params=["light", "dark"])
def scheme(tab: Page, request: pytest.FixtureRequest) -> Iterator[str]:
    """The colour schemes of the page."""
    tab.media(prefers_color_scheme=request.param)
    yield request.param
    tab.media()


@pytest.fixture(scope="session")
def forms() -> dict[str, Any]:
    """Lines and lists with their expected readings, shared with the package."""
    found: dict[str, Any] = json.loads((TOP / "tests/support/forms.json").read_text(encoding="utf-8"))
    return found


@pytest.fixture
def phone(page: pathlib.Path, bb: str, tmp_path: pathlib.Path) -> Iterator[Page]:
    """The page on a phone."""
    with Page(page, tmp_path, 390, 844, is_phone=True, program=bb) as opened:
        opened.open()
        yield opened
        assert not opened.errors()
