"""The page's size, lists, links and stops."""

import base64
import functools
import http.server
import pathlib
import shutil
import threading
import time
from typing import Any

import pytest
from support import TOP
from web.tests.browser import Page, soon
from support.examples import README
from web.tests.node import documented_script
from support.program import FOUR, as_lines


def test_first_verdict_and_first_list(tab: Page) -> None:
    """The opening list with its diagram."""
    assert "halts after 6 steps" in tab.text("machine-says")
    tab.wait_until_drawn()
    tab.until(lambda: "The row above shows it." in tab.text("behind"))
    png = tab.js("return $('diagram').toDataURL('image/png')").split(",")[1]
    assert base64.b64decode(png).startswith(b"\x89PNG")
    assert tab.js("return performance.getEntriesByName('first verdict').length") == 1
    assert tab.rows()[-1] == ["3", "1rB1LB", "refused 2", "\u2013"]


@pytest.mark.parametrize(
    "plan, sentences",
    [
        ({"cells": 0, "depth": 10_001}, ["cells out of range", "depth out of range"]),
        ({"steps": 10**12 + 1, "nodes": 10**25}, ["steps out of range", "nodes out of range"]),
        ({"cells": 598}, ["depth does not fit in cells"]),
        ({"steps": "many"}, ["steps is no number"]),
    ],
)
def test_refused_limits(tab: Page, plan: dict[str, Any], sentences: list[str]) -> None:
    """The program's message is shown beside each wrong field, and the first has the focus."""
    tab.plan(plan, "auto")
    tab.run()
    names = [sentence.split()[0] for sentence in sentences]
    assert soon(lambda: tab.js("return $$('#fields [aria-invalid]').map((one) => one.id)") == names)
    for name, sentence in zip(names, sentences):
        shown = tab.text(name + "-range")
        assert shown.startswith(sentence) and len(shown) > len(sentence)
    assert tab.focus() == names[0]


def test_page_of_the_documentation(browser: Page, module: pathlib.Path, tmp_path: pathlib.Path) -> None:
    """The page of docs/web.md decides its list."""
    for path in [*(TOP / "web" / "lib").glob("*.mjs"), module]:
        shutil.copy(path, tmp_path)
    (tmp_path / "favicon.ico").touch()
    (tmp_path / "index.html").write_text(documented_script("A page"), encoding="utf-8")
    handler = functools.partial(http.server.SimpleHTTPRequestHandler, directory=str(tmp_path))
    with http.server.ThreadingHTTPServer(("127.0.0.1", 0), handler) as server:
        threading.Thread(target=server.serve_forever, daemon=True).start()
        browser.driver.get("http://127.0.0.1:%d/" % server.server_port)
        text = browser.until(lambda: browser.text("verdicts"))
        server.shutdown()
    assert text + "\n" == browser.program_output("decide", {"steps": 1000}, README[:21]).decode()
    assert not browser.errors()
    browser.requests()


@pytest.mark.slow
@pytest.mark.timing
def test_four_states(tab: Page, four_states: list[str]) -> None:
    """The page stays responsive during the run, on opening undecided lines, and during sorting."""
    given = as_lines(four_states)
    tab.js("window.longest = 0")
    begun = time.monotonic()
    tab.plan(FOUR, "decide")
    tab.answer_file(given, drop=True)
    taken, longest = time.monotonic() - begun, tab.js("return window.longest") / 1_000
    assert tab.save() == tab.program_output("decide", FOUR, given)
    tab.js("window.longest = 0")
    for _ in range(3):
        tab.click("open-next")
    beside = tab.js("return window.longest") / 1_000
    tab.js("window.longest = 0")
    tab.choose_option("order", "down")
    tab.until(lambda: "halt 107" in tab.text("shown") or "translated" in tab.text("shown"))
    sorting = tab.js("return window.longest") / 1_000
    print("%d lines in %.1f s; it stood still for %.3f s" % (len(four_states), taken, longest))
    print("still for %.3f s at the next undecided lines, for %.3f s while it sorted" % (beside, sorting))
    assert max(longest, beside, sorting) < taken / 2


def test_browser_without_vectors(page: pathlib.Path, tmp_path: pathlib.Path) -> None:
    """A browser without SIMD gets a message and can't run lists."""
    with Page(page, tmp_path) as bare:
        bare.add_script("WebAssembly.validate = () => false")
        bare.driver.get("file://" + bare.path)
        assert "no vectors" in bare.text("error") and "Chromium 156" in bare.text("error")
        assert bare.get("run", "disabled")
        assert not bare.errors()
