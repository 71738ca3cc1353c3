"""The built page in a headless Chromium, beside the program."""

from __future__ import annotations

import contextlib
import json
import os
import pathlib
import signal
import threading
import time
from typing import Any, Callable, Sequence

from support.program import SWITCHES, run_command, words_of_plan

# Finds elements by id and by selector, and records the longest task that blocked the page, in milliseconds.
HELPERS = """
window.$ = (id) => document.getElementById(id);
window.$$ = (selector) => [...document.querySelectorAll(selector)];
window.longest = 0;
new PerformanceObserver((list) => list.getEntries().forEach((entry) => {
  window.longest = Math.max(window.longest, entry.duration);
})).observe({ entryTypes: ["longtask"] });
"""
# Overrides the number of cores.
CORES = "Object.defineProperty(navigator, 'hardwareConcurrency', { get: () => %d });"
DROP = """
const moved = new DataTransfer();
moved.items.add($("file").files[0]);
dispatchEvent(new DragEvent("drop", { dataTransfer: moved, bubbles: true, cancelable: true }));
"""
HIDE_FILE = """
$("file").addEventListener("change", (event) => event.stopImmediatePropagation(),
  { capture: true, once: true });
"""
# Runs a script, and returns the milliseconds until the diagram is drawn again.
DRAWING = """
const done = arguments[arguments.length - 1];
const canvas = $("diagram");
const begun = performance.now();
const watch = new MutationObserver(() => {
  if (canvas.dataset.state === "drawn") {
    watch.disconnect();
    done(performance.now() - begun);
  }
});
watch.observe(canvas, { attributes: true, attributeFilter: ["data-state"] });
%s
"""
# Turns the wheel by some notches, at a place in pixels from the picture's corner.
WHEEL = """
const { left, top } = canvas.getBoundingClientRect();
canvas.dispatchEvent(new WheelEvent("wheel", {
  deltaY: -100 * arguments[0],
  clientX: left + Number(canvas.dataset.x) + arguments[1],
  clientY: top + Number(canvas.dataset.y) + arguments[2],
  bubbles: true,
  cancelable: true,
}));
"""
# Parses a CSS colour.
COLOUR = "const parse = (text) => (text.match(/[0-9.]+/g) ?? []).map(Number);"
PIXELS = """
const pen = $("diagram").getContext("2d");
const { x, y, ratio } = pen.canvas.dataset;
return arguments[0].map(([right, down]) => [...pen.getImageData(
  (right + Number(x)) * ratio, (down + Number(y)) * ratio, 1, 1).data].slice(0, 3));
"""
ROWS = "return $$('#shown .row').map((row) => [...row.children].map((cell) => cell.textContent))"
# Timeout of `Page.until`, in seconds.
PATIENCE = 1_800
# Timeouts of driver commands and of scripts and page loads, in seconds.
COMMAND, SCRIPT = 300, 290
# Seconds before a browser is killed.
ENDING = 20
# A machine that never halts, and limits at which it runs for hours.
LONG = "0RB---_0LA---"
ENDLESS: dict[str, Any] = {"steps": 10**12, "cells": 64, "depth": 9, **{name: False for name in SWITCHES}}
# The index of the head in the palette.
HEAD = 11
# The numbers of a diagram's view by name.
View = dict[str, float]


def contrast(one: Sequence[float], two: Sequence[float]) -> float:
    """Return the contrast of two colours, by their channels from 0 to 255."""

    def luminance(colour: Sequence[float]) -> float:
        parts = [part / 255 for part in colour[:3]]
        linear = [part / 12.92 if part <= 0.03928 else ((part + 0.055) / 1.055) ** 2.4 for part in parts]
        return float(sum(share * part for share, part in zip((0.2126, 0.7152, 0.0722), linear)))

    high, low = sorted(map(luminance, (one, two)), reverse=True)
    return (high + 0.05) / (low + 0.05)


def soon(what: Callable[[], Any], patience: float = 10.0) -> Any:
    """Return a result once it is true, or the last one after some seconds."""
    end = time.monotonic() + patience
    while not (found := what()) and time.monotonic() < end:
        time.sleep(0.01)
    return found


def is_whole(path: str) -> bool:
    return os.path.exists(path) and os.path.getsize(path) > 0 and not os.path.exists(path + ".crdownload")


class Page(contextlib.ExitStack):
    """A page in its own browser, closed at the end of a `with` block. `folder` gets its downloads; `program` is
    the reference; `cores` overrides the number of cores."""

    def __init__(
        self,
        path: object,
        folder: object,
        width: int = 1280,
        height: int = 900,
        is_phone: bool = False,
        cores: int | None = None,
        program: str = "",
    ) -> None:
        # Imported late: without selenium the page's tests are skipped.
        from selenium import webdriver

        super().__init__()
        options = webdriver.ChromeOptions()
        for word in ("--headless=new", "--no-sandbox", "--window-size=%d,%d" % (width, height)):
            options.add_argument(word)
        if is_phone:
            metrics = {"deviceMetrics": {"width": width, "height": height, "pixelRatio": 2.0}}
            options.add_experimental_option("mobileEmulation", metrics)
        options.set_capability("goog:loggingPrefs", {"browser": "ALL", "performance": "ALL"})
        webdriver.remote.remote_connection.RemoteConnection.set_timeout(COMMAND)
        own_group = {"start_new_session": True}
        service = webdriver.chrome.service.Service("/usr/bin/chromedriver", popen_kw=own_group)
        self.driver = webdriver.Chrome(options=options, service=service)
        self.process: int = service.process.pid
        self.callback(self.end)
        self.driver.set_script_timeout(SCRIPT)
        self.driver.set_page_load_timeout(SCRIPT)
        self.folder, self.path, self.program = str(folder), str(path), program
        self.command("Page.setDownloadBehavior", behavior="allow", downloadPath=self.folder)
        self.add_script(HELPERS + (CORES % cores if cores else ""))

    def command(self, name: str, **words: Any) -> Any:
        return self.driver.execute_cdp_cmd(name, words)

    def add_script(self, source: str) -> Any:
        """Run a script in each page before it loads, until it is removed."""
        return self.command("Page.addScriptToEvaluateOnNewDocument", source=source)

    def remove_script(self, added: Any) -> None:
        self.command("Page.removeScriptToEvaluateOnNewDocument", **added)

    def open(self, link: str = "") -> None:
        """Open the page from the disk, and wait for its first list."""
        if self.driver.current_url.startswith("file:"):
            # The page stores its list when it is left.
            self.js("addEventListener('pagehide', () => sessionStorage.clear())")
        self.driver.get("about:blank")
        self.driver.get("file://" + self.path + link)
        self.wait_until_done()

    def open_machine(self, machine: str, query: str = "") -> View:
        """Open a machine by a link with more parameters, and wait until its diagram is drawn."""
        self.open("#machine=%s%s" % (machine, query))
        return self.wait_until_drawn()

    def reload(self) -> None:
        self.driver.refresh()
        self.wait_until_done()

    def js(self, script: str, *words: Any) -> Any:
        """Return the result of a script in the page."""
        return self.driver.execute_script(script, *words)

    def wait_for_js(self, script: str, *words: Any) -> Any:
        """Return the result of an asynchronous script."""
        return self.driver.execute_async_script(script, *words)

    def get(self, name: str, field: str) -> Any:
        """Return a property of an element."""
        return self.js("return $(arguments[0])[arguments[1]]", name, field)

    def put(self, name: str, field: str, value: Any) -> None:
        self.js("$(arguments[0])[arguments[1]] = arguments[2]", name, field, value)

    def text(self, name: str) -> str:
        return str(self.get(name, "textContent"))

    def focus(self) -> str:
        return str(self.js("return document.activeElement.id"))

    def click(self, name: str) -> None:
        self.js("$(arguments[0]).click()", name)

    def press(self, name: str, *keys: str) -> None:
        """Press keys in an element, one after another."""
        element = self.driver.find_element("id", name)
        self.js("arguments[0].focus({ preventScroll: true })", element)
        for key in keys:
            element.send_keys(key)

    def type(self, name: str, text: str, event: str = "input") -> None:
        """Set a field's text, with an event."""
        self.put(name, "value", text)
        self.js("$(arguments[0]).dispatchEvent(new Event(arguments[1], { bubbles: true }))", name, event)

    def choose_option(self, name: str, value: str) -> None:
        """Choose an option of a menu by its value."""
        self.type(name, value, "change")

    def choose_example(self, name: str) -> None:
        """Choose an example by its name, and wait for its results."""
        script = "return [...$('examples').options].find((one) => one.text === arguments[0]).value"
        self.await_answer(lambda: self.choose_option("examples", self.js(script, name)))

    def await_answer(self, act: Callable[[], object]) -> None:
        """Run an action that starts a list, and wait for its results."""
        self.js("$('results').dataset.state = 'requested'")
        act()
        self.wait_until_done()

    def open_list(self, *lines: str, plan: dict[str, Any] | None = None, mode: str = "auto") -> None:
        """Type a list, removing a chosen file, and wait for its results. A plan sets the fields first."""
        if not self.get("file-shown", "hidden"):
            self.click("file-remove")
        if plan is not None:
            self.plan(plan, mode, clean=mode == "auto")
        self.type("list", "".join(line + "\n" for line in lines))
        self.await_answer(self.run)

    def run_endless(self, *lines: str) -> None:
        """Type a list whose machines run for hours, and start it."""
        self.plan(ENDLESS, "decide")
        self.type("list", "".join(line + "\n" for line in lines))
        self.run()

    def open_facts(self, machine: str, query: str = "") -> None:
        """Open a machine by a link, and wait for its facts."""
        self.open("#machine=%s%s" % (machine, query))
        self.until(lambda: "\u2026" not in self.text("facts"))

    def open_row(self, row: int) -> None:
        self.js("$$('#shown .row')[arguments[0]].click()", row)

    def rows(self) -> list[list[str]]:
        return list(self.js(ROWS))

    def media(self, **features: str) -> None:
        """Emulate media features, such as `prefers_color_scheme="dark"`."""
        wanted = [{"name": name.replace("_", "-"), "value": value} for name, value in features.items()]
        self.command("Emulation.setEmulatedMedia", features=wanted)

    def until(self, what: Callable[[], Any]) -> Any:
        """Wait for a true result, and return it."""
        found = soon(what, PATIENCE)
        assert found, "timeout: %s" % self.text("status")
        return found

    def tape_is_at(self, step: str) -> bool:
        """Return whether the tape soon shows a step; `step` is the beginning of its text."""
        return bool(soon(lambda: self.text("tape-text").startswith("Step %s" % step)))

    def state(self) -> str:
        """Return the state of the run: requested, running, done, stopped or ended."""
        return str(self.js("return $('results').dataset.state"))

    def wait_until_done(self) -> None:
        """Wait until the run is over."""
        self.until(lambda: self.state() in ("done", "stopped", "ended"))

    def wait_until_drawn(self, is_wanted: Callable[[View], bool] = bool) -> View:
        """Wait until the diagram is drawn, and some seconds for a wanted view; return the view's numbers."""
        script = "return {...$('diagram').dataset}"

        def view() -> View:
            drawn = self.until(lambda: (found := self.js(script)).get("state") == "drawn" and found)
            return {name: float(value) for name, value in drawn.items() if name != "state"}

        found: View = soon(lambda: is_wanted(drawn := view()) and drawn) or view()
        return found

    def time_drawing(self, script: str, *words: Any) -> float:
        """Return the seconds from a script until the diagram is drawn again, by the page's clock."""
        return float(self.wait_for_js(DRAWING % script, *words)) / 1_000

    def time_zoom(self, notches: float, right: float, down: float) -> float:
        """Return the seconds from a turn of the wheel in the focused diagram until it is drawn again."""
        return self.time_drawing("canvas.focus({ preventScroll: true });" + WHEEL, notches, right, down)

    def resize(self, width: int) -> View:
        """Give the window a width, or its own with 0; return the view of the diagram drawn again."""
        metrics = {"width": width, "height": 900 * bool(width), "deviceScaleFactor": 0, "mobile": False}
        self.command("Emulation.setDeviceMetricsOverride", **metrics)
        time.sleep(0.3)
        return self.wait_until_drawn()

    def size(self) -> tuple[int, int]:
        return self.get("diagram", "clientWidth"), self.get("diagram", "clientHeight")

    def focus_on(self, name: str) -> None:
        self.js("$(arguments[0]).focus()", name)

    def scroll_to_diagram(self) -> None:
        self.js("$('diagram').scrollIntoView({ block: 'center' })")

    def go_to(self, step: str) -> None:
        """Go to a step by the tape's field."""
        self.put("tape-step", "value", step)
        self.js("$('tape-form').requestSubmit()")

    def colour(self, name: str) -> list[int]:
        script = "return getComputedStyle(document.documentElement).getPropertyValue(arguments[0])"
        text = self.js(script, name).strip()
        return [int(text[at : at + 2], 16) for at in (1, 3, 5)]

    def palette(self) -> list[list[int]]:
        """Return the colours of the symbols, of unvisited cells and of the head."""
        return [self.colour(name) for name in [*map("--s{}".format, range(10)), "--unvisited", "--head"]]

    def pixels(self, places: list[list[float]]) -> list[list[int]]:
        """Return the diagram's colours at places, in page pixels from the picture's corner."""
        return list(self.js(PIXELS, places))

    def plan(self, plan: dict[str, Any], mode: str, clean: bool = False) -> None:
        """Set the fields, missing ones to their defaults."""
        self.click("defaults")
        for name, value in {"mode": mode, **plan}.items():
            self.put(name, "checked" if name in SWITCHES else "value", value)
        self.put("clean", "checked", clean)

    def run(self) -> None:
        """Start the list without waiting."""
        self.click("run")

    def submit_file(self, given: bytes, drop: bool = False) -> None:
        """Choose or drop a file with these bytes; the run starts at once."""
        path = pathlib.Path(self.folder) / "list"
        path.write_bytes(given)
        self.choose(str(path), drop)

    def choose(self, path: str, drop: bool = False) -> None:
        """Choose or drop a file; the run starts at once."""
        self.js("$('results').dataset.state = 'requested'")
        self.put("file", "value", "")
        if drop:
            self.js(HIDE_FILE)
        self.driver.find_element("id", "file").send_keys(path)
        if drop:
            self.js(DROP)

    def answer_file(self, given: bytes, drop: bool = False) -> None:
        """Choose or drop a file with these bytes, and wait for its results."""
        self.submit_file(given, drop)
        self.wait_until_done()

    def save(self) -> bytes:
        """Save the results, and return the bytes."""
        self.click("save")
        return self.read_download()

    def read_download(self) -> bytes:
        """Wait for a download of results, and return its bytes."""
        names = [os.path.join(self.folder, name) for name in ("verdicts.txt", "answers.txt")]
        path = pathlib.Path(self.until(lambda: next(filter(is_whole, names), None)))
        given = path.read_bytes()
        path.unlink()
        return given

    def program_output(self, name: str, plan: dict[str, Any], given: bytes) -> bytes:
        """Return the program's output for a list."""
        return run_command([self.program, name, *words_of_plan(plan)], given).output

    def require_same(self, name: str, plan: dict[str, Any], given: bytes, drop: bool = False) -> bytes:
        """Run a file, and require that the page saves the program's output."""
        self.plan(plan, name)
        self.answer_file(given, drop)
        found, wanted = self.save(), self.program_output(name, plan, given)
        first = next((k for k, pair in enumerate(zip(found, wanted)) if pair[0] != pair[1]), "at its end")
        assert found == wanted, "%s %s differs at byte %s" % (name, plan, first)
        return found

    def requests(self) -> list[str]:
        """Return the requested addresses, except the page's own."""
        messages = [json.loads(entry["message"])["message"] for entry in self.driver.get_log("performance")]
        sent = [one["params"] for one in messages if one["method"] == "Network.requestWillBeSent"]
        own = ("file://" + self.path, "blob:", "data:", "about:")
        return [one["request"]["url"] for one in sent if not one["request"]["url"].startswith(own)]

    def errors(self) -> list[str]:
        """Return the errors in the console."""
        return [entry["message"] for entry in self.driver.get_log("browser") if entry["level"] == "SEVERE"]

    def end(self) -> None:
        """Close the browser; kill its process group if it doesn't respond."""

        def end_driver() -> None:
            with contextlib.suppress(Exception):
                self.driver.quit()

        ending = threading.Thread(target=end_driver, daemon=True)
        ending.start()
        ending.join(ENDING)
        if ending.is_alive():
            with contextlib.suppress(ProcessLookupError):
                os.killpg(self.process, signal.SIGKILL)
