"""Accessibility of the page: contrasts, names, roles, widths, live text; and its content security policy."""

import pathlib
import re
import time

import pytest
from support import TOP
from web.tests.browser import COLOUR, Page, contrast, soon
from web.tests.gestures import Keys
from support.machines import CHAMPION, LATE
from support.program import as_lines
from support.traces import trace

TEXT, MARK = 4.5, 3.0
# Its head visits ten symbols, and it halts at step 19.
COUNTER = "1RB2RB3RB4RB5RB6RB7RB8RB9RB9RZ_1LA2LA3LA4LA5LA6LA7LA8LA9LA9LA"
# Pixels above a marked row: two of its outline, one outside, and one that only a label reaches.
ABOVE = (-1, -2, -3, -6)
# The colours of texts and of controls' borders, and those behind them.
COLOURS = (
    COLOUR
    + """
const over = ([red, green, blue, alpha = 1], lower) =>
  [red, green, blue].map((part, k) => part * alpha + lower[k] * (1 - alpha));
const ground = (element) => {
  const layers = [];
  for (let one = element; one; one = one.parentElement) {
    layers.push(parse(getComputedStyle(one).backgroundColor));
  }
  const white = [255, 255, 255];
  return layers.reverse().reduce((below, layer) => (layer.length ? over(layer, below) : below), white);
};
const seen = (element) => element.checkVisibility() && element.getClientRects().length > 0;
const all = $$("body *").filter(seen);
const hasText = (node) => node.nodeType === 3 && node.data.trim();
const texts = all.filter((one) => [...one.childNodes].some(hasText));
const used = "button:not(:disabled), input[type=text], select, textarea";
const controls = all.filter((one) => one.matches(used));
const words = (one) => one.outerHTML.slice(0, 80);
return [
  texts.map((one) => [parse(getComputedStyle(one).color), ground(one), words(one)]),
  controls.map((one) => [parse(getComputedStyle(one).borderTopColor), ground(one.parentElement), words(one)]),
];
"""
)
# Roles of controls that need a name.
NAMED = "button textbox combobox checkbox link grid img image listbox progressbar group region application"
# References to missing or repeated ids.
REFERENCES = """
const names = ["aria-describedby", "aria-labelledby", "aria-activedescendant", "aria-controls", "for"];
const used = (name) => $$("[" + name + "]").flatMap((one) => one.getAttribute(name).split(" "));
const ids = $$("[id]").map((one) => one.id);
return [...names.flatMap(used).filter((id) => !$(id)), ...ids.filter((id, k) => ids.indexOf(id) !== k)];
"""
SEND = """
const done = arguments[arguments.length - 1];
const violations = [];
addEventListener("securitypolicyviolation", (event) => violations.push(event.effectiveDirective));
const image = new Image();
image.src = "https://example.invalid/x.png";
const request = new XMLHttpRequest();
request.open("GET", "https://example.invalid/");
const script = document.createElement("script");
script.textContent = "window.ran = true";
const opened = (one, sent) => new Promise((end, fail) => Object.assign(one, { [sent]: end, onerror: fail }));
const tried = [
  () => fetch("https://example.invalid/"),
  () => (request.send(), opened(request, "onload")),
  () => opened(new WebSocket("wss://example.invalid/"), "onopen"),
  () => (document.body.append(script), window.ran || Promise.reject()),
];
const ends = tried.map(async (send) => send()).map((end) => end.then(() => "sent", () => "refused"));
Promise.all(ends).then((all) => setTimeout(() => done([all, violations]), 300));
"""
WORKER = """
const done = arguments[arguments.length - 1];
const source = "fetch('https://example.invalid/')" +
  ".then(() => postMessage('sent'), () => postMessage('refused'));";
const worker = new Worker(URL.createObjectURL(new Blob([source])));
worker.onmessage = (event) => done(event.data);
worker.onerror = () => done("error");
"""
LIVE = """
window.live = [];
new MutationObserver(() => window.live.push([performance.now(), $("live").textContent]))
  .observe($("live"), { childList: true, characterData: true, subtree: true });
"""
CLIPPED = """
return $$("#shown .row > *").filter((cell) => cell.scrollWidth > cell.clientWidth + 1)
  .map((cell) => cell.textContent);
"""
TOPS = "return [...$$('#shown .row')[1].children].map((one) => Math.round(one.getBoundingClientRect().top))"
DIGITS = """
const pen = document.createElement("canvas").getContext("2d");
pen.font = "11px system-ui, sans-serif";
return $("diagram").dataset.x - 9 - pen.measureText(arguments[0]).width;
"""
NAVIGATION = "return $$('#row-before, #row-next, #open-next').map((one) => one.offsetTop)"
SIX = "1RB0LD_1RC0RF_1LC1LA_0LE1RZ_1LF0RB_0RC0RE"
WIDTH = "return document.documentElement.scrollWidth"


@pytest.mark.parametrize("part", [0, 1], ids=["light", "dark"])
def test_colours_of_the_style(part: int) -> None:
    """Contrasts of heads' letters, marks and texts."""
    style = (TOP / "web" / "page" / "page.css").read_text(encoding="utf-8")
    text = style.split("@media (prefers-color-scheme: dark)")[part].split("* { box-sizing")[0]
    found: dict[str, str] = dict(re.findall(r"--([a-z0-9-]+): #([0-9a-f]{6})", text))
    colours = {name: list(bytes.fromhex(digits)) for name, digits in found.items()}
    for symbol in range(10):
        letter = colours["on%d" % symbol]
        assert contrast(colours["s%d" % symbol], letter) >= TEXT
        assert contrast(colours["head"], letter) >= MARK
    for mark in ("mark", "head", "accent"):
        assert contrast(colours[mark], colours["panel"]) >= MARK
    for label in ("mark", "exact"):
        assert contrast(colours[label], colours["panel"]) >= TEXT
    assert contrast(colours["good"], colours["wash"]) >= TEXT


@pytest.mark.usefixtures("scheme")
def test_heads_have_halos(tab: Page) -> None:
    """A head's frame contrasts with its halo on each symbol."""
    view, rows = tab.open_machine(COUNTER), trace(tab.program, COUNTER, 18)
    assert {row.symbol(row.head) for row in rows} == set(range(10))
    assert view["high"] >= 12 and view["every"] == 1
    for row in rows:
        x, y = (row.head - view["left"]) * view["wide"], (row.step + 0.5) * view["high"]
        frame, ring = tab.pixels([[x + 1, y], [x + 2, y]])
        assert contrast(frame, ring) >= MARK
        assert frame == tab.colour("--head")


@pytest.mark.usefixtures("scheme")
def test_marks_have_halos(tab: Page) -> None:
    """A late mark over cells of a pixel contrasts with its halo."""
    tab.open_machine(LATE)
    tab.click("fit")
    view, mark = tab.wait_until_drawn(lambda view: view["top"] == 0), tab.colour("--mark")
    assert view["high"] <= 3
    step = int(tab.program_output("decide", {}, LATE.encode()).split()[3])
    y = int((step - view["top"]) / view["every"] * view["high"] + view["y"]) - view["y"]
    found = tab.pixels([[x, y + k] for x in range(2, 600, 3) for k in ABOVE])
    columns = [found[k : k + len(ABOVE)] for k in range(0, len(found), len(ABOVE))]
    outer = [about for one, two, about, label in columns if one == two == mark != label]
    assert outer and min(contrast(mark, about) for about in outer) >= MARK


@pytest.mark.usefixtures("scheme")
def test_contrasts(tab: Page) -> None:
    """Of all visible texts and controls."""
    tab.put("limits", "open", True)
    tab.open_list("1RB1LB_1LA1RZ", "1RB1LH_1LA1RZ", "1RA1RA halt 6 4", "1LB0LA_1RA---")
    for row in range(4):
        tab.open_row(row)
        time.sleep(0.2)
        for found, least in zip(tab.js(COLOURS), (TEXT, MARK)):
            assert found and not [words for one, ground, words in found if contrast(one, ground) < least]


def test_names_and_references(tab: Page) -> None:
    """Controls have names, references point at unique ids, also while rows scroll, and words fold out by key."""
    tab.open_list(*["1RA1RA"] * 500)
    nodes = [one for one in tab.command("Accessibility.getFullAXTree")["nodes"] if not one["ignored"]]
    named = [one for one in nodes if one["role"]["value"] in NAMED.split()]
    assert named and all(one["name"]["value"] for one in named)
    assert not tab.js(REFERENCES)
    tab.press("rows", Keys.END)
    assert not tab.js(REFERENCES)
    tab.put("rows", "scrollTop", 0)
    tab.until(lambda: tab.js("return document.querySelector('#row-0') !== null"))
    assert not tab.js(REFERENCES)
    assert tab.get("diagram", "role") == "application"
    assert tab.get("file-choose", "tagName") == "BUTTON"
    words = "halt cycler translated backward undecided refused ok open bad over unread"
    assert tab.js("return $$('#words dt').map((one) => one.textContent.split(' ')[0])") == words.split()
    is_shown = "return document.querySelector('#results #words dl').checkVisibility()"
    assert not tab.js(is_shown)
    tab.js("document.querySelector('#words summary').id = 'words-summary'")
    tab.press("words-summary", "\n")
    assert tab.js(is_shown)


def test_live_text(tab: Page) -> None:
    """Announcements are at least a second apart; the end of a run and an opened verdict are announced."""

    def is_announced(words: str) -> bool:
        return any(words in text for _, text in tab.js("return window.live"))

    tab.js(LIVE)
    tab.open_list("1RA1RA", "1RB1LB_1LA1RZ")
    tab.until(lambda: is_announced("Done"))
    tab.press("rows", Keys.ARROW_DOWN, Keys.ENTER)
    tab.until(lambda: is_announced("It halts after 6 steps"))
    for _ in range(12):
        tab.press("diagram", Keys.ARROW_DOWN)
        time.sleep(0.1)
    time.sleep(1.2)
    times = [at for at, _ in tab.js("return window.live")]
    assert min(after - before for before, after in zip(times, times[1:])) >= 990
    roles = tab.js("return $$('[role=status], [aria-live]').map((one) => one.id)")
    assert roles == ["live"]


def test_page_sends_nothing(tab: Page) -> None:
    """The policy blocks requests and scripts, also in workers, and the page still works."""
    policy = tab.js("return document.querySelector('meta[http-equiv]').content")
    assert "default-src 'none'" in policy and "connect-src" not in policy
    ends, violations = tab.wait_for_js(SEND)
    assert ends == ["refused"] * 4
    assert {"connect-src", "img-src", "script-src-elem"} <= set(violations)
    assert violations.count("connect-src") == 3
    assert tab.wait_for_js(WORKER) == "refused"
    # What was tried is in the console.
    assert tab.requests() and tab.errors()
    tab.open_list("1RA1RA")
    assert tab.save() == b"1RA1RA translated R 1 2 1 1\n"


def test_page_at_all_widths(tab: Page) -> None:
    """A machine and its line's number are whole in each row, and a `translated` verdict at a desk."""
    tab.plan({}, "check", True)
    tab.open_list(CHAMPION + " translated R 1234 5678 12 34", "1RB1LB_1LA1RZ halt 7")
    assert not tab.js(CLIPPED)
    tab.plan({"steps": 10}, "decide")
    tab.answer_file(as_lines([SIX] * 20_000))
    for width in (390, 640, 901, 1_000, 1_280, 1_920):
        tab.resize(width)
        tab.press("rows", Keys.END)
        assert soon(lambda: not {SIX, "20,000"} & set(tab.js(CLIPPED)))
        assert tab.rows()[-1][0] == "20,000" and tab.js(WIDTH) <= width
        assert tab.get("machine", "clientWidth") > 0.42 * width - 30
        assert len(set(tab.js(NAVIGATION))) == 1
    tab.resize(0)


@pytest.mark.slow
@pytest.mark.parametrize("width, height", [(390, 844), (320, 640)])
def test_narrow_page(page: pathlib.Path, bb: str, tmp_path: pathlib.Path, width: int, height: int) -> None:
    """Nothing exceeds the width, rows have two lines, and the axis has room for long steps."""
    with Page(page, tmp_path, width, height, is_phone=True, program=bb) as phone:
        phone.open()
        phone.press("rows", Keys.ARROW_DOWN, Keys.ENTER)
        phone.until(lambda: phone.text("machine-text") == "1RA1RA")
        phone.open_list("1RA1RA", CHAMPION, "1RB1LH_1LA1RZ", "1LB0LA_1RA---", plan={"steps": 1000})
        for row in range(4):
            phone.open_row(row)
            assert phone.js(WIDTH) <= width
        tops = phone.js(TOPS)
        assert tops[1] < tops[2]
        assert width < 390 or not phone.js(CLIPPED)
        for line in ("`1rb1la_1lc1re_1ld1rf_1ra0lb_0re1lc_1rz0rd`", "1RA1RA %s" % ("x" * 90)):
            phone.open_list(line)
            assert phone.js(WIDTH) <= width
        for steps in (999_999, 9_999_999, 50_000_000):
            phone.open_machine(CHAMPION, "&steps=%d" % steps)
            assert phone.js(DIGITS, "{:,}".format(steps)) >= 0
        assert not phone.errors()
