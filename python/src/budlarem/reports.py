"""A report on a list of verdicts, as one HTML file, and the growth of the cells that runs visit."""

from __future__ import annotations

import base64
import bisect
import collections
import dataclasses
import html
import io
import math
import os
import pathlib
import re
import string
from typing import Any, Iterable, Iterator, Sequence

from ._calls import BatchPace, map_in_order
from ._files import open_target
from ._text import Words
from .counts import KINDS, VerdictCounts
from .engine import trace
from .limits import Limits, in_range
from .pictures import draw_rows, sample_rows, visible_range
from .verdicts import Verdict, size_of, verdicts_of

# The plots, and the numbers of each.
_PLOTS = {
    "steps of halts, second steps of pairs": ("halt steps", "cycler second", "translated second"),
    "shifts of translated cyclers": ("translated shift",),
    "levels of backward trees": ("backward levels",),
}
_PLOTTED = {name: plot for plot, names in _PLOTS.items() for name in names}
# The most pixels of a diagram, across and down.
SIZE = 240
_PAGE = pathlib.Path(__file__).with_name("report.html")
# Colours of a plot, replaced by those of the page, which differ in light and dark.
_INK, _BAR = "#010203", "#040506"


class ReportError(RuntimeError):
    """matplotlib isn't installed. The text has advice."""


@dataclasses.dataclass(frozen=True)
class Report:
    """A report: the path of its file, its title, and its text. A notebook shows it."""

    path: str
    title: str
    html: str = dataclasses.field(repr=False)

    def _repr_html_(self) -> str:
        # A frame keeps the styles of the page and the notebook apart.
        title, page = html.escape(self.title), html.escape(self.html)
        style = "width:100%;height:40rem;border:1px solid #8886"
        return f'<iframe title="{title}" srcdoc="{page}" style="{style}"></iframe>'


class Statistics(VerdictCounts):
    """The counts of a list, the distributions of its numbers, and the `most` smallest undecided machines."""

    def __init__(self, verdicts: Iterable[str | Verdict], most: int) -> None:
        super().__init__()
        self.bins: dict[str, collections.Counter[int]] = collections.defaultdict(collections.Counter)
        self.smallest: list[tuple[int, str]] = []
        self._most = most
        for verdict in verdicts_of(verdicts, "verdicts"):
            self.add(str(verdict))

    def _add_numbers(self, kind: str, numbers: dict[str, int], line: str) -> None:
        super()._add_numbers(kind, numbers, line)
        for name, number in numbers.items():
            if (plot := _PLOTTED.get("%s %s" % (kind, name))) is not None:
                self.bins[plot][bin_of(number)] += 1
        if kind == "undecided":
            machine = line.partition(" ")[0]
            bisect.insort(self.smallest, (math.prod(size_of(machine)), machine))
            del self.smallest[self._most :]


def bin_of(number: int) -> int:
    """The bar that has a number: one for each number up to 10, then ten for each power of ten."""
    return number if number <= 10 else math.floor(10 * math.log10(number))


def start_of(place: int) -> float:
    """The start of a bar: half a number below a small one."""
    return place - 0.5 if place <= 10 else 10 ** (place / 10)


def _import_matplotlib() -> tuple[Any, Any, Any]:
    try:
        from matplotlib import rc_context
        from matplotlib.figure import Figure
        from matplotlib.ticker import MaxNLocator
    except ImportError as error:
        how = "pip install matplotlib, or on Debian apt install python3-matplotlib"
        raise ReportError(f"a report needs matplotlib ({error}): {how}") from None
    return rc_context, Figure, MaxNLocator


def plot(counts: collections.Counter[int], name: str) -> str:
    rc_context, figure_of, locator_of = _import_matplotlib()
    with rc_context({"svg.hashsalt": name, "svg.fonttype": "none", "font.size": 9, "text.color": _INK}):
        figure = figure_of(figsize=(4.6, 2.4), layout="constrained")
        axes = figure.subplots()
        places = sorted(counts)
        starts, ends = list(map(start_of, places)), [start_of(place + 1) for place in places]
        heights = [counts[place] for place in places]
        widths = [0.9 * (end - start) for start, end in zip(starts, ends)]
        lefts = [start + width / 18 for start, width in zip(starts, widths)]
        axes.bar(lefts, heights, widths, align="edge", color=_BAR)
        axes.set_yscale("log")
        axes.set_ylim(bottom=0.7)
        if max(counts) > 10:
            axes.set_xscale("symlog", linthresh=10, linscale=1)
        else:
            axes.xaxis.set_major_locator(locator_of(integer=True, min_n_ticks=1))
        axes.set_xlim(starts[0] if max(counts) <= 10 else -0.5, ends[-1])
        axes.set_xlabel(name)
        axes.set_ylabel("machines")
        # Everything but the bars has the colour of the page's text.
        axes.tick_params(which="both", colors=_INK)
        for label in (axes.xaxis.label, axes.yaxis.label):
            label.set_color(_INK)
        for side, spine in axes.spines.items():
            spine.set_color(_INK)
            spine.set_visible(side in ("left", "bottom"))
        file = io.StringIO()
        figure.savefig(file, format="svg", transparent=True, metadata={"Date": None, "Creator": None})
    text = file.getvalue()
    text = re.sub("<metadata>.*?</metadata>", "", text[text.index("<svg") :], flags=re.DOTALL)
    text = text.replace(_INK, "var(--ink)").replace(_BAR, "var(--bar)")
    return text.replace("<svg ", '<svg role="img" aria-label="Distribution of %s" ' % html.escape(name), 1)


# The powers of the steps between which a growth is called a root.
_ROOT = (0.2, 0.8)


class Growth(Words):
    """The growth of the cells that a run visits; `HALTS` if it ended."""

    STAYS = "stays"
    LOGARITHM = "logarithm"
    ROOT = "root"
    LINE = "line"
    HALTS = "halts"


@dataclasses.dataclass(frozen=True)
class GrowthSamples:
    """The cells that a run has visited after a hundredth of `steps`, a tenth, and all, and their growth. `steps`
    are fewer than asked for if the cells ended the run, or the machine halted."""

    steps: int
    visited: tuple[int, int, int]
    growth: Growth


def classify_growth(visited: tuple[int, int, int]) -> Growth:
    """The growth of these counts, each at ten times the steps of the one before."""
    first, second, third = visited
    if second == third:
        return Growth.STAYS
    power = math.log10(third / first) / 2
    if power < _ROOT[0]:
        return Growth.LOGARITHM
    return Growth.ROOT if power < _ROOT[1] else Growth.LINE


def _last_step(machine: str, steps: int, cells: int) -> int:
    """The last step up to `steps` that the cells allow, and at most the one that halts."""
    last, apart = 0, steps
    while apart > 1:
        apart = max(apart // 100, 1)
        last = max((now.step for now in trace(machine, steps, cells, last, apart)), default=last)
    return last


def measure_growth(machine: str, steps: int, cells: int = 65_536) -> GrowthSamples:
    """The growth of the cells that a machine visits, sampled after `steps` / 100, / 10, and all.

    It stays if a tenth of the steps and all have the same cells. Otherwise the power of the steps from the first
    sample to the last decides: below 0.2 a logarithm, below 0.8 a root, else a line. If the cells end the run,
    or the machine halts, the steps are those that were made. Raises LimitsError for fewer than 100 steps.

    >>> measure_growth("1RA1RA", steps=10_000).growth
    <Growth.LINE: 'line'>
    """
    in_range("steps", steps, 100, Limits.RANGES["steps"][1])
    run = trace(machine, steps, cells, steps)
    state = next((now.state for now in run), "Z")
    if state == "Z":
        steps = _last_step(machine, steps, cells)
    first, second, last = (
        len(now.cells) for at in (steps // 100, steps // 10, steps) for now in trace(machine, at, cells, at)
    )
    if state == "Z" and not run.cut:
        return GrowthSamples(steps, (first, second, last), Growth.HALTS)
    if steps < 100:
        return GrowthSamples(steps, (last, last, last), Growth.LINE)
    return GrowthSamples(steps, (first, second, last), classify_growth((first, second, last)))


@dataclasses.dataclass(frozen=True)
class MachineDiagram:
    """An undecided machine of the report, and its diagram, a PNG file."""

    machine: str
    growth: GrowthSamples
    png: bytes


def trace_all(machines: Sequence[str], steps: int, cells: int, threads: int) -> list[MachineDiagram]:
    def trace_machine(machine: str) -> MachineDiagram:
        rows, _ = sample_rows(machine, steps, cells, SIZE)
        first, last, _ = visible_range(rows, None, None, None)
        # A wide diagram has mean colours of positions.
        png = draw_rows(rows, first, last, -(-(last - first + 1) // SIZE), 1)
        return MachineDiagram(machine, measure_growth(machine, steps, cells), png)

    return [found for _, found in map_in_order(trace_machine, machines, threads, BatchPace(1))]


def _counts(found: Statistics) -> Iterator[str]:
    total = sum(found.kinds.values())
    for name in KINDS:
        count = found.kinds[name]
        share = 100 * count / total if total else 0
        bar = f'<td class="share"><span style="width:{share:.2f}%"></span></td>'
        yield f'<tr><th scope="row">{name}</th><td>{count:,}</td><td>{share:.2f} %</td>{bar}</tr>'
    yield f'<tr class="all"><th scope="row">all</th><td>{total:,}</td><td></td><td></td></tr>'


def _longest(found: Statistics) -> Iterator[str]:
    for kind in ("halt", "cycler", "translated"):
        runs = sorted(found.longest.get(kind, []), key=lambda run: (-run[0], run[1]))
        if runs:
            lines = "\n".join(html.escape(line) for _, line in runs)
            yield "<h3>%s</h3><pre>%s</pre>" % (kind, lines)


def _card(one: MachineDiagram) -> str:
    machine, data = html.escape(one.machine), base64.b64encode(one.png).decode()
    image = f'<img loading="lazy" alt="Space-time diagram of {machine}" src="data:image/png;base64,{data}">'
    caption = f"<code>{machine}</code><br>{one.growth.visited[-1]:,} cells, last step {one.growth.steps:,}"
    return f'<figure class="card">{image}<figcaption>{caption}</figcaption></figure>'


def _groups(machines: Sequence[MachineDiagram]) -> Iterator[str]:
    """The diagrams by growth; in each group small machines first, then those of few cells."""
    for kind in Growth:
        group = [one for one in machines if one.growth.growth is kind]
        group.sort(key=lambda one: (math.prod(size_of(one.machine)), one.growth.visited[-1], one.machine))
        if group:
            cards, title = "".join(map(_card, group)), _GROWTHS.get(kind, f"Cells grow as a {kind}")
            yield f'<h3>{title}: {len(group):,}</h3><div class="cards">{cards}</div>'


_DIAGRAMS = (
    "A row is a step, from the top down; a column is a position. The head is red. In a diagram of many"
    " positions, a pixel has the mean colour of several, and the head isn't shown. The growth of the cells is"
    " estimated from three samples of the run."
)
_GROWTHS = {Growth.STAYS: "Cells stay", Growth.HALTS: "The run ends"}


def _page(found: Statistics, machines: Sequence[MachineDiagram], title: str) -> str:
    undecided = "No machine is left undecided."
    if found.count_undecided():
        undecided = f"{len(machines):,} of {found.count_undecided():,} undecided machines are shown."
        undecided += " " + _DIAGRAMS if machines else ""
    plots = ("<figure>%s</figure>" % plot(found.bins[name], name) for name in _PLOTS if found.bins[name])
    return string.Template(_PAGE.read_text(encoding="utf-8")).substitute(
        title=html.escape(title),
        counts="".join(_counts(found)),
        plots="".join(plots) or "<p>No verdict has numbers.</p>",
        longest="".join(_longest(found)) or "<p>No run is known.</p>",
        left=undecided,
        diagrams="".join(_groups(machines)),
    )


def report(
    verdicts: Iterable[str | Verdict],
    path: str | os.PathLike[str],
    *,
    diagrams: int = 100,
    steps: int = 1_000_000,
    cells: int = 65_536,
    threads: int | None = None,
    title: str = "Verdicts",
) -> Report:
    """Writes one HTML file on a list of verdicts or verdict lines: counts, distributions, the longest runs, and
    space-time diagrams of at most `diagrams` undecided machines, smallest first, grouped by the growth of their
    cells.

    An undecided machine is run again, up to `steps` and `cells`, on `threads` (default: all cores). The list is
    read once and not held. The file at `path` is replaced atomically. A notebook shows the result.

    Raises ReportError without matplotlib, before anything is read; ValueError with its place for a text that is
    no verdict line; OSError if the file can't be written, is a link or folder, or is made meanwhile.
    """
    in_range("diagrams", diagrams, 0, 1_000_000)
    in_range("steps", steps, 100, Limits.RANGES["steps"][1])
    in_range("cells", cells, *Limits.RANGES["cells"])
    _import_matplotlib()
    with open_target(os.fspath(path)) as target:
        found = Statistics(verdicts, diagrams)
        machines = [machine for _, machine in found.smallest]
        page = _page(found, trace_all(machines, steps, cells, threads or os.cpu_count() or 1), title)
        target.write([page.encode("utf-8")])
    return Report(os.fspath(path), title, page)
