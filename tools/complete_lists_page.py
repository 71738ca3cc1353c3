"""The tables of docs/complete-lists.md, from docs/complete-lists.json."""

from __future__ import annotations

import itertools
import json
import pathlib
import re
from typing import Any, Callable, Iterator, Sequence

DOCS = pathlib.Path(__file__).resolve().parents[1] / "docs"
PAGE, RESULTS = DOCS / "complete-lists.md", DOCS / "complete-lists.json"
KINDS = ("halt", "cycler", "translated", "backward")
GREATEST = {"halt steps": "Steps of a halt", "halt score": "Score of a halt"}
RECURRENCES = {
    "start": "Start",
    "period": "Period",
    "shift": "Cells of a shift",
    "quasihalts": "Steps before a quasihalt",
}
# The greatest known number of steps after which a machine of a size quasihalts.
QUASIHALTS = {"2x2": 6, "3x2": 55, "2x3": 59, "4x2": 32_779_478}
NO_RECURRENCES = "This run has no recurrences: it was made before `tools/complete_lists` counted them."
Fields = dict[str, Any]
# The head of a table and its rows.
Rows = Iterator[Sequence[object]]


def number(value: float) -> str:
    return "{:,}".format(value) if isinstance(value, int) else "{:,.0f}".format(value)


def row(cells: Sequence[object]) -> str:
    texts = (number(cell) if isinstance(cell, (int, float)) else str(cell) for cell in cells)
    return "| %s |" % " | ".join(texts)


def table(rows: Rows) -> Iterator[str]:
    """The lines of a table, or of the sentence in place of one without a head."""
    head = next(rows, None)
    yield NO_RECURRENCES if head is None else row(head)
    if head is not None:
        yield "|%s" % ("---|" * len(head))
        yield from map(row, rows)


def run_of(found: Fields) -> Iterator[str]:
    """The sentences on the run."""
    seconds = sum(step["clock"] for one in found["sizes"].values() for step in one["seconds"].values())
    lines = sum(one["lines"] for one in found["sizes"].values())
    text = "The run of commit `{}` with the {} programs did {:,} lines in {:.1f} minutes, with {} threads."
    yield text.format(found["commit"], found["build"], lines, seconds / 60, found["threads"])


def counts_of(found: Fields) -> Rows:
    yield "Size", "Lines", *("`%s`" % kind for kind in KINDS), "Holdouts", "Of these in `halt`", "Share"
    for name, one in found["sizes"].items():
        counts, share = [one["counts"][kind] for kind in KINDS], 100 * one["holdouts"] / one["lines"]
        yield name, one["lines"], *counts, one["holdouts"], one["late"], "%.2f %%" % share


def passes_of(found: Fields) -> Rows:
    yield "Size", "Limits", "Machines", "Left"
    for name, one in found["sizes"].items():
        for each in one["passes"]:
            left = each["counts"]["undecided steps"] + each["counts"]["undecided cells"]
            yield name, "`%s`" % each["limits"], each["lines"], left


def holdouts_of(found: Fields) -> Rows:
    yield "Size", "Holdouts with several `---`"
    yield from ((name, one["wide"]) for name, one in found["sizes"].items())


def greatest_in(lists: Fields, titles: dict[str, str]) -> Rows:
    """The greatest numbers of some lists, each with its line."""
    if lists:
        yield "Size", "", "", "Line"
    for name, one in lists.items():
        found = [(titles[key], *one["greatest"][key]) for key in titles if key in one["greatest"]]
        yield from ((name, words, most, "`%s`" % line) for words, most, line in found)


def recurrences_in(found: Fields) -> Fields:
    """The recurrences of each size's list, and of its completions, by name."""
    lists: Fields = {}
    for name, one in found["sizes"].items():
        if "recurrences" in one:
            lists[name] = {"lines": one["lines"], **one["recurrences"]}
            if "completions" in one["recurrences"]:
                lists[name + ", completed"] = one["recurrences"]["completions"]
    return lists


def recurrences_of(found: Fields) -> Rows:
    lists = recurrences_in(found)
    if lists:
        most = map("Greatest {}".format, ("start", "period", "shift", "quasihalt"))
        yield "Size", "Machines", "Recur", "Quasihalt", *most
    for name, one in lists.items():
        greatest = [one["greatest"].get(key, (0, ""))[0] for key in RECURRENCES]
        yield name, one["lines"], one["counts"]["recurs"], one["counts"]["quasihalts"], *greatest


def quasihalts_of(found: Fields) -> Rows:
    """The known quasihalting steps beside those of the run, with their lines."""
    lists = recurrences_in(found)
    if lists:
        yield "Size", "Known", "Here", "Line"
    for name, most in QUASIHALTS.items():
        own = [lists[each] for each in (name, name + ", completed") if each in lists]
        lines = [one["greatest"]["quasihalts"] for one in own]
        for one in own:
            lines += [(int(line.split()[-1]), line) for line in one.get("known", {}).get("lines", ())]
        if own:
            here = next((line for number, line in lines if number == most), None)
            yield name, most, "the same" if here else "not found", "`%s`" % here if here else ""


def times_of(found: Fields) -> Rows:
    titles = {"walk": "First pass", "later": "Later passes", "recurrences": "Recurrences of these"}
    some = any("recurrences" in one["seconds"] for one in found["sizes"].values())
    steps = [step for step in titles if some or step != "recurrences"]
    names = [(titles[step], "%s core time" % ("Its" if step == "walk" else "Their")) for step in steps]
    yield "Size", *itertools.chain(*names), "Core time of a machine"
    for name, one in found["sizes"].items():
        seconds = [one["seconds"].get(step, {}) for step in steps]
        times = ["%.1f s" % each.get(kind, 0) for each in seconds for kind in ("clock", "cores")]
        lines = one["passes"][1]["lines"]
        yield name, *times, "%.2f ms" % (1_000 * one["seconds"]["later"]["cores"] / lines) if lines else "-"


def covers_of(found: Fields) -> Iterator[str]:
    yield from ("", *("    " + one["cover"] for one in found["sizes"].values()), "")


def digests_of(found: Fields) -> Iterator[str]:
    rows = ((name, *pair) for name, one in found["sizes"].items() for pair in one["sha256"].items())
    yield from ("", *("    %s  %s %s" % (sha256, name, what) for name, what, sha256 in rows), "")


def larger_of(found: Fields) -> Rows:
    """What larger sizes take, by their samples and the rates of the sizes done."""
    sizes = {name: estimate(one, found["sizes"]) for name, one in found["samples"].items()}
    yield "", *sizes
    for what in next(iter(sizes.values()), ()):
        yield what, *(each[what] for each in sizes.values())


def estimate(sample: Fields, sizes: Fields) -> dict[str, str]:
    """The figures of a sample, and the estimates for its size."""
    first, part = sample["first"], sample["part"]
    listed, decided = sum(part["counts"].values()), first["lines"]
    rate, left = decided / first["seconds"]["cores"], part["counts"]["undecided steps"] / listed
    total = listed * part["parts"]
    # The second pass of the size with the most undecided machines that has no third one.
    later = [one for one in sizes.values() if len(one["passes"]) == 2]
    most, seconds = max((one["passes"][1]["lines"], one["seconds"]["later"]["cores"]) for one in later)
    each = seconds / most
    skeleton = first["skeleton_bytes"] / first["shards"] * first["of"]
    return {
        "Lines of the sample's shards": number(decided),
        "Shards of the sample, of all": "%s of %s" % (number(first["shards"]), number(first["of"])),
        "Lines a second and core": number(rate),
        "Lines of the part": "%s, 1 of %s parts" % (number(listed), number(part["parts"])),
        "Bytes a verdict line": "%.1f" % (part["bytes"] / listed),
        "Undecided, first pass": "%.2f %%" % (100 * left),
        "All lines": power(total),
        "First pass": "%s core hours" % number(total / rate / 3_600),
        "Second pass": "%s core hours" % number(total * left * each / 3_600),
        "Bytes of all verdicts": power(total * part["bytes"] / listed),
        "Bytes of the undecided lines": power(total * left * part["bytes"] / listed),
        "Bytes of the skeleton": power(skeleton),
        "Lines of a shard, on average": number(total / first["of"]),
    }


def power(value: float) -> str:
    """A number to two digits, as `6.4 × 10^10`."""
    digits, exponent = ("%.1e" % value).split("e")
    return "%s × 10^%d" % (digits, int(exponent))


WORDS = (run_of, covers_of, digests_of)
TABLES: dict[str, Callable[[Fields], Iterator[Any]]] = {
    **{of.__name__[:-3]: of for of in (*WORDS, counts_of, passes_of, holdouts_of, recurrences_of, times_of)},
    "greatest": lambda found: greatest_in(found["sizes"], GREATEST),
    "recurrence lines": lambda found: greatest_in(recurrences_in(found), RECURRENCES),
    "quasihalts": quasihalts_of,
    "larger": larger_of,
}


def fill(page: str, found: Fields) -> str:
    """The page with its tables filled. Raises ValueError if it has no place for one."""
    for name, made in TABLES.items():
        lines = made(found) if made in WORDS else table(made(found))
        text = "".join(line + "\n" for line in lines)
        place = re.compile(r"(<!-- %s -->\n)(?:(?!<!--).)*(<!-- end -->)" % name, re.S)
        page, count = place.subn(lambda match: match[1] + text + match[2], page)
        if count != 1:
            raise ValueError("%s has %d places for the table %s, but needs one" % (PAGE, count, name))
    return page


def write_page(found: Fields) -> None:
    """Writes the results and the page. Raises OSError, ValueError."""
    page = fill(PAGE.read_text(encoding="utf-8"), found)
    RESULTS.write_text(json.dumps(found, indent=1) + "\n", encoding="utf-8")
    PAGE.write_text(page, encoding="utf-8")
