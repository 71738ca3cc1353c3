"""`tools/complete_lists` over small sizes, beside the program over each list in one piece; its document."""

import collections
import hashlib
import json
import os
import pathlib
import re
import runpy
import signal
import subprocess
import sys
import time
from typing import Any

import pytest
from budlarem.counts import VerdictCounts
from budlarem.verdicts import size_of
from support import TOP, ListMachines, restore_signals
from support.machines import entries_of
from support.program import as_lines, options_of_pass, replies, run_command
from support.recurrences import reply_to_pair
from support.runs import wait_until
from support.shards import counts_in

sys.path.insert(0, str(TOP))

from tools.complete_lists_page import NO_RECURRENCES, PAGE, QUASIHALTS, RESULTS, estimate, fill  # noqa: E402

SCRIPT = str(TOP / "tools" / "complete_lists")
WRITTEN: dict[str, Any] = json.loads(RESULTS.read_text(encoding="utf-8"))
# Machines in tree normal form, as bbchallenge.org counts them for two symbols; the most steps of known machines.
MACHINES = {"2x2": 61, "3x2": 5_417, "4x2": 858_909, "5x2": 181_385_789}
KNOWN_STEPS = {"2x2": 6, "3x2": 21, "4x2": 107, "2x3": 38, "2x4": 3_932_964}
# Halts of five states that Coq-BB5 counts, and those within 20,000 steps that it leaves to its other deciders.
HALTS, LATER_HALTS = 48_379_711, 117
pytestmark = pytest.mark.usefixtures("bb", "cover", "library", "lister")


def start(out: pathlib.Path, *words: str) -> subprocess.Popen[bytes]:
    how: dict[str, Any] = {"stdout": subprocess.PIPE, "stderr": subprocess.PIPE, "start_new_session": True}
    return subprocess.Popen([SCRIPT, "--out", str(out), *words], preexec_fn=restore_signals, **how)


def require_end(process: subprocess.Popen[bytes], status: int = 0, sentence: str = "") -> str:
    """Requires a process to end with this status and a sentence on standard error; what it printed."""
    output, error = (text.decode() for text in process.communicate(timeout=600))
    assert process.returncode == status and sentence in error and "Traceback" not in error, error
    return output


def words_of(size: str) -> list[str]:
    states, symbols = size.split("x")
    return ["--states", states, "--symbols", symbols, "--threads", "2"]


def result_in(out: pathlib.Path, size: str) -> dict[str, Any]:
    found: dict[str, Any] = json.loads((out / size / "result.json").read_text())
    return found


@pytest.mark.parametrize("size", ["2x2", "2x3", "3x2", pytest.param("4x2", marks=pytest.mark.slow)])
def test_result_is_that_of_the_list_in_one_piece(
    bb: str, cover: str, list_machines: ListMachines, tmp_path: pathlib.Path, size: str
) -> None:
    require_end(start(tmp_path, *words_of(size)))
    found, (states, symbols) = result_in(tmp_path, size), size.split("x")
    machines = list_machines(int(states), "--symbols", symbols, "--steps", "1000")
    lines = replies([bb, "decide", *options_of_pass(found["passes"][0]["limits"])], machines)
    covered = run_command([cover], as_lines(lines)).output.decode().rstrip()
    assert counts_in(found["cover"]) == counts_in(covered)
    digests = [hashlib.sha256(as_lines(each)).hexdigest() for each in (machines, lines)]
    assert [found["sha256"][name] for name in ("list", "verdicts")] == digests
    holdouts = [line.split(" ")[0] for line in lines if " undecided " in line]
    for one in found["passes"][1:]:
        later = replies([bb, "decide", *options_of_pass(one["limits"])], holdouts)
        assert one["lines"] == len(holdouts)
        lines += [line for line in later if " undecided " not in line]
        holdouts = [line.split(" ")[0] for line in later if " undecided " in line]
    written = (tmp_path / size / "holdouts.txt").read_bytes()
    assert (written, found["holdouts"]) == (as_lines(holdouts), len(holdouts))
    assert found["sha256"]["holdouts"] == hashlib.sha256(written).hexdigest()
    kinds = collections.Counter(line.split(" ")[1] for line in lines if " undecided " not in line)
    assert {kind: found["counts"][kind] for kind in kinds} == kinds
    require_recurrences(found["recurrences"], lines)
    if size == "4x2":
        return
    filled = [machine for line in lines if " halt " in line for machine in completions_of(line.split(" ")[0])]
    completed = found["recurrences"]["completions"]
    limits = [*options_of_pass(completed["passes"][-1]), "--no-backward"]
    lines = replies([bb, "decide", *limits], filled)
    require_recurrences(completed, lines)
    holdouts = [line.split(" ")[0] for line in lines if " undecided " in line]
    assert (completed["lines"], completed["undecided"]) == (len(filled), len(holdouts))
    assert sorted((tmp_path / size / "completions.txt").read_text().splitlines()) == sorted(holdouts)


def require_recurrences(found: dict[str, Any], lines: list[str]) -> None:
    """Requires the counts and greatest numbers to be those of a brute force over each pair of these lines."""
    recurrences = [reply_to_pair(line) for line in lines if line.split(" ")[1] in ("cycler", "translated")]
    quasihalts = [reply for reply in recurrences if " quasihalts " in reply]
    kinds = {kind: found["counts"][kind] for kind in ("recurs", "quasihalts")}
    assert kinds == {"recurs": len(recurrences), "quasihalts": len(quasihalts)}
    for place, name in ((2, "start"), (3, "period"), (4, "shift"), (-1, "quasihalts")):
        most, line = found["greatest"][name]
        those = quasihalts if place < 0 else recurrences
        assert most == max(abs(int(reply.split(" ")[place])) for reply in those)
        assert line in those and most == abs(int(line.split(" ")[place]))


def completions_of(machine: str) -> list[str]:
    """The machines that fill the only `---` with an entry into a state."""
    entries = [one for one in entries_of(*size_of(machine)) if one[2] not in "-Z"]
    return [machine.replace("---", one) for one in entries] if machine.count("---") == 1 else []


def test_known_quasihalting_steps_come_out(tmp_path: pathlib.Path) -> None:
    """The page names them, with the lines of the run; that of another run says that it has none."""
    found: dict[str, Any] = {**WRITTEN, "sizes": {}}
    for size in ("2x2", "2x3"):
        require_end(start(tmp_path, *words_of(size)))
        found["sizes"][size] = result_in(tmp_path, size)
    page = fill(PAGE.read_text(encoding="utf-8"), found)
    assert "| 2x2 | 6 | the same | `1RB0LB_0LB1LA recurs 6 1 -1 5 * quasihalts 6` |\n" in page
    assert "| 2x3 | 59 | the same | `1RB2LB1LA_2LB2RA0RA recurs 59 1 -1 58 * quasihalts 59` |\n" in page
    assert "| 2x2, completed | 88 | 82 | 7 | 9 | 9 | 3 | 6 |\n" in page
    assert "| 2x2 | Cells of a shift | 2 | `0RB---_0RA--- recurs 0 2 2 * *` |\n" in page
    assert NO_RECURRENCES not in page
    for one in found["sizes"].values():
        del one["recurrences"]
    assert fill(page, found).count(NO_RECURRENCES) == 3


def test_halts_behind_which_the_list_would_go_on(tmp_path: pathlib.Path) -> None:
    """A machine that a later pass finds to halt on one of several `---` stays a holdout."""
    lines = ["1RB---_------ halt 5000 3", "1RB1LA_1LA--- halt 7000 4", "1RB---_1LA--- undecided steps"]
    (tmp_path / "verdicts.txt").write_bytes(as_lines([*lines, "1RB---_1RA--- cycler 1 2"]))
    counts = VerdictCounts()
    found = runpy.run_path(SCRIPT)["Holdouts"](tmp_path / "verdicts.txt", counts)
    assert b"".join(found.machines()) == b"1RB---_------\n1RB---_1LA---\n"
    assert (found.count, found.wide, found.late) == (2, 2, 1)
    assert (counts.kinds["halt"], counts.kinds["undecided steps"]) == (2, 1)
    assert counts.greatest["halt steps"] == (7000, lines[1])


def test_sample(
    bb: str, cover: str, list_machines: ListMachines, tmp_path: pathlib.Path, monkeypatch: pytest.MonkeyPatch
) -> None:
    """Its first shards and its part have the lines of the list, and the estimate is of all parts."""
    names = runpy.run_path(SCRIPT)
    monkeypatch.setenv(
        "PATH", "%s:%s:%s" % (os.path.dirname(bb), os.path.dirname(cover), TOP / "tools" / "out")
    )
    names["PARTS"]["3x2"] = 3
    found = names["sample"](names["Size"]("3x2", tmp_path, 1), 1_000)
    part = list_machines(3, "--steps", "1000", "--part", "1/3")
    assert sum(found["part"]["counts"].values()) == len(part)
    items = list_machines(3, "--steps", "1000", "--shards", "4")
    roots = [item.split(" ")[0] for item in items if item.endswith(" below")]
    sizes = [len(list_machines(3, "--steps", "1000", "--below", root)) for root in roots]
    first = found["first"]
    assert first["lines"] == sum(sizes[: first["shards"]]) >= 1_000
    assert sum(sizes[: first["shards"] - 2]) < 1_000 and first["of"] == len(roots)
    assert estimate(found, WRITTEN["sizes"])["All lines"] == "%.1f × 10^3" % (3 * len(part) / 1_000)


def finished_shards(folder: pathlib.Path) -> dict[str, int]:
    """Return the names of the shards that are finished, each with the time of its file in nanoseconds."""
    files = (path for path in folder.glob("1*") if not path.suffix)
    return {path.name: path.stat().st_mtime_ns for path in files}


def test_interruption(tmp_path: pathlib.Path) -> None:
    """It is ended by a signal after some shards, with all that it runs; the same command resumes it."""
    words = words_of("3x2")
    process, shards = start(tmp_path, *words), tmp_path / "3x2" / "walk" / "shards"
    wait_until(process, lambda: len(finished_shards(shards)) >= 5)
    os.kill(process.pid, signal.SIGINT)
    require_end(process, 130, "resumes")
    finished = finished_shards(shards)
    # Nothing that it ran is left.
    with pytest.raises(ProcessLookupError):
        for _ in range(50):
            os.killpg(process.pid, 0)
            time.sleep(0.1)
    require_end(start(tmp_path, *words))
    assert result_in(tmp_path, "3x2")["lines"] == MACHINES["3x2"]
    assert len(finished) >= 5
    assert finished == {name: (shards / name).stat().st_mtime_ns for name in finished}


def test_holdouts_are_those_of_the_document(tmp_path: pathlib.Path) -> None:
    output = require_end(start(tmp_path, "--holdouts", "2x3", "--threads", "2"))
    path = tmp_path / "2x3" / "holdouts.txt"
    assert output == "%s  %s\n" % (WRITTEN["sizes"]["2x3"]["sha256"]["holdouts"], path)
    assert output.split()[0] == hashlib.sha256(path.read_bytes()).hexdigest()
    programs = tmp_path / "programs.json"
    programs.write_text(programs.read_text().replace('"commit": "', '"commit": "0'))
    require_end(start(tmp_path, *words_of("2x2")), 2, "was begun with other programs")


def test_holdouts_and_results_that_were_changed(tmp_path: pathlib.Path) -> None:
    words = ["--holdouts", "2x2", "--threads", "2"]
    require_end(start(tmp_path, *words))
    result, holdouts = tmp_path / "2x2" / "result.json", tmp_path / "2x2" / "holdouts.txt"
    holdouts.write_bytes(holdouts.read_bytes() + b"1RA1RA\n")
    output = require_end(start(tmp_path, *words), 1, "result.json has other holdouts, of sha256 ")
    assert output == "%s  %s\n" % (hashlib.sha256(holdouts.read_bytes()).hexdigest(), holdouts)
    text = result.read_text()
    changed = [text[: len(text) // 2], "null", "[" * 100_000, "{}"]
    changed += [text.replace('"lines": ', '"lines": Infinity, "a": ')]
    cases = [("result", one) for one in (*changed, json.dumps({**json.loads(text), "sha256": None}))]
    cases += [("recurrences", "{}"), ("seconds", '{"walk": null}'), ("digests", "[")]
    for name, one in cases:
        path = tmp_path / "2x2" / (name + ".json")
        before = path.read_text()
        result.unlink()
        path.write_text(one)
        process = start(tmp_path, *words)
        error = process.communicate(timeout=600)[1].decode()
        assert process.returncode == 2 and " was cut or changed: " in error.splitlines()[-1], error
        assert "Traceback" not in error and (name != "result" or error.count("\n") == 1), error
        path.write_text(before)
        result.write_text(text)


def test_refusals(tmp_path: pathlib.Path) -> None:
    for words, sentence in (
        (["--states", "6"], "6x2 is none of the sizes 2x2, "),
        (["--symbols", "3"], "--symbols goes with --states"),
        (["--states", "2", "--page"], "--states and --page don't go together"),
        (["--threads", "0"], "--threads is 0, but must be 1 or more"),
        (["--page"], "has no summary of all sizes"),
    ):
        require_end(start(tmp_path / "none", *words), 2, sentence)
        assert not (tmp_path / "none").exists()


def test_document_has_the_figures_of_the_run() -> None:
    page = PAGE.read_text(encoding="utf-8")
    assert fill(page, WRITTEN) == page
    with pytest.raises(ValueError, match="0 places for the table counts"):
        fill(page.replace("<!-- counts -->", ""), WRITTEN)


def test_columns_of_the_counts_add_up() -> None:
    """A line has one kind or is a holdout; those that are both have a column."""
    table = PAGE.read_text(encoding="utf-8").partition("<!-- counts -->\n")[2].partition("<!-- end -->")[0]
    rows = [[cell.strip() for cell in row.split("|")[1:-1]] for row in table.splitlines()[2:]]
    for _, *cells, _ in rows:
        lines, *kinds, both = (int(cell.replace(",", "")) for cell in cells)
        assert lines == sum(kinds) - both, cells
    assert len(rows) == len(WRITTEN["sizes"])


def test_later_records_are_those_of_the_programs(bb: str, recurrence: str) -> None:
    """They are undecided at the limits of the table, and greater than its numbers."""
    page = PAGE.read_text(encoding="utf-8")
    block = page.partition("\n### Later records\n")[2].partition("\n## ")[0]
    lines = re.findall("^    (.* recurs .*)$", block, flags=re.M)
    machines = as_lines([line.split(" ")[0] for line in lines])
    completed = WRITTEN["sizes"]["4x2"]["recurrences"]["completions"]
    few, many = (
        run_command([bb, "decide", "--no-backward", *options_of_pass(limits)], machines).output
        for limits in (completed["passes"][-1], "steps=2000000,cells=65536")
    )
    assert few.count(b" undecided ") == len(lines) == 2
    limits = ["--steps", "2000000", "--cells", "65536"]
    assert run_command([recurrence, *limits], many).output == as_lines(lines)
    for place, name, line in zip((2, 3), ("start", "period"), lines):
        assert int(line.split(" ")[place]) > completed["greatest"][name][0]


def test_figures_agree_with_published_ones() -> None:
    sizes = WRITTEN["sizes"]
    lines = {size: one["lines"] for size, one in sizes.items() if size in MACHINES}
    assert lines == {size: MACHINES[size] for size in lines} and lines
    steps = {size: one["greatest"]["halt steps"][0] + 1 for size, one in sizes.items() if size in KNOWN_STEPS}
    assert steps == {size: KNOWN_STEPS[size] for size in steps} and steps
    for size, known in QUASIHALTS.items():
        more = sizes[size].get("recurrences", {})
        given = [line for _, line in more.get("completions", more).get("greatest", {}).values()]
        given += more.get("known", {}).get("lines", [])
        assert not more or max(int(line.split(" ")[-1]) for line in given if "quasi" in line) == known, size
    if "5x2" in sizes:
        assert sizes["5x2"]["counts"]["halt"] == HALTS + LATER_HALTS
