"""Lists of machines in tree normal form, against their definition and their known lengths.

Of two symbols there are 3, 61, 5,417, 858,909 and 181,385,789 machines of one to five states, as
bbchallenge.org counts four and five.
"""

from __future__ import annotations

import itertools
import os
import pathlib
import shutil
import subprocess
from typing import Iterator

import pytest
from support import TOP, ListMachines, require
from support.machines import LETTERS, join_groups
from support.program import as_lines, run_command
from support.simulation import find_undefined

COUNTS = {1: 3, 2: 61, 3: 5_417, 4: 858_909}
FIVE_STATES = 181_385_789
LONGEST = {1: "------", 2: "1RB1LB_1LA---", 3: "1RB---_1LB0RC_1LC1LA", 4: "1RB1LB_1LA0LC_---1LD_1RD0RA"}
REFUSED = {
    "--line 1RB---_------ --every 2": "--line goes with --steps alone",
    "--line 1RZ---": "--line is 1RZ---, but must be a machine without Z",
    "": "--states isn't given",
    "--states": "--states has no value",
    "--states 0": "--states is 0, but must be a whole number from 1 to 25",
    **{"--states " + number: "--states is %s, but must be" % number for number in ("26", "+4")},
    "--states 4 --symbols 1": "--symbols is 1, but must be a whole number from 2 to 10",
    "--states 4 --steps many": "--steps is many, but must be",
    "--states 4 --every 0": "--every is 0, but must be",
    **{"--states 4 --part " + part: "--part is %s, but must be K/N" % part for part in ("5/4", "0/4", "4")},
    "--below 1RB": "--below is 1RB, but must be a machine without Z",
    "--below 1RB1LB_1LA1RZ": "--below is 1RB1LB_1LA1RZ, but must be a machine without Z",
    "--below ------ --states 2": "--states isn't the size of --below's machine",
    "--below ------ --part 1/2": "--part doesn't go with --below or --shards",
    "--states 2 --every 2 --shards 1": "--every doesn't go with --below or --shards",
    "--states 2 --shards 0": "--shards is 0, but must be a whole number from 1 to 256",
    "--states=4 --fast": "--fast is no option",
    "4": "4 is no option",
}


def machines_by_definition(entries: list[str], symbols: int, steps: int) -> Iterator[str]:
    """Yield a machine and those that it leads to, by the rules alone: each is run from its first step on."""
    text = join_groups(entries, symbols)
    yield text
    met = find_undefined(text, steps)
    defined = [entry for entry in entries if entry != "---"]
    if met is None or len(defined) == len(entries) - 1:
        return
    states = LETTERS[: max([2, *(LETTERS.index(entry[2]) + 2 for entry in defined)])]
    written = range(max([2, *(int(entry[0]) + 2 for entry in defined)]))[:symbols]
    for write, move, state in itertools.product(written, "RL" if defined else "R", states):
        if LETTERS.index(state) < len(entries) // symbols:
            filled = [*entries[:met], "%d%s%s" % (write, move, state), *entries[met + 1 :]]
            yield from machines_by_definition(filled, symbols, steps)


@pytest.mark.parametrize(
    "states, symbols, steps",
    [
        *[(1, 2, 200), (2, 2, 200), (3, 2, 200), (3, 2, 0), (3, 2, 7), (2, 3, 200), (1, 10, 50)],
        pytest.param(4, 2, 200, marks=pytest.mark.slow),
    ],
)
def test_list_follows_from_definition(
    list_machines: ListMachines, states: int, symbols: int, steps: int
) -> None:
    expected = list(machines_by_definition(["---"] * states * symbols, symbols, steps))
    assert list_machines(states, "--symbols", str(symbols), "--steps", str(steps)) == expected
    print("%d lines compared" % len(expected))


@pytest.mark.parametrize("states", COUNTS)
def test_list_has_its_known_length_and_its_champion(list_machines: ListMachines, states: int) -> None:
    found = list_machines(states)
    assert len(found) == len(set(found)) == COUNTS[states]
    assert LONGEST[states] in found


@pytest.mark.slow
def test_list_of_five_states_has_its_known_length(lister: str) -> None:
    """Its parts are made side by side. Each machine that leads to others halts within 1,000 steps."""
    cores = len(os.sched_getaffinity(0))
    command = "%s --states 5 --steps 1000 --part %d/%d | wc -l"
    counters = [
        subprocess.Popen(command % (lister, part, cores), shell=True, stdout=subprocess.PIPE)
        for part in range(1, cores + 1)
    ]
    assert sum(int(counter.communicate()[0]) for counter in counters) == FIVE_STATES


@pytest.mark.parametrize("states, parts, symbols", [(2, 3, 2), (3, 4, 2), (2, 5, 3), (4, 7, 2)])
def test_parts_are_together_the_whole(
    list_machines: ListMachines, states: int, parts: int, symbols: int
) -> None:
    words = ["--symbols", str(symbols)]
    whole = list_machines(states, *words)
    places = {line: place for place, line in enumerate(whole)}
    found = [list_machines(states, "--part=%d/%d" % (part, parts), *words) for part in range(1, parts + 1)]
    for part in found:
        at = [places[line] for line in part]
        assert at == sorted(at), "a part is in the list's order"
    assert sorted(itertools.chain(*found)) == sorted(whole)
    sizes = sorted(map(len, found))
    assert len(whole) <= 10_000 * parts or sizes[-1] < 1.05 * sizes[0], "parts are as large as each other"


@pytest.mark.parametrize("words", [[], ["--part", "2/3"]])
@pytest.mark.parametrize("every", [1, 2, 7, 1_000, 100_000])
def test_sample_is_each_so_many_th_line(list_machines: ListMachines, every: int, words: list[str]) -> None:
    assert list_machines(3, "--every", str(every), *words) == list_machines(3, *words)[every - 1 :: every]


@pytest.mark.parametrize("words", REFUSED)
def test_wrong_words_are_refused(lister: str, words: str) -> None:
    status, output, error = run_command([lister, *words.split()])
    assert (status, output, error.count(b"\n")) == (2, b"", 1)
    assert error.startswith(b"tree_normal_form: " + REFUSED[words].encode())


def test_place_of_a_machine(lister: str, list_machines: ListMachines) -> None:
    listed = list_machines(3)
    for place in (0, 1, 2_000, len(listed) - 1):
        done = run_command([lister, "--line", listed[place]])
        assert (done.status, done.output) == (0, as_lines(["line %d of %d" % (place + 1, len(listed))]))
    done = run_command([lister, "--line", "1LB---_------"])
    assert (done.status, done.output) == (1, b"") and b"isn't among the 61 machines" in done.error


def test_closed_pipe_and_full_disk(lister: str) -> None:
    reader, writer = os.pipe()
    os.close(reader)
    with os.fdopen(writer, "wb") as closed, open("/dev/full", "wb") as full:
        command = [lister, "--states", "4"]
        ends = [subprocess.run(command, stdout=file, stderr=subprocess.PIPE) for file in (closed, full)]
    assert (ends[0].returncode, ends[0].stderr) == (1, b"")
    assert ends[1].returncode == 3 and b"write failed: No space" in ends[1].stderr


@pytest.fixture
def tools(tmp_path: pathlib.Path) -> pathlib.Path:
    """A folder with a copy of the tool, which isn't compiled there."""
    require("rustc")
    (tmp_path / "tools").mkdir()
    for name in ("Makefile", "crates.txt", "tools/tree_normal_form", "tools/tree_normal_form.rs"):
        shutil.copy2(TOP / name, tmp_path / name)
    return tmp_path / "tools"


def test_compiled_at_its_first_use_and_after_a_change(tools: pathlib.Path) -> None:
    script, program = str(tools / "tree_normal_form"), tools / "out" / "tree_normal_form"
    at_once = [subprocess.Popen([script, "--help"], stdout=subprocess.DEVNULL) for _ in range(3)]
    assert [process.wait() for process in at_once] == [0, 0, 0]
    assert os.listdir(program.parent) == ["tree_normal_form"]
    before = program.stat().st_mtime_ns
    assert run_command([script, "--states", "1"]).status == 0 and program.stat().st_mtime_ns == before
    os.utime(tools / "tree_normal_form.rs")
    assert run_command([script, "--states", "1"]).status == 0 and program.stat().st_mtime_ns > before


def test_missing_compiler_is_named(tools: pathlib.Path, tmp_path: pathlib.Path) -> None:
    found = tmp_path / "found"
    found.mkdir()
    for name in ("sh", "dirname", "readlink", "find", "make", "sed", "mkdir"):
        (found / name).symlink_to(shutil.which(name) or "")
    command = [str(tools / "tree_normal_form"), "--states", "1"]
    status, _, error = run_command(command, env={"PATH": str(found)})
    assert status == 3 and b"rustc" in error
