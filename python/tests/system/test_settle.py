"""Verdicts of machines from complete lists, by the package and its command."""

import collections
import hashlib
import pathlib
import random
import re

import budlarem
import pytest
from support import ListMachines
from support.machines import machine
from support.program import as_lines, replies, run_package

LIMITS = budlarem.Limits(200, 256, 20, 1_000)
WORDS = ["--steps", "200", "--cells", "256", "--depth", "20", "--nodes", "1000"]
COMMAND = ["settle", *WORDS, "--list"]


def write_list(folder: pathlib.Path, bb: str, list_machines: ListMachines, size: str) -> pathlib.Path:
    """The complete list of a size, as `2x2` for two states and two symbols."""
    states, symbols = size.split("x")
    machines = list_machines(int(states), "--symbols", symbols, "--steps", "200")
    path = folder / size
    path.write_bytes(as_lines(replies([bb, "decide", *WORDS], machines)))
    return path


@pytest.fixture
def listed(tmp_path: pathlib.Path, bb: str, list_machines: ListMachines) -> pathlib.Path:
    return write_list(tmp_path, bb, list_machines, "2x2")


@pytest.mark.parametrize("size", ["2x2", "3x2", "2x3"])
def test_machines_have_the_verdict_of_their_line(
    rng: random.Random, bb: str, list_machines: ListMachines, tmp_path: pathlib.Path, size: str
) -> None:
    """Each finds its line; a verdict is the one of its own decision."""
    path = write_list(tmp_path, bb, list_machines, size)
    machines = [machine(rng, *map(int, size.split("x"))) for _ in range(4_000)]
    found = [*budlarem.settle(machines, path, LIMITS)]
    kinds: collections.Counter[str] = collections.Counter()
    for one, own in zip(found, budlarem.decide(machines, LIMITS)):
        kinds[one.listed.kind] += 1
        assert one.verdict in (own, None), one
        assert one.never in {"undecided": (None, True), "halt": (False,)}.get(own.kind, (True,)), one
    assert [one.line.machine for one in found] == machines
    assert {"halt", "cycler", "translated"} <= kinds.keys()


def test_line_of_a_machine() -> None:
    """By hand: its first move is to the left, and it enters C before B; Z is entered on the first 1."""
    (found,) = budlarem.lines_of(["1LC---_------_1RA1RZ"])
    assert (found.line, found.change) == ("1RB---_1LA---_------", "mirror ACB 01")
    assert found.halt == budlarem.LineHalt(2, 2, "---")


def test_mirrored_machines_change_sides(listed: pathlib.Path) -> None:
    (found,) = budlarem.settle(["1LA1RB_1LB0RA"], listed, LIMITS)
    assert str(found.listed) == "1RA---_------ translated R 1 2 1 1"
    assert str(found.verdict) == "1LA1RB_1LB0RA translated L 1 2 1 1"


def test_command(listed: pathlib.Path, programs: pathlib.Path) -> None:
    ended = run_package(*COMMAND, str(listed), "1RB1LB_1LA1RZ")
    line = "1RB1LB_1LA1RZ\t1RB1LB_1LA1RZ halt 6 4\t1RB1LB_1LA--- halt 5 4\tsame AB 01"
    assert (ended.status, ended.output) == (0, as_lines([line]))
    assert b"covers 2 states 2 symbols: " in ended.error
    digest = hashlib.sha256(listed.read_bytes()).hexdigest()
    given = b"# one\n1RB1LB_1LA1RZ\nno machine\n"
    again = run_package(*COMMAND, str(listed), "--digest", digest, given=given)
    assert (again.status, again.output) == (1, as_lines([line]))


@pytest.mark.parametrize(
    "words, more, error",
    [
        ([], 0, "no complete list within these limits: line 20: "),
        (["--digest", "00"], None, "has the sha256 "),
        ([], None, "has no line 1RB---_1LB0RC_1LC1LA: it is no complete list of 3 states and 2 symbols"),
    ],
)
def test_other_lists_are_refused(
    listed: pathlib.Path, programs: pathlib.Path, words: list[str], more: "int | None", error: str
) -> None:
    """One without its last lines, one of another digest, one of another size."""
    if more is not None:
        listed.write_bytes(b"".join(listed.read_bytes().splitlines(True)[:19]))
    ended = run_package(*COMMAND, str(listed), *words, "1RB1RZ_1LB0RC_1LC1LA")
    assert ended.status == 2 and ended.output == b"" and error.encode() in ended.error


def test_a_list_with_a_wrong_line_is_refused(listed: pathlib.Path) -> None:
    """The checker doesn't confirm the pair, so nothing is returned."""
    right, wrong = b"1RA---_------ translated R 1 2 1 1", b"1RA---_------ translated R 1 2 2 1"
    assert right in listed.read_bytes()
    listed.write_bytes(listed.read_bytes().replace(right, wrong))
    with pytest.raises(budlarem.ListError, match="doesn't hold: the checker answers bad"):
        [*budlarem.settle(["1LA1RB_1LB0RA"], listed, LIMITS)]


def test_a_sharded_list_does_its_shards_again(
    rng: random.Random, programs: pathlib.Path, tmp_path: pathlib.Path
) -> None:
    """By the limits of its plan; a shard that comes out otherwise is refused."""
    folder = tmp_path / "shards"
    words = ["--states", "3", "--entries", "2", "--list-steps", "200", *WORDS]
    done = run_package("shards", str(folder), *words)
    assert done.status == 0, done.error
    machines = [machine(rng, 3, 2) for _ in range(1_000)]
    reports: list[str] = []
    found = [*budlarem.settle(machines, folder, report=reports.append)]
    assert all(one.verdict in (own, None) for one, own in zip(found, budlarem.decide(machines, LIMITS)))
    assert len(found) == len(machines) and all(" below " in report for report in reports) and len(reports) > 5
    assert budlarem.confirm_list(folder).startswith("covers 3 states 2 symbols, given 13 shards: ")
    with pytest.raises(budlarem.ListError, match="was made with steps=200,"):
        budlarem.confirm_list(folder, budlarem.Limits(300))
    skeleton = folder / "skeleton.txt"
    skeleton.write_text(re.sub(r" [0-9a-f]{64}$", " " + 64 * "0", skeleton.read_text(), flags=re.M))
    with pytest.raises(budlarem.ListError, match="is another one when it is done again"):
        [*budlarem.settle(machines, folder)]
