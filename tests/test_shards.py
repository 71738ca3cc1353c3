"""Lists checked whole in shards: `cover --below`, `cover --skeleton`, and the lists made for them."""

import functools
import random
from typing import Callable, NamedTuple

import pytest
from support import ListMachines
from support.program import LIST_LIMITS, LIST_STEPS, CommandResult, Decide, as_lines, replies, run_command
from support.shards import shard_line, summarize_bound
from test_cover import require_refused


class Sharded(NamedTuple):
    """A list in one piece and in shards, with the lines of each shard by its machine."""

    lines: list[str]
    skeleton: list[str]
    shards: dict[str, list[str]]


Shard = Callable[[int, int, int], Sharded]


@pytest.fixture(scope="module")
def shard(bb: str, list_machines: ListMachines, decide_all: Decide) -> Shard:
    """A function that shards a list of so many states and symbols at the machines with so many entries."""

    def decide(machines: list[str]) -> list[str]:
        return replies([bb, "decide", *LIST_LIMITS], machines)

    @functools.lru_cache(maxsize=None)
    def shard_size(states: int, symbols: int, entries: int) -> Sharded:
        steps = ("--steps", str(LIST_STEPS))
        items = list_machines(states, *steps, "--symbols", str(symbols), "--shards", str(entries))
        roots = [item.split(" ")[0] for item in items if item.endswith(" below")]
        shards = {root: decide(list_machines(states, *steps, "--below", root)) for root in roots}
        verdicts = iter(decide([item for item in items if " " not in item]))
        machines = (item.split(" ")[0] for item in items)
        skeleton = [shard_line(one, shards[one]) if one in shards else next(verdicts) for one in machines]
        return Sharded(decide_all(states, symbols), skeleton, shards)

    return shard_size


def counts_of(cover: str, words: list[str], lines: list[str]) -> str:
    """Return what `cover` prints of a list that passes, from its counts on."""
    status, output, error = run_command([cover, *LIST_LIMITS, *words], as_lines(lines))
    assert (status, error) == (0, b"")
    return output.decode().split(": ")[1]


@pytest.mark.parametrize("states, symbols, entries", [(2, 2, 1), (3, 2, 2), (3, 2, 3), (2, 3, 2)])
def test_skeleton_counts_as_the_list_in_one_piece(
    cover: str, shard: Shard, states: int, symbols: int, entries: int
) -> None:
    made = shard(states, symbols, entries)
    whole = counts_of(cover, [], made.lines)
    status, output, error = run_command([cover, "--skeleton", *LIST_LIMITS], as_lines(made.skeleton))
    count = len(made.shards)
    word = "shard" if count == 1 else "shards"
    start = "covers %d states %d symbols, given %d %s: " % (states, symbols, count, word)
    bound = summarize_bound(made.skeleton, where="outside shards ")
    assert (status, output.decode(), error) == (0, start + whole.partition(";")[0] + bound + "\n", b"")
    assert count and sum(map(len, made.shards.values())) < len(made.lines)


def test_each_shard_is_a_walk_below_its_machine(cover: str, shard: Shard) -> None:
    made = shard(3, 2, 2)
    stated = {line.split(" ")[0]: line.split(" ") for line in made.skeleton if " below " in line}
    for machine, lines in made.shards.items():
        counts = "%s lines, %s undecided, %s of them with more than one undefined transition"
        end = counts % tuple(stated[machine][2:5]) + summarize_bound(lines)
        expected = "covers below %s: %s\n" % (machine, end)
        done = run_command([cover, "--below", machine, *LIST_LIMITS], as_lines(lines))
        assert done == CommandResult(0, expected.encode(), b"")


def test_skeleton_below_a_machine(cover: str, list_machines: ListMachines, shard: Shard) -> None:
    """A shard may be given as a skeleton itself."""
    outer, inner = shard(3, 2, 2), shard(3, 2, 3)
    stated = {line.split(" ")[0]: line for line in [*inner.lines, *inner.skeleton]}
    for machine, lines in outer.shards.items():
        items = list_machines(3, "--steps", str(LIST_STEPS), "--below", machine, "--shards", "3")
        skeleton = [stated[item.split(" ")[0]] for item in items]
        words = ["--below", machine]
        whole, sharded = counts_of(cover, words, lines), counts_of(cover, [*words, "--skeleton"], skeleton)
        assert sharded.partition(";")[0] == whole.partition(";")[0]
        assert sharded.endswith(summarize_bound(skeleton, where="outside shards ") + "\n")


@pytest.mark.slow
def test_shards_of_five_states_without_one_of_their_lines(
    bb: str, cover: str, list_machines: ListMachines, rng: random.Random
) -> None:
    """A hundred shards of some thousand lines, at random."""
    items = list_machines(5, "--shards", "6", "--steps", str(LIST_STEPS))
    for item in rng.sample([item for item in items if item.endswith(" below")], 100):
        machine = item.split(" ")[0]
        machines = list_machines(5, "--steps", str(LIST_STEPS), "--below", machine)
        lines = replies([bb, "decide", *LIST_LIMITS], machines)
        assert run_command([cover, "--below", machine, *LIST_LIMITS], as_lines(lines)).status == 0
        require_refused([cover, "--below", machine], lines, rng.randrange(len(lines)))


def test_shard_of_another_machine_is_refused(cover: str, shard: Shard) -> None:
    (one, _), (two, lines) = list(shard(3, 2, 2).shards.items())[:2]
    done = run_command([cover, "--below", one, *LIST_LIMITS], as_lines(lines))
    assert done == (1, b"line 1: %s expected, found %s\n" % (one.encode(), two.encode()), b"")
    nothing = run_command([cover, "--below", one, *LIST_LIMITS])
    assert nothing == (1, b"line 1: %s expected, the list ends\n" % one.encode(), b"")
