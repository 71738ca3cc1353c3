"""`cover --lines`: each machine's line is in the complete list of its size, and the machine completes it.

`python/tests/system/test_settle.py` has what its verdict tells of the machine.
"""

import random
from typing import Iterator, NamedTuple

import pytest
from support import ListMachines
from support.machines import CHAMPION, DIGITS, LETTERS, Change, join_groups, machine, table_of, text_of
from support.program import LIST_STEPS, Decide, as_lines, run_command
from support.simulation import find_undefined, simulate

# States and symbols of complete lists.
SIZES = [(2, 2), (3, 2), (2, 3)]
LARGE = [pytest.param(4, 2, marks=pytest.mark.slow)]
COUNT = 5_000


class Reply(NamedTuple):
    """A reply: the machine, its line, the change, and the end of the line's run with the machine's own entry."""

    machine: str
    line: str
    change: Change
    end: tuple[str, ...]


def read_reply(text: str) -> Reply:
    """Read a reply of `cover --lines`."""
    own, word, line, mirror, states, symbols, *end = text.split(" ")
    assert word == "line" and mirror in ("same", "mirror")
    names = [LETTERS.index(letter) for letter in states], [DIGITS.index(digit) for digit in symbols]
    return Reply(own, line, Change(mirror == "mirror", *names), tuple(end))


def lines_of(cover: str, machines: list[str], steps: int) -> list[Reply]:
    """Return the reply to each machine."""
    done = run_command([cover, "--lines", "--steps=%d" % steps], as_lines(machines))
    assert (done.status, done.error) == (0, b"")
    return [read_reply(text) for text in done.output.decode().splitlines()]


def walk_of(text: str, steps: int) -> str:
    """Return the line of a machine: run it, name states and symbols as they come, mirror a first move left."""
    table = table_of(text)
    names = [0], [0]
    used: dict[tuple[int, int], str] = {}
    for now in simulate(text, steps):
        place = now.state or 0, now.tape.get(now.head, 0)
        entry = table[place[0]][place[1]]
        if place not in used:
            if len(used) == len(table) * len(table[0]) - 1 or entry[2] in "-Z":
                break
            used[place] = entry
            for named, name in zip(names, (LETTERS.index(entry[2]), int(entry[0]))):
                if name not in named:
                    named.append(name)
    mirrored = next(iter(used.values()), "---")[1] == "L"
    back = Change(mirrored, inverse(names[0], len(table)), inverse(names[1], len(table[0])))
    groups = [["---"] * len(table[0]) for _ in table]
    for (state, symbol), entry in used.items():
        groups[back.states[state]][back.symbols[symbol]] = back.entry(entry)
    return text_of(groups)


def inverse(names: list[int], count: int) -> list[int]:
    """Return the place of each number among these names; of the others none that is used."""
    return [names.index(name) if name in names else count for name in range(count)]


def is_completed(line: str, text: str) -> bool:
    """Whether the second machine has each entry of the first one."""
    pairs = zip(sum(table_of(line), []), sum(table_of(text), []))
    return all(first in ("---", second) for first, second in pairs)


@pytest.mark.parametrize("states, symbols", [*SIZES, *LARGE])
def test_lines_of_random_machines_are_listed(
    cover: str, decide_all: Decide, rng: random.Random, states: int, symbols: int
) -> None:
    listed = dict(line.split(" ", 1) for line in decide_all(states, symbols))
    machines = [machine(rng, states, symbols) for _ in range(COUNT)]
    replies = lines_of(cover, machines, LIST_STEPS)
    assert [reply.machine for reply in replies] == machines
    for reply in replies:
        assert reply.line == walk_of(reply.machine, LIST_STEPS)
        assert is_completed(reply.change.machine(reply.line), reply.machine)
        verdict = listed[reply.line]
        assert (reply.end[0] == "halt") == verdict.startswith("halt ")
        if reply.end[0] == "halt":
            assert verdict == " ".join(reply.end[:3])


def enumerate_levels(states: int, symbols: int, steps: int) -> Iterator[str]:
    """All machines in tree normal form, in an order of its own: from few entries to many, great entries first."""
    level = [["---"] * states * symbols]
    while level:
        grown = []
        for entries in level:
            text = join_groups(entries, symbols)
            yield text
            met, defined = find_undefined(text, steps), [entry for entry in entries if entry != "---"]
            if met is None or len(defined) == len(entries) - 1:
                continue
            used_states = 1 + max([0, *(LETTERS.index(entry[2]) for entry in defined)])
            used_symbols = 1 + max([0, *(DIGITS.index(entry[0]) for entry in defined)])
            for state in reversed(LETTERS[: min(states, used_states + 1)]):
                for move in "LR" if defined else "R":
                    for symbol in reversed(DIGITS[: min(symbols, used_symbols + 1)]):
                        grown.append([*entries[:met], symbol + move + state, *entries[met + 1 :]])
        level = grown


@pytest.mark.parametrize("states, symbols", SIZES)
def test_lists_in_another_order_are_found_whole(
    cover: str, list_machines: ListMachines, states: int, symbols: int
) -> None:
    """Each machine of an enumerator of its own is its line, and they are all of the list."""
    found = list(enumerate_levels(states, symbols, 100))
    listed = list_machines(states, "--symbols", str(symbols), "--steps", "100")
    assert sorted(found) == sorted(listed) and found != listed
    for reply in lines_of(cover, found, 100):
        names = Change(False, list(range(states)), list(range(symbols)))
        assert (reply.machine, reply.change) == (reply.line, names)


def test_number_of_a_line(cover: str, decide_all: Decide, rng: random.Random) -> None:
    """`cover --line` tells it of a machine of the list's size, after all else; it refuses other texts."""
    lines = decide_all(3, 2)
    numbers = {line.partition(" ")[0]: number for number, line in enumerate(lines, 1)}
    words = [cover, "--steps=%d" % LIST_STEPS]
    covers = run_command(words, as_lines(lines)).output.decode().rstrip()
    for reply in lines_of(cover, [machine(rng, 3, 2) for _ in range(20)], LIST_STEPS):
        done = run_command([*words, "--line=" + reply.machine], as_lines(lines))
        assert done.output.decode() == "%s; %s is line %d\n" % (covers, reply.line, numbers[reply.line])
    done = run_command([*words, "--line=0RA0RA"], as_lines(lines))
    assert done == (0, ("%s; 0RA--- isn't a line\n" % covers).encode(), b"")
    done = run_command([*words, "--line=1RB"], as_lines(lines))
    assert done == (2, b"", b"cover: the text of --line is no machine: refused at column 4\n")


def test_lines_by_hand(cover: str) -> None:
    """A first move to the left, states met in another order, the last undefined transition; unread lines."""
    given = ["1LB1RA_1RA1LZ", "1RC---_------_0LA---", "0RA0RA", CHAMPION, "1RB", ""]
    expected = [
        "1LB1RA_1RA1LZ line 1RB1LA_1LA--- mirror AB 01 halt 4 3 1LZ",
        "1RC---_------_0LA--- line 1RB---_0LA---_------ same ACB 01 halt 2 1 ---",
        "0RA0RA line 0RA--- same A 01 runs",
        CHAMPION + " line 1RB1LC_1RC1RB_1RD0LE_1LA1LD_---0LA same ABCDE 01 runs",
        "unread",
        "unread",
    ]
    done = run_command([cover, "--lines", "--steps=200"], as_lines(given))
    assert done == (0, as_lines(expected), b"")


def test_line_goes_on_at_the_last_step(cover: str) -> None:
    """An entry met after just as many steps as the limit is filled; one met a step later isn't."""
    text = "1RB1RB_1LA1RA"
    assert [lines_of(cover, [text], steps)[0].line for steps in (0, 1, 2)] == [
        "1RB---_------",
        "1RB---_1LA---",
        "1RB1RB_1LA---",
    ]
