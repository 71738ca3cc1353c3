"""The texts of machines: all of a size, and random ones, the same from the same source of chance."""

import itertools
import random
from typing import Iterable, Iterator, NamedTuple, Sequence

LETTERS = "ABCDEFGHIJKLMNOPQRSTUVWXY"
DIGITS = "0123456789"
# Left and right, one for the other.
SWAPPED = str.maketrans("LR", "RL")
# The champion of five states, and after how many steps it halts; that of four.
CHAMPION, CHAMPION_STEPS = "1RB1LC_1RC1RB_1RD0LE_1LA1LD_1RZ0LA", 47_176_870
CHAMPION_OF_FOUR = "1RB1LB_1LA0LC_1RZ1LD_1RD0RA"
# It halts after 6 steps, with 4 nonzero cells.
HALT = "1RB1LB_1LA1RZ"
# The champion of four states, endless to the right instead of its halt; a machine that its tree decides.
LATE, TREE = "1RB1LB_1LA0LC_1RE1LD_1RD0RA_1RE1RE", "1RB1LB_1LA0RC_0LD1RC_---1LA"


def text_of(table: Iterable[Sequence[str]]) -> str:
    """A machine's text, from the entries of each state."""
    return "_".join("".join(group) for group in table)


def table_of(text: str) -> list[list[str]]:
    """The entries of a machine, by state and symbol."""
    return [[group[k : k + 3] for k in range(0, len(group), 3)] for group in text.split("_")]


def join_groups(entries: Sequence[str], symbols: int) -> str:
    """A machine's text, from all its entries in a row."""
    return text_of(entries[k : k + symbols] for k in range(0, len(entries), symbols))


class Change(NamedTuple):
    """Whether left and right are swapped, and the new name of each state and each symbol."""

    mirrored: bool
    states: Sequence[int]
    symbols: Sequence[int]

    def entry(self, entry: str) -> str:
        if entry == "---":
            return entry
        move = entry[1].translate(SWAPPED) if self.mirrored else entry[1]
        state = entry[2] if entry[2] == "Z" else LETTERS[self.states[LETTERS.index(entry[2])]]
        return "%d%s%s" % (self.symbols[int(entry[0])], move, state)

    def machine(self, text: str) -> str:
        """Change a machine: each entry moves to the new names of its state and symbol."""
        old = table_of(text)
        new = [["---"] * len(group) for group in old]
        for state, symbol in itertools.product(range(len(old)), range(len(old[0]))):
            new[self.states[state]][self.symbols[symbol]] = self.entry(old[state][symbol])
        return text_of(new)

    def verdict(self, verdict: str) -> str:
        """Change a verdict: the side of a translated cycler may be the other one."""
        kind, _, rest = verdict.partition(" ")
        turned = kind == "translated" and self.mirrored
        return "%s %s%s" % (kind, rest[0].translate(SWAPPED), rest[1:]) if turned else verdict


def random_change(source: random.Random, states: int, symbols: int) -> Change:
    """A random change of a machine of so many states and symbols, which leaves A and 0."""
    names = [(0, *source.sample(range(1, count), count - 1)) for count in (states, symbols)]
    return Change(source.random() < 0.5, *names)


def entries_of(states: int, symbols: int) -> list[str]:
    """All entries that a machine of so many states and symbols may have, the undefined one first."""
    return ["---", *map("".join, itertools.product(DIGITS[:symbols], "LR", LETTERS[:states] + "Z"))]


def all_machines(states: int, symbols: int) -> Iterator[str]:
    """All machines of so many states and symbols."""
    for entries in itertools.product(entries_of(states, symbols), repeat=states * symbols):
        yield join_groups(entries, symbols)


def entry(source: random.Random, states: int, symbols: int) -> str:
    """A random entry: of a hundred, eight are undefined, and some seven lead into the halting state."""
    if source.random() < 0.08:
        return "---"
    state = "Z" if source.random() < 0.08 else source.choice(LETTERS[:states])
    return source.choice(DIGITS[:symbols]) + source.choice("LR") + state


def machine(source: random.Random, states: int, symbols: int) -> str:
    """A random machine with such entries."""
    return text_of([entry(source, states, symbols) for _ in range(symbols)] for _ in range(states))


def mixed_machines(count: int, seed: int) -> Iterator[str]:
    """So many random machines: most of them of 1 to 7 states and 2 symbols, some of up to 25 and 10."""
    source = random.Random(seed)
    for k in range(count):
        if k % 10 < 7:
            yield machine(source, k % 10 + 1, 2)
        elif k % 10 < 9:
            yield machine(source, source.randint(1, 4), source.randint(3, 10))
        else:
            yield machine(source, source.randint(1, 25), source.randint(2, 10))


def random_machines(count: int, source: random.Random) -> list[str]:
    """So many of the same, from a source of chance."""
    return list(mixed_machines(count, source.randrange(2**32)))


def seldom_halting(source: random.Random, states: int, symbols: int) -> str:
    """A random machine of whose entries one of ten halts."""
    every = entries_of(states, symbols)
    inner = [entry for entry in every if entry[2] not in "-Z"]
    outer = [entry for entry in every if entry[2] in "-Z"]
    drawn = [source.choice(outer if source.random() < 0.1 else inner) for _ in range(states * symbols)]
    return join_groups(drawn, symbols)


def halting_once(source: random.Random, states: int) -> str:
    """A random machine of two symbols with one entry that halts, which isn't the first."""
    drawn = [draw_entry(source, LETTERS[:states]) for _ in range(2 * states)]
    drawn[source.randrange(1, 2 * states)] = "1RZ"
    return join_groups(drawn, 2)


def uniform(source: random.Random, states: int) -> str:
    """A machine of two symbols, drawn uniformly from those that have every entry."""
    return join_groups([draw_entry(source, LETTERS[:states] + "Z") for _ in range(2 * states)], 2)


def draw_entry(source: random.Random, letters: str) -> str:
    """A random entry of two symbols that leads into one of these states."""
    return source.choice("01") + source.choice("LR") + source.choice(letters)


def spoil(source: random.Random, line: str) -> str:
    """Change a line at one place: another byte, one more, one less, the rest gone, or a carriage return."""
    at, byte = source.randrange(len(line) + 1), source.choice("\r -_0129ABHYZLRabhlrtxu")
    before, after = line[:at], line[at + 1 :]
    changes = (before + byte + after, before + byte + line[at:], before + after, before, line + "\r")
    return source.choice(changes)
