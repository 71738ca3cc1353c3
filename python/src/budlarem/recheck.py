"""Checks verdict lines once more, by their definitions alone, for those who trust no prover.

    python3 recheck.py [--steps N] [--nodes N] [FILE]

It answers each line of FILE, or of standard input: `true` or `false` for its claim, `no claim` for an undecided
or refused machine, `too long` for more than N steps or nodes (default: 1,000,000), else `not a verdict line`.
Standard error has the counts. The status is 0 if all is true or no claim, 1 otherwise, 2 for wrong arguments,
3 for a fault of files or memory.
"""

import sys


class Machine:
    """A machine, and where it is in its run: at first in state A, at position 0 of a tape of zeros. `table`
    has for a state and a symbol what is written, how far the head moves to the right, and the next state.
    Where it has nothing, as in Z and for `---`, the machine has halted. `mirrored` swaps left and right."""

    def __init__(self, text: str, mirrored: bool) -> None:
        groups = text.split("_")
        states, symbols = "ABCDEFGHIJKLMNOPQRSTUVWXY"[: len(groups)], "0123456789"[: len(groups[0]) // 3]
        if len(groups) > 25 or len(symbols) < 2 or {*map(len, groups)} != {3 * len(symbols)}:
            raise ValueError(text)
        moves = {"L": 1, "R": -1} if mirrored else {"L": -1, "R": 1}
        entries = {w + m + s: (int(w), moves[m], s) for w in symbols for m in moves for s in states + "Z"}
        every = [(s, k, g[3 * k : 3 * k + 3]) for s, g in zip(states, groups) for k in range(len(symbols))]
        self.table = {(state, symbol): entries[entry] for state, symbol, entry in every if entry != "---"}
        self.halting = [(state, symbol) for state, symbol, entry in every if entry[2] in "-Z"]
        self.state, self.head, self.low, self.high, self.extent = "A", 0, 0, 0, [0, 0]
        self.tape: "dict[int, int]" = {}

    def go(self, steps: int) -> None:
        """Makes so many steps more. `low` and `high` are the least and the greatest position of the head
        before each of them. Raises KeyError where the machine halts earlier."""
        table, tape, state, head = self.table, self.tape, self.state, self.head
        low = high = head
        for _ in range(steps):
            low = head if head < low else low
            high = head if head > high else high
            tape[head], move, state = table[state, tape.get(head, 0)]
            head += move
        self.state, self.head, self.low, self.high = state, head, low, high


def halts(machine: Machine, steps: int, score: int) -> bool:
    """It makes just so many steps, and so many cells aren't 0 then."""
    machine.go(steps)
    at_end = (machine.state, machine.tape.get(machine.head, 0)) not in machine.table
    return at_end and sum(symbol != 0 for symbol in machine.tape.values()) == score


def cycles(machine: Machine, first: int, second: int) -> bool:
    """State, position and tape are the same after both steps, so they come again for ever."""
    machine.go(first)
    state, head, tape = machine.state, machine.head, dict(machine.tape)
    machine.go(second - first)
    are_same = all(symbol == tape.get(cell, 0) for cell, symbol in machine.tape.items())
    return first < second and are_same and (state, head) == (machine.state, machine.head)


def moves_on(machine: Machine, first: int, second: int) -> bool:
    """After both steps the head is farther to the right than ever before, in the same state, and has behind
    it the same symbols, as far back as it was between them: so it moves on for ever. The extent is by how
    much the second is farther, and how many symbols these are. To the left, that of the mirrored machine."""
    machine.go(first)
    state, head, high, tape = machine.state, machine.head, machine.high, dict(machine.tape)
    machine.go(second - first)
    shift, behind = machine.head - head, range(machine.low, head + 1)
    machine.extent = [shift, len(behind)]
    are_same = all(tape.get(cell, 0) == machine.tape.get(cell + shift, 0) for cell in behind)
    return head > high and machine.head > machine.high and state == machine.state and are_same


def ends(machine: Machine, levels: int, nodes: int) -> bool:
    """What can stand before a halt, before that and so on, is a tree of so many levels and nodes without the
    start, so no halt comes. A node is a state, the head's position, and what is known of some cells. Branches
    are walked to their ends; `path` leads to a node, with what was known of its cells before."""
    waiting = [(1, state, 0, symbol) for state, symbol in machine.halting]
    known: "dict[int, int]" = {}
    path: "list[tuple[int, int, int]]" = []
    deepest = count = marks = 0
    while waiting:
        level, state, head, symbol = waiting.pop()
        while len(path) >= level:
            cell, known[cell], marks = path.pop()
        path.append((head, known.get(head, -1), marks))
        marks += (symbol > 0) - (known.get(head, -1) > 0)
        known[head] = symbol
        deepest, count = max(deepest, level), count + 1
        if count > nodes or (state == "A" and marks == 0):
            return False
        for (earlier, symbol), (write, move, after) in machine.table.items():
            if after == state and known.get(head - move, -1) in (-1, write):
                waiting.append((level + 1, earlier, head - move, symbol))
    return (deepest, count) == (levels, nodes)


def number(word: str) -> int:
    """The number below 2^64 that a word is, without a sign or leading zeros. Raises ValueError."""
    if len(word) > 20 or not word.isdecimal() or str(int(word)) != word or int(word) >= 2**64:
        raise ValueError(word)
    return int(word)


def answer(line: str, most_steps: int, most_nodes: int) -> str:
    """What is said of a line. A line is refused at column 775 at most, behind the longest machine."""
    try:
        text, kind, *words = line.split(" ")
        if text == "refused" and not words and 1 <= number(kind) <= 775:
            return "no claim"
        machine = Machine(text, kind == "translated" and {"L": True, "R": False}[words.pop(0)])
        if kind == "undecided" and words in (["steps"], ["cells"]):
            return "no claim"
        check = {"halt": halts, "cycler": cycles, "translated": moves_on, "backward": ends}[kind]
        first, second, *extent = [number(word) for word in words]
        if len(extent) not in ((0, 2) if kind == "translated" else (0,)):
            return "not a verdict line"
    except (ValueError, KeyError, IndexError):
        return "not a verdict line"
    named = {"halt": first, "backward": second}.get(kind, max(first, second))
    if named > (most_nodes if kind == "backward" else most_steps):
        return "too long"
    try:
        return "true" if check(machine, first, second) and extent in ([], machine.extent) else "false"
    except KeyError:
        return "false"


def main(words: "list[str]") -> int:
    bounds, counts = {"--steps": 1000000, "--nodes": 1000000}, {"true": 0, "no claim": 0}
    while len(words) > 1 and words[0] in bounds:
        bounds[words[0]], words = number(words[1]), words[2:]
    if len(words) > 1 or "".join(words).startswith("-"):
        raise ValueError(words)
    with open(words[0] if words else 0, "rb") as file:
        for line in file:
            said = answer(line.decode("latin-1").rstrip("\n"), *bounds.values())
            counts[said] = counts.get(said, 0) + 1
            print(said)
    sys.stdout.flush()
    print(", ".join("%d %s" % (counts[said], said) for said in counts), file=sys.stderr)
    return 0 if len(counts) == 2 else 1


if __name__ == "__main__":
    try:
        sys.exit(main(sys.argv[1:]))
    except (ValueError, OSError, MemoryError, KeyboardInterrupt) as error:
        print(__doc__ if isinstance(error, ValueError) else "recheck.py ends: %s" % error, file=sys.stderr)
        sys.exit(2 if isinstance(error, ValueError) else 3)
