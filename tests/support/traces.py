"""Rows of the program's traces."""

from typing import NamedTuple

from .program import run_command

# The symbol of an unvisited cell, which is its index in the page's palette.
UNVISITED = 10


class Row(NamedTuple):
    """A step of a run: its state, head, lowest visited position, and the symbols from there."""

    step: int
    state: str
    head: int
    low: int
    cells: str

    @property
    def line(self) -> str:
        """The line of a trace by the library or the module, which has the lowest position too."""
        return "%d %s %d %d %s" % self

    def read(self, position: int) -> int:
        """Return the symbol read at a position."""
        symbol = self.symbol(position)
        return 0 if symbol == UNVISITED else symbol

    def place_words(self, position: int) -> str:
        """Return the page's description of a position at this step."""
        symbol = self.symbol(position)
        cell = "not visited yet" if symbol == UNVISITED else "symbol %d" % symbol
        head = "here" if position == self.head else "at " + format_number(self.head)
        state = "halted" if self.state == "Z" else "state " + self.state
        words = (format_number(self.step), state, format_number(position), cell, head)
        return "Step %s, %s; position %s: %s; the head is %s." % words

    def symbol(self, position: int) -> int:
        """Return the symbol at a position, or UNVISITED."""
        at = position - self.low
        return int(self.cells[at]) if 0 <= at < len(self.cells) else UNVISITED


def format_number(number: int) -> str:
    """Format a number as the page does."""
    return "{:,}".format(number).replace("-", "\u2212")


def trace(program: str, machine: str, steps: int, cells: int = 65_536) -> list[Row]:
    """Return the rows of the program's trace of a machine."""
    command = [program, "trace", "--upto", str(steps), "--cells", str(cells), "--", machine]
    rows, low = [], 0
    for line in run_command(command).output.decode().splitlines():
        step, state, head, symbols = line.split()
        low = min(low, int(head)) if state != "Z" else low
        rows.append(Row(int(step), state, int(head), low, symbols))
    return rows
