"""The folders of `examples/` with one command each.

`command` has the program's words, `lines.txt` its standard input, if any, `expected.txt` its output, and
`status` its exit status, if not 0. Files are named from the top.
"""

import dataclasses
import pathlib
from typing import Any, Iterator

from . import TOP
from .program import plan_of, run_command

# The first list of the README.
README = b"1RB1LB_1LA1RZ\n1RA1RA\n1rB1LB\n"


def content(path: pathlib.Path, default: bytes = b"") -> bytes:
    """Return what a file has, where there is one."""
    return path.read_bytes() if path.exists() else default


@dataclasses.dataclass(frozen=True)
class Example:
    """A command with its input, and what it must write and end with."""

    name: str
    words: list[str]
    given: bytes
    expected: bytes
    status: int

    @property
    def plan(self) -> dict[str, Any]:
        """Limits and switches by name."""
        return plan_of(self.words)

    @property
    def lines(self) -> bytes:
        """The lines that the command reads, from standard input or a file."""
        files = [word for word in self.words if word.startswith("examples/")]
        return content(TOP / files[0]) if files else self.given


def read_examples(*commands: str) -> Iterator[Example]:
    """Read the examples, or those of some commands, as `decide`."""
    for folder in sorted(path.parent for path in (TOP / "examples").glob("*/command")):
        words = content(folder / "command").decode().split()
        if not commands or words[0] in commands:
            given, expected = content(folder / "lines.txt"), (folder / "expected.txt").read_bytes()
            yield Example(folder.name, words, given, expected, int(content(folder / "status", b"0")))


def require_examples(bb: str) -> None:
    """Require a program to write each example's output, and to end with its status."""
    for example in read_examples():
        status, output, _ = run_command([bb, *example.words], example.given, cwd=str(TOP))
        assert output.splitlines() == example.expected.splitlines(), example.name
        assert (output, status) == (example.expected, example.status), example.name
