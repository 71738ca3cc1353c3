#!/usr/bin/python3
"""Write the manual page of the command `budlarem` from its parser.

    python/build_manual.py FILE

Paragraphs are filled by the program that shows the page. Usage, tables and examples keep their lines, which
are made for 72 columns, so that they fit beside the page's indent.
"""

import argparse
import itertools
import os
import pathlib
import sys
from typing import Iterator

TOP = pathlib.Path(__file__).resolve().parents[1]
sys.path.insert(0, str(TOP / "python" / "src"))

from budlarem.commands import build_parser  # noqa: E402
from budlarem.commands import shared  # noqa: E402

COLUMNS = 72
HEAD = r""".TH BUDLAREM 1 "" "" "Budlarem"
.nh
.ad l
.SH NAME
budlarem \- work on lists of machines and verdicts
.SH SYNOPSIS
.B budlarem
.I COMMAND
\&..
.SH DESCRIPTION
Each command has a section below, in the order of
.BR "budlarem \-\-help" .
"""
TAIL = r""".SH SEE ALSO
.BR bb (1),
.BR cover (1),
.BR recurrence (1)
"""


def escape(text: str) -> str:
    """Return text that troff prints as it stands."""
    text = text.replace("\\", "\\e").replace("-", "\\-")
    return "\\&" + text if text[:1] in (".", "'") else text


def literal(lines: Iterator[str]) -> Iterator[str]:
    yield from (".nf", *map(escape, lines), ".fi")


def paragraphs(text: str) -> Iterator[str]:
    """Yield the lines of paragraphs; those that begin with a space are kept as they are."""
    for number, block in enumerate(text.strip("\n").split("\n\n")):
        if number:
            yield ".PP"
        for is_kept, lines in itertools.groupby(block.split("\n"), lambda line: line.startswith(" ")):
            yield from literal(lines) if is_kept else (escape(" ".join(lines)),)


def options(parser: argparse.ArgumentParser) -> Iterator[str]:
    """Yield the arguments and options of a command, with their texts."""
    formatter = parser._get_formatter()
    for action in parser._actions:
        text = formatter._expand_help(action) if action.help else ""
        is_shown = action.help != argparse.SUPPRESS
        if is_shown and not isinstance(action, (argparse._HelpAction, argparse._SubParsersAction)):
            yield from (".TP", ".B " + escape(formatter._format_action_invocation(action)))
            yield escape(" ".join(text.split()))


def section(name: str, parser: argparse.ArgumentParser, summary: str) -> Iterator[str]:
    """Yield the section of a command."""
    usage = parser.format_usage().partition(" ")[2].rstrip().split("\n")
    indent = len("usage: ")
    yield from (".SH BUDLAREM " + name.upper(), escape(summary[:1].upper() + summary[1:] + "."), ".PP")
    yield from literal(line[indent:] if line.startswith(" " * indent) else line for line in usage)
    if parser.description:
        yield from (".PP", *paragraphs(parser.description))
    yield from options(parser)


def page() -> str:
    """Return the page."""
    os.environ["COLUMNS"] = str(COLUMNS)
    shared.WIDTH = COLUMNS
    parser = build_parser()
    (commands,) = (one for one in parser._actions if isinstance(one, argparse._SubParsersAction))
    texts = {one.dest: one.help or "" for one in commands._get_subactions()}
    sections = (section(name, one, texts[name]) for name, one in commands.choices.items())
    lines = itertools.chain(options(parser), itertools.chain.from_iterable(sections))
    return HEAD + "\n".join(lines) + "\n" + TAIL


def main() -> None:
    parser = argparse.ArgumentParser(
        description=__doc__, formatter_class=argparse.RawDescriptionHelpFormatter
    )
    parser.add_argument("file", type=pathlib.Path, metavar="FILE")
    parser.parse_args().file.write_text(page(), encoding="utf-8")


if __name__ == "__main__":
    main()
