"""The command `budlarem`: lists of machines and verdicts.

Exit status: 0; 1 if a line was refused or two lists contradict each other; 2 for a command line, limits or a
line that can't be read; 3 for a fault of files, memory or the installation; 130 after an interruption.
"""

from __future__ import annotations

import argparse
import contextlib
import errno
import io
import os
import sys
from typing import NoReturn

from .._library import LibraryError, version
from .._signals import handle_interrupts
from .._text import escape_message
from .._version import VERSION
from ..publishing import UnconfirmedError
from ..reports import ReportError
from ..runner.errors import CheckError, RunError
from .lists import add_check, add_claims, add_judge, add_publish
from .machines import add_machines, add_runs
from .run import add_command as add_run
from .settle import add_settle
from .shards import add_shards

# Errors without a file name that standard output has.
_OUTPUT_ERRORS = (errno.ENOSPC, errno.EFBIG, errno.EDQUOT, errno.EIO)


class _Parser(argparse.ArgumentParser):
    """A parser with errors of one line."""

    def error(self, message: str) -> NoReturn:
        super().error(escape_message(message))


class _VersionAction(argparse.Action):
    """Prints the version; ` (plain)` follows for an unproved library."""

    def __call__(self, parser: argparse.ArgumentParser, *rest: object) -> None:
        try:
            text = version()
        except LibraryError as error:
            text = "%s, without its library: %s" % (VERSION, error)
        print("budlarem %s" % escape_message(text))
        parser.exit()


def build_parser() -> argparse.ArgumentParser:
    parser: argparse.ArgumentParser = _Parser(
        prog="budlarem", description="Works on lists of machines and verdicts."
    )
    parser.add_argument(
        "--version", action=_VersionAction, nargs=0, help="print the version; (plain) if not proved"
    )
    commands = parser.add_subparsers(required=True, metavar="COMMAND")
    for add in (
        add_machines,
        add_check,
        add_claims,
        add_judge,
        add_runs,
        add_publish,
        add_run,
        add_settle,
        add_shards,
    ):
        add(commands)
    asked = commands.add_parser("help", help="print the help of a command, as its --help")
    asked.add_argument("command", nargs="?", metavar="COMMAND", choices=list(commands.choices))
    asked.set_defaults(do=lambda given: parser.parse_args([*filter(None, [given.command]), "--help"]))
    return parser


def main(arguments: list[str] | None = None) -> int:
    """Runs a command; returns the exit status."""
    asked = build_parser().parse_args(arguments)
    if isinstance(sys.stdout, io.TextIOWrapper):
        sys.stdout.reconfigure(encoding="utf-8", errors="surrogateescape", newline="\n")
    try:
        status: int = asked.do(asked)
        sys.stdout.flush()
        return status
    except BrokenPipeError:
        raise
    except (CheckError, UnconfirmedError) as error:
        text, status = str(error), 1
    except (ValueError, TypeError) as error:
        text, status = str(error), 2
    except MemoryError as error:
        text, status = "out of memory: %s" % error, 3
    except OSError as error:
        is_output = error.filename is None and error.errno in _OUTPUT_ERRORS
        text, status = "%s%s" % ("standard output: " if is_output else "", error), 3
    except (ReportError, RunError) as error:
        text, status = str(error), 3
    with contextlib.suppress(OSError):
        print("budlarem: %s" % escape_message(text), file=sys.stderr)
    return status


def run_and_exit() -> NoReturn:
    """Runs a command and ends the process, with all its threads."""
    try:
        handle_interrupts()
        status = main()
    except BrokenPipeError:
        status = 1
    except KeyboardInterrupt:
        status = 130
    except SystemExit as end:
        status = end.code if isinstance(end.code, int) else 2
    for file in (sys.stdout, sys.stderr):
        with contextlib.suppress(OSError, ValueError):
            file.flush()
    os._exit(status)
