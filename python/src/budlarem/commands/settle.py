"""The command `settle`: verdicts from a complete list."""

import argparse
import sys

from ..limits import Limits
from ..settling import confirm_list, settle
from .shared import ListReader, Subcommands, add_command, add_limits, limits_in

_SETTLE = """Writes the verdict of each MACHINE from a complete list in tree normal form, such as those of
docs/complete-lists.md. The list has a line for all machines that do the same up to mirror images and other names; its
verdict settles them, and each verdict written is confirmed by the checker.

The limits are those that the list was made with. First the program cover, found in the PATH, confirms the list, and
its line is printed on standard error; --digest names a list that was confirmed before. In a folder of budlarem shards
the limits are those of its plan, and each shard with a line is done again. Without MACHINE the machines are lines of
standard input. Status 1 if a line was refused."""


def do_settle(asked: argparse.Namespace) -> int:
    limits, reader = limits_in(asked), ListReader(None, None)

    def report(text: str) -> None:
        print("%s: %s" % (asked.list, text), file=sys.stderr)

    report(confirm_list(asked.list, limits, asked.digest))
    for found in settle(asked.machines or reader.machines(), asked.list, limits, report):
        sys.stdout.write("%s\n" % found)
    return reader.status


def add_settle(commands: Subcommands) -> None:
    columns = [("machine", "as it was given")]
    columns += [("verdict", "its verdict line, `never halts`, or `open`")]
    columns += [("line", "the verdict line of its line in the list")]
    columns += [("change", "same or mirror, and the machine's states and symbols for those of the line")]
    settled = add_command(commands, "settle", do_settle, "verdicts from a complete list", _SETTLE, columns)
    settled.add_argument("machines", nargs="*", metavar="MACHINE")
    settled.add_argument(
        "--list", required=True, metavar="VERDICTS", help="the complete list, or a folder of shards"
    )
    settled.add_argument("--digest", metavar="SHA256", help="the sha256 of VERDICTS, in place of cover")
    add_limits(settled, Limits.RANGES)
