"""The commands over machines: `read`, `decide`, `normal`, `trace`, `picture`."""

import argparse
import sys

from ..decide_list import decide_readings
from ..engine import MachineError, trace
from ..limits import Limits, Plan
from ..normal_forms import distinct
from ..numbers import option_number
from ..pictures import picture
from .shared import LIST_HELP, ListReader, Subcommands, add_command, add_file, add_form, add_limits
from .shared import add_number, limits_in

_READ = "Writes the machine of each line of a list, as bb reads it.\n\n%s Status 1 if a line was refused."
_DECIDE = """Decides the machine of each line of a list, and copies the other fields of the line.

%s The verdict of a refused line is `refused` and the column at which bb refuses it; status 1 then."""
_NORMAL = """Writes the normal form of each machine of a list: states and symbols in the order in which a run
meets them, and mirrored so that the first move is to the right.

%s Status 1 if a line was refused."""


def do_read(asked: argparse.Namespace) -> int:
    reader = ListReader(asked.file, asked)
    for machine in reader.machines():
        sys.stdout.write("%s\n" % machine)
    sys.stdout.flush()
    counts = (reader.name, reader.taken, reader.rewritten, reader.refused)
    print("%s: machines %d, of these rewritten %d; refused %d" % counts, file=sys.stderr)
    return reader.status


def do_decide(asked: argparse.Namespace) -> int:
    plan = Plan(not asked.no_cyclers, not asked.no_translated, not asked.no_backward)
    reader = ListReader(asked.file, asked)
    for found in decide_readings(reader.readings(), limits_in(asked), plan, threads=asked.threads):
        sys.stdout.write("%s\n" % found)
    return reader.status


def do_normal(asked: argparse.Namespace) -> int:
    reader = ListReader(asked.file, asked)
    for form, before in distinct(reader.machines(), steps=asked.steps, cells=asked.cells):
        if before is None or not asked.distinct:
            sys.stdout.write("%s\n" % form)
    return reader.status


def add_machines(commands: Subcommands) -> None:
    columns = [("machine", "as bb reads it")]
    read = add_command(commands, "read", do_read, "machines of a list", _READ % LIST_HELP, columns)
    columns = [("verdict", "the line of bb decide"), ("fields", "the text before the machine, if any")]
    columns += [("fields", "the text behind it, if any")]
    help = "decide machines, and copy other fields"
    decide = add_command(commands, "decide", do_decide, help, _DECIDE % LIST_HELP, columns)
    columns = [("normal form", "of the machine"), ("machine", "as it was read")]
    columns += [("states", "the state of the machine for each state of the normal form")]
    columns += [("L or R", "L if left and right were exchanged")]
    columns += [("symbols", "the symbol of the machine for each symbol of the normal form")]
    help = "machines in normal form"
    normal = add_command(commands, "normal", do_normal, help, _NORMAL % LIST_HELP, columns)
    for parser in (read, decide, normal):
        add_file(parser)
        add_form(parser)
    add_limits(decide, Limits.RANGES)
    for name in ("cyclers", "translated", "backward"):
        decide.add_argument("--no-" + name, action="store_true", help="leave this decider out")
    add_number(decide, "--threads", "cores used", 1)
    normal.add_argument("--distinct", action="store_true", help="only the first machine of each normal form")
    add_number(normal, "--steps", "of the run", 10_000)
    add_limits(normal, ["cells"])


_TRACE = """Writes a line for each step of a run up to N, the bytes of bb trace. Status 1 if the cells ended the
run before, or MACHINE is refused."""
_PICTURE = """Writes a space-time picture of a run, as a PNG file: a row for each step, a column for each
position; 0 is white, 1 black, the head red, unvisited cells grey. A run of more than 2,000 positions is scaled
down: a pixel has the mean colour of its cells, and the head isn't shown."""


def do_trace(asked: argparse.Namespace) -> int:
    rows = trace(asked.machine, asked.upto, asked.cells)
    try:
        for now in rows:
            sys.stdout.write("%s\n" % now)
    except MachineError as error:
        sys.stdout.write("refused %d\n" % error.column)
        return 1
    return 1 if rows.cut else 0


def do_picture(asked: argparse.Namespace) -> int:
    positions = {"columns": asked.columns, "left": asked.left, "right": asked.right}
    more = {"cells": asked.cells, "every": asked.every, "scale": asked.scale}
    made = picture(asked.machine, asked.upto, **positions, **more)
    made.save(asked.out)
    if made.every > 1:
        print("budlarem: every %d steps" % made.every, file=sys.stderr)
    if made.across > 1:
        print("budlarem: a pixel has the mean colour of %d cells" % made.across, file=sys.stderr)
    if made.is_part:
        print("budlarem: positions %d to %d" % (made.left, made.right), file=sys.stderr)
    return 0


def add_runs(commands: Subcommands) -> None:
    columns = [("step", "from 0 on"), ("state", "A to Y, or Z after a step into it")]
    columns += [("position", "of the head, 0 at the start"), ("cells", "visited so far, a digit each")]
    steps = add_command(commands, "trace", do_trace, "the steps of a run", _TRACE, columns, "a space")
    image = add_command(commands, "picture", do_picture, "a space-time picture of a run", _PICTURE)
    for parser in (steps, image):
        parser.add_argument("machine", metavar="MACHINE")
        parser.add_argument("--upto", type=option_number, required=True, metavar="N", help="steps of the run")
        add_limits(parser, ["cells"])
    image.add_argument("--out", required=True, metavar="PICTURE.png")
    add_number(image, "--every", "show each Nth step")
    add_number(image, "--left", "the first position (default: the lowest)", metavar="P")
    add_number(image, "--right", "the last position (default: the highest)", metavar="P")
    add_number(image, "--columns", "cut to N positions about the middle")
    add_number(image, "--scale", "pixels of a place", 1)
