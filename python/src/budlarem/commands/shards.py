"""The commands `shards` and `shard`.

Exit status: 0; 1 if `cover` refuses a shard or the skeleton; 2 if command, limits or folder were refused; 3 for a
fault; 130 after an interruption. Finished shards are kept, and the same command resumes.
"""

from __future__ import annotations

import argparse
import contextlib
import dataclasses
import random
import re
import sys

from .._text import escape_hidden
from ..limits import Limits, in_range
from ..runner.backends import Backend
from ..runner.errors import FolderError, UsageError
from ..runner.progress import TerminalLine
from ..shards import DamagedError, Plan, ShardFolder, ShardTask, create, draw
from .run import add_places, make_backend, require_places
from .shared import Subcommands, add_command, add_number, end_at_signals

# The options of a plan beside --states: default, least, most and help.
_SIZES = {
    "symbols": (2, 2, 10, "symbols of the machines, 2 to 10"),
    "entries": (3, 1, 250, "a machine with so many entries that leads to others is a shard"),
    "list_steps": (200, 0, 10_000_000, "steps of the runs that make the list"),
}
_SHARDS = """Lists, decides and checks all machines of a size in shards: each the walk below one machine, an array
job of its own. FOLDER gets the plan, a file for each finished shard, the skeleton with a line for each, the
undecided lines, and a summary; the line of cover on the skeleton goes to standard output. The programs
tree_normal_form, bb and cover are found in the PATH.

Without --states, FOLDER has a plan already, and its unfinished shards are run. --plan only makes the
plan. --pending prints the machines of the unfinished shards, one a line, as for
`budlarem shards FOLDER --pending | xargs -P 4 -n 1 budlarem shard FOLDER`. --verify does finished shards again, and
compares them: all, or a share such as 0.1, drawn by a seed. The seed is printed, and the summary has it."""

_SHARD = """Lists, decides and checks one shard of a FOLDER planned by `budlarem shards`, and prints its line:
MACHINE below N U G SHA256. A finished shard isn't run again, and the command waits for one under way elsewhere."""


class _Progress(TerminalLine):
    """The number of finished shards, on a terminal."""

    def start(self, count: int, verb: str = "done") -> None:
        self._done, self._all, self._verb = 0, count, verb

    def finish(self, task: ShardTask) -> None:
        self._done += 1

    def tick(self, status: str = "") -> None:
        parts = ["%d of %d shards %s" % (self._done, self._all, self._verb), *filter(None, [status])]
        self.show(lambda: ", ".join(parts))


def do_shards(asked: argparse.Namespace) -> int:
    plan = _plan_of(asked)
    _require_one_use(asked)
    resumes = "`budlarem shards %s` resumes\n" % escape_hidden(asked.folder)
    end_at_signals(lambda what: "budlarem: %s; %s" % (what, resumes))
    progress = _Progress()
    create(asked.folder, plan)
    with contextlib.closing(ShardFolder(asked.folder, progress.print_line)) as folder:
        if asked.pending:
            sys.stdout.writelines(machine + "\n" for machine in folder.pending())
        elif not asked.plan:
            sys.stdout.write(_run_all(asked, folder, progress))
    return 0


def _run_all(asked: argparse.Namespace, folder: ShardFolder, progress: _Progress) -> str:
    """Does the unfinished shards, verifies some if asked, and joins all; returns the line of `cover`."""
    backend = make_backend(asked, progress.print_line)
    try:
        while True:
            try:
                progress.start(len(pending := folder.pending()))
                folder.do(pending, backend, progress, progress.finish)
                return folder.join(_verify(asked, folder, backend, progress))
            except DamagedError as error:
                folder.note_damage(error)
    finally:
        backend.close()
        progress.clear()


def _verify(
    asked: argparse.Namespace, folder: ShardFolder, backend: Backend, progress: _Progress
) -> dict[str, int] | None:
    """Does shards again, if that is asked; returns how many of how many, and the seed."""
    if asked.verify is None:
        return None
    machines, seed = folder.shards(), asked.seed
    if seed is None:
        seed = random.SystemRandom().randrange(2**32)
    drawn = draw(machines, asked.verify, seed)
    progress.start(len(drawn), "verified")
    folder.verify(drawn, backend, progress)
    by = "" if len(drawn) == len(machines) else ", drawn by the seed %d" % seed
    progress.print_line("%d of %d shards were done again%s: the same" % (len(drawn), len(machines), by))
    return {"shards": len(drawn), "of": len(machines), "seed": seed}


def do_shard(asked: argparse.Namespace) -> int:
    with contextlib.closing(ShardFolder(asked.folder, _Progress().print_line)) as folder:
        if not folder.has_shard(asked.machine):
            sentence = "%s is no shard of %s; `budlarem shards %s --pending` prints the unfinished ones"
            raise FolderError(sentence % (asked.machine, asked.folder, asked.folder))
        sys.stdout.write(folder.do_shard(asked.machine))
    return 0


def _share(text: str) -> float:
    if not re.fullmatch(r"[0-9]+|[0-9]*[.][0-9]+", text):
        raise argparse.ArgumentTypeError("%r is no share; give one such as 0.1" % text)
    return float(text)


def _plan_of(asked: argparse.Namespace) -> Plan | None:
    """The plan of the options; None without --states. Raises UsageError, LimitsError."""
    names = (*_SIZES, *Limits.RANGES, "recurrence")
    given = {name: getattr(asked, name) for name in names if getattr(asked, name) is not None}
    if asked.states is None:
        for name in [*given, *(["plan"] if asked.plan else [])]:
            sentence = "--%s goes with --states, which makes a plan; without it, %s has one already"
            raise UsageError(sentence % (name.replace("_", "-"), asked.folder))
        return None
    given.pop("recurrence", None)
    sizes = {name: given.pop(name, default) for name, (default, *_) in _SIZES.items()}
    in_range("--states", asked.states, 1, 25)
    for name, number in sizes.items():
        least, most = _SIZES[name][1:3]
        most = min(most, asked.states * sizes["symbols"]) if name == "entries" else most
        in_range("--" + name.replace("_", "-"), number, least, most)
    return Plan(asked.states, **sizes, limits=Limits(**given), recurrence=bool(asked.recurrence))


def _require_one_use(asked: argparse.Namespace) -> None:
    """Raises UsageError for options that contradict each other."""
    if asked.plan and asked.pending:
        raise UsageError("--plan makes a plan, --pending prints what it leaves to be run; give one of them")
    for name in ("threads", "scheduler", "verify"):
        if (asked.plan or asked.pending) and getattr(asked, name) is not None:
            other = "plan" if asked.plan else "pending"
            raise UsageError("--%s is for shards that are run, and --%s runs none" % (name, other))
    if asked.verify is not None and not 0 < asked.verify <= 1:
        raise UsageError("--verify is %g, but must be above 0 and at most 1" % asked.verify)
    if asked.seed is not None and asked.verify is None:
        raise UsageError("--seed draws the shards of --verify, which isn't given")
    require_places(asked)


def add_shards(commands: Subcommands) -> None:
    shards = add_command(commands, "shards", do_shards, "decide and check a whole size in shards", _SHARDS)
    shards.add_argument("folder", metavar="FOLDER", help="the folder of the plan and the results")
    add_number(shards, "--states", "states of the machines, 1 to 25; makes the plan")
    for name, (default, *_, what) in _SIZES.items():
        add_number(shards, "--" + name.replace("_", "-"), "%s (default: %d)" % (what, default))
    for name, default in dataclasses.asdict(Limits()).items():
        add_number(shards, "--" + name, "{:,} to {:,} (default: {:,})".format(*Limits.RANGES[name], default))
    help = "find and count the exact recurrence behind each pair too"
    shards.add_argument("--recurrence", action="store_true", default=None, help=help)
    add_places(shards, "do the shards")
    shards.add_argument("--plan", action="store_true", help="make the plan, and run nothing")
    shards.add_argument("--pending", action="store_true", help="print the unfinished shards, and run nothing")
    help = "do finished shards again, and compare: all, or a share, above 0 and at most 1"
    shards.add_argument("--verify", nargs="?", type=_share, const=1.0, metavar="SHARE", help=help)
    add_number(shards, "--seed", "of the shards that --verify draws (default: a random one)")
    shard = add_command(commands, "shard", do_shard, "decide and check one shard of a size", _SHARD)
    shard.add_argument("folder", metavar="FOLDER", help="a folder that `budlarem shards` has planned")
    shard.add_argument("machine", metavar="MACHINE", help="the machine below which the shard is")
