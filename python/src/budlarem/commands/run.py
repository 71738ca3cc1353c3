"""The command `budlarem run`.

Exit status: 0 if all lines are machines, 1 if a line was refused or the checker doesn't confirm a verdict. It is
2 if command, limits or folder were refused, 3 for a fault, 130 after an interruption, 143 and 129 after SIGTERM
and SIGHUP.
"""

import argparse
import contextlib
import os
import sys
from typing import Callable

from .._text import escape_hidden
from ..limits import Limits, limits_of
from ..numbers import option_number
from ..runner.backends import HERE, SENT, Backend, ThreadBackend
from ..runner.chunks import parse_retention
from ..runner.errors import CheckError, FolderError, MovedError, RunError, UsageError
from ..runner.errors import describe_error
from ..runner.folder import CHECK, CHECK_HERE, VERDICTS, Folder, require_separate_list
from ..runner.input import ListFile, require_form
from ..runner.passes import RunOptions, run
from ..runner.progress import Progress
from ..runner.replies import identity
from .shared import Subcommands, add_number, add_passes, end_at_signals

_HELP = """Decides a list of any length in chunks, on all cores of this computer or by a dask cluster. FOLDER
gets verdicts.txt, with a line for each line of LIST in its order, and summary.json. After any interruption the
same command resumes the run. More passes may be added at the end of the command later; they decide the
holdouts. For speed, lines are read as they are: if more than half of the first thousand would be refused,
nothing is decided, and the first of them is printed. `budlarem read` extracts the machines of a list in other
forms."""
_RESUME = "; the same command resumes the run"

# dask's options of TLS, with the arguments of its client and their help.
TLS = {
    "tls-ca-file": ("tls_ca_file", "the trusted certificates"),
    "tls-cert": ("tls_client_cert", "this computer's certificate"),
    "tls-key": ("tls_client_key", "its key"),
}


def add_command(commands: Subcommands) -> None:
    parser = commands.add_parser("run", help="decide a list of any length in chunks", description=_HELP)
    parser.set_defaults(do=do_run)
    parser.add_argument("list", metavar="LIST", help="a file, plain or gzip; - is standard input")
    parser.add_argument("--out", required=True, metavar="FOLDER", help="the folder for the verdicts")
    help = "limits of a pass, each of them optional; the next pass decides its holdouts"
    add_passes(parser, help + " (default: one pass, at the defaults of bb)")
    add_places(parser, "decide the chunks")
    parser.add_argument("--check", action="store_true", help="have the checker confirm each verdict")
    help = "the same, in this process and not by workers"
    parser.add_argument("--check-here", action="store_true", help=help)
    help = "keep only the lines of holdouts and refusals of each pass; with halts=N also those of halts"
    help += " after more than N steps (default: all)"
    parser.add_argument("--keep", action="append", metavar="left|halts=N", help=help)
    help = f"the most lines of a chunk (default: {HERE.lines:,}, over dask {SENT.lines:,})"
    add_number(parser, "--chunk", help, metavar="LINES")
    parser.add_argument("--piece", dest="chunk", type=option_number, help=argparse.SUPPRESS)


def add_places(parser: argparse.ArgumentParser, work: str) -> None:
    """Adds the options for places to work."""
    add_number(parser, "--threads", "cores used (default: all)")
    parser.add_argument("--scheduler", metavar="ADDRESS", help="of dask, whose workers %s" % work)
    for name, (argument, what) in TLS.items():
        parser.add_argument("--" + name, dest=argument, metavar="FILE", help="dask's option: %s" % what)


def require_places(asked: argparse.Namespace) -> dict[str, str]:
    """The files of TLS, by the argument of dask's client. Raises UsageError for options of places that contradict each
    other, or a file that can't be read."""
    if asked.scheduler is not None and asked.threads is not None:
        raise UsageError("--threads is for this computer, --scheduler for others; give one of them")
    if asked.threads is not None and asked.threads < 1:
        raise UsageError("--threads is %d, but must be 1 or more" % asked.threads)
    paths = {name: getattr(asked, argument) for name, (argument, _) in TLS.items()}
    files = {name: path for name, path in paths.items() if path is not None}
    if asked.scheduler is None and files:
        raise UsageError("--tls-ca-file, --tls-cert and --tls-key are for --scheduler, which isn't given")
    for name, path in files.items():
        try:
            open(path, "rb").close()
        except OSError as error:
            raise UsageError("--%s %s can't be read: %s" % (name, path, error.strerror)) from None
    return {TLS[name][0]: path for name, path in files.items()}


def make_backend(asked: argparse.Namespace, report: Callable[[str], None]) -> Backend:
    """The backend that the options name. Raises UsageError, RunError."""
    files = require_places(asked)
    if asked.scheduler is not None:
        # Its imports take a while.
        from ..runner.dask import DaskBackend

        return DaskBackend(asked.scheduler, files, report)
    return ThreadBackend(asked.threads or len(os.sched_getaffinity(0)))


def fill_closed(is_input_read: bool) -> None:
    """Opens /dev/null in place of closed standard streams. Raises OSError if standard input is to be read."""
    for number in range(3):
        try:
            os.fstat(number)
        except OSError as error:
            if number == 0 and is_input_read:
                raise OSError(error.errno, "standard input is closed") from None
            opened = os.open(os.devnull, os.O_RDWR | os.O_CLOEXEC)
            if opened != number:
                os.dup2(opened, number)
                os.close(opened)
    # Python has None for a stream that was closed when it started.
    for name in ("stdout", "stderr"):
        if getattr(sys, name) is None:
            setattr(sys, name, open(os.devnull, "w"))


def do_run(asked: argparse.Namespace) -> int:
    fill_closed(asked.list == "-")
    progress = Progress()
    passes = [limits_of(word) for word in asked.passes] if asked.passes else [Limits()]
    if asked.chunk is not None and asked.chunk < 1:
        raise UsageError("--chunk is %d, but must be 1 or more" % asked.chunk)
    resumes = "%s in %s\n" % (_RESUME, escape_hidden(asked.out))
    end_at_signals(lambda what: "%sbudlarem: %s%s" % (progress.erase_sequence(), what, resumes))
    backend = make_backend(asked, progress.print_line)
    try:
        source = ListFile(asked.list)
    except OSError as error:
        raise RunError("the list %s can't be read: %s" % (asked.list, error.strerror or error)) from None
    try:
        return _decide_list(asked, source, passes, backend, progress)
    except (FolderError, UsageError, CheckError, MovedError):
        raise
    except RunError as error:
        raise RunError(str(error) + _RESUME) from error
    except Exception as error:
        # Every other error is a fault, never a status of the list.
        text = str(error) if isinstance(error, OSError) else describe_error(error)
        raise RunError(text + _RESUME + " once the cause is removed") from error
    finally:
        progress.clear()
        source.close()


def _decide_list(
    asked: argparse.Namespace, source: ListFile, passes: list[Limits], backend: Backend, progress: Progress
) -> int:
    """Decides a list; returns 0 or 1. Raises all other errors."""
    list_id = source.id if source.is_regular else None
    require_separate_list(asked.out, list_id)
    require_form(source)
    with contextlib.closing(Folder(asked.out, list_id)) as folder:
        options = RunOptions(
            backend,
            identity(),
            progress,
            source.name,
            most_lines=asked.chunk,
            check=CHECK_HERE if asked.check_here else CHECK if asked.check else "",
            keep=parse_retention(asked.keep),
            require_list=source.require_unchanged,
        )
        outcome = run(folder, source, passes, options)
    progress.print_line("%s; %s" % (outcome, os.path.join(asked.out, VERDICTS)))
    return 1 if outcome.counts["refused"] else 0
