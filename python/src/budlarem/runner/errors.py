"""The errors that end a run, each with its exit status."""

from __future__ import annotations

from .._text import LONGEST_OF_ERROR


class FolderError(ValueError):
    """Folder, list and options contradict each other; nothing was changed. Status 2."""


class UsageError(ValueError):
    """The options contradict each other. Status 2."""


class RunError(Exception):
    """A fault. Finished chunks are kept, and the same command resumes the run. Status 3."""


class MovedError(RunError, OSError):
    """The folder was moved or replaced; nothing more is written. Status 3."""


class TakenError(RunError, FileExistsError):
    """Another process has a file where this one was to write. Status 3."""

    def __init__(self, path: str) -> None:
        how = "was made or replaced by another process meanwhile, and stays as it is; take it away"
        super().__init__("%s %s" % (path, how))


class CheckError(Exception):
    """The checker doesn't confirm a verdict. Status 1."""


class ReplyError(Exception):
    """The reply for a chunk is invalid. `line` is the index of the line in the chunk, or None."""

    def __init__(self, text: str, line: int | None = None) -> None:
        super().__init__(text)
        self.line = line


class DeadWorkersError(Exception):
    """Every worker that did a task died, and maybe by it."""


def describe_error(error: BaseException) -> str:
    """The type and text of an error, cut to a bounded length; the text alone for a ReplyError."""
    if isinstance(error, ReplyError):
        return str(error)
    name, text = type(error).__name__, str(error)[:LONGEST_OF_ERROR]
    return "%s: %s" % (name, text) if text else name
