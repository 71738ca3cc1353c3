"""Signals of the command before its slow imports: an early one has the same effect as a later one, and no
traceback. Before the first line of the package Python itself prints one."""

from __future__ import annotations

import os
import sys

# `typing` takes longer to import than everything done here.
TYPE_CHECKING = False
if TYPE_CHECKING:
    from types import FrameType
    from typing import Callable, NoReturn

# The module behind `signal`, which Python has imported by now.
_signal = sys.modules["_signal"]
_NAMES = {_signal.SIGINT: "SIGINT", _signal.SIGTERM: "SIGTERM", _signal.SIGHUP: "SIGHUP"}
# The messages of commands that a signal ends.
_ENDS = {
    "run": "budlarem: %s; the same command resumes the run\n",
    "publish": "budlarem: %s: no archive is written\n",
}


def is_command() -> bool:
    """Whether this process runs the command `budlarem`, by its script or by `python3 -m budlarem`."""
    # Python 3.9 doesn't have the words; a module counts as another one there.
    words: list[str] = getattr(sys, "orig_argv", ["-m"])
    is_module = sys.argv[:1] == ["-m"] and "budlarem" in words[words.index("-m") + 1 :][:1]
    return is_module or os.path.basename((sys.argv or [""])[0]) == "budlarem"


def handle_early() -> None:
    """Has signals end the process at once, with the message of its command, if it has one."""
    command = sys.argv[1] if len(sys.argv) > 1 else ""
    # SIGTERM and SIGHUP end a command without a message as they do other programs; ignored signals stay so.
    for number in _NAMES if command in _ENDS else (_signal.SIGINT,):
        if _signal.getsignal(number) != _signal.SIG_IGN:
            _signal.signal(number, _handler_of(command))


def handle_interrupts() -> None:
    """Has SIGINT raise KeyboardInterrupt from here on, in a command without a message."""
    command = sys.argv[1] if len(sys.argv) > 1 else ""
    if command not in _ENDS and _signal.getsignal(_signal.SIGINT) != _signal.SIG_IGN:
        _signal.signal(_signal.SIGINT, _signal.default_int_handler)


def _handler_of(command: str) -> Callable[[int, FrameType | None], NoReturn]:
    """A handler that ends the process, with the message of the command."""

    def end(number: int, frame: FrameType | None) -> NoReturn:
        name = _NAMES[number]
        if command == "run":
            name = "interrupted" if name == "SIGINT" else "ended by %s" % name
        if command in _ENDS:
            try:
                os.write(2, (_ENDS[command] % name).encode())
            except OSError:
                pass
        os._exit(128 + number)

    return end
