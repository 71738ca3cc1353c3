"""Detects a fork of a process with threads. It is imported first, so that it sees all forks."""

import os
import sys


class Fork:
    """The library may not be called in a process that was forked from one with threads."""

    had_threads = False
    forbidden = False

    @classmethod
    def before(cls) -> None:
        threading = sys.modules.get("threading")
        cls.had_threads = threading is not None and threading.active_count() > 1

    @classmethod
    def in_child(cls) -> None:
        cls.forbidden = cls.forbidden or cls.had_threads


os.register_at_fork(before=Fork.before, after_in_child=Fork.in_child)


def forbid_fork() -> None:
    """Raises RuntimeError in such a process."""
    if Fork.forbidden:
        raise RuntimeError(
            "the library can't be called in a process that was forked from one with threads;"
            " start the process by multiprocessing.get_context('spawn')"
        )
