"""The command `budlarem`, also `python3 -m budlarem`."""

from __future__ import annotations

from . import _signals

# `typing` takes longer to import than everything done here.
TYPE_CHECKING = False
if TYPE_CHECKING:
    from typing import NoReturn


def main() -> NoReturn:
    _signals.handle_early()
    from .commands import run_and_exit

    run_and_exit()


if __name__ == "__main__":
    main()
