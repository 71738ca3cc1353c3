"""Verdicts on small Turing machines, by a proved library.

    >>> import budlarem
    >>> for verdict in budlarem.decide(["1RB1LB_1LA1RZ", "1RA1RA"]):
    ...     print(verdict)
    1RB1LB_1LA1RZ halt 6 4
    1RA1RA translated R 1 2 1 1

The library makes all verdicts. This package, which calls it, isn't proved.

The calls, documented by `help(budlarem.decide)` and so on:

    decide, decide_bytes, decide_lines      the verdicts on a list of machines
    check, check_bytes                      the checker's answers to a list of verdicts
    recurrences, parse_recurrence           the exact recurrence behind verdicts
    parse, is_machine                       the verdict of a line; whether a text is a machine
    read                                    the machines of a list
    judge, compare                          the claims of others, or two lists
    settle, lines_of, confirm_list          verdicts from a complete list
    normal, distinct                        the normal form of machines
    trace, picture, at                      the run of a machine, its picture, its later steps
    report                                  a page on a list of verdicts
    publish                                 an archive of a list that others can check
"""

from . import _signals

if _signals.is_command():
    _signals.handle_early()

import importlib  # noqa: E402

# It sees the forks from here on.
from . import _fork as _fork
from ._version import COMMIT as COMMIT, VERSION

__version__ = VERSION

# `typing` is slow to import, and the command handles signals before.
TYPE_CHECKING = False
if TYPE_CHECKING:
    from ._api import *
else:

    def __getattr__(name: str) -> object:
        """Imports all calls and types at the first use of one. Raises AttributeError."""
        if name == "__all__" or not name.startswith("_"):
            api = importlib.import_module("budlarem._api")
            if name == "__all__":
                return sorted([*api.__all__, "COMMIT", "__version__"])
            if name in api.__all__:
                return getattr(api, name)
            if name in globals():
                return globals()[name]
        raise AttributeError("module %r has no attribute %r" % (__name__, name))


def __dir__() -> list[str]:
    return sorted({*globals(), *importlib.import_module("budlarem._api").__all__})
