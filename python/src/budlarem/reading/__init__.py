"""Reads lists: the one machine of each line, as `bb` reads it.

A line's machine is its one machine text, whatever stands around it. Every rewriting is named, every other line is
refused with a reason, and skipped lines are counted. `tests/support/forms.json` of the repository has examples.
"""

from __future__ import annotations

from ..list_files import EncodingError as EncodingError, EndlessLineError as EndlessLineError, Source
from .forms import Readings as Readings
from .readings import Form as Form, Reading as Reading, Reason as Reason, Rewriting as Rewriting
from .readings import Skipped as Skipped


def read(lines: Source, form: Form | None = None) -> Readings:
    """The reading of each line; empty lines, comments and the like are skipped.

    `lines` is a path, a file that is open for reading bytes, or an iterable of lines, with or without their
    newlines. Gzip is detected by its first two bytes. Bytes that aren't UTF-8 stay as they are, and are no part
    of a machine.

    Without `form` the first hundred lines decide it: `machines` if each is a machine and nothing else,
    `verdicts` if each is a verdict line, else `text`. Later lines are read when needed. The result has the list's
    `form`, and counts skipped lines in `skips`.

    Raises OSError if a path can't be opened or read, or a gzip is cut. Raises EncodingError for UTF-16 and
    formats that are no text. Raises TypeError if `lines` or an item has the wrong type. Raises ValueError for
    an item with a newline inside, and for a form of claims.

    >>> for reading in read(["17. 1rb1lb 1la1rh, the champion", "1RB1LC_1LA1RZ"]):
    ...     print(reading.machine, reading.before, reading.behind, reading.reason)
    1RB1LB_1LA1RZ 17. the champion None
    None   entry 2 names state C, but there are 2 states
    """
    return Readings(lines, form)
