#!/usr/bin/env python3
"""Makes all machines of two states and two symbols, and shows those that are left undecided.

    python3 examples/python/undecided.py

Prints how many verdicts there are of each kind, and each undecided machine with its cells. Of the
machines that are one another's mirror, or another order of states, only the first is asked for.
"""

import collections
import itertools
from typing import Iterator

import budlarem

LIMITS = budlarem.Limits(steps=1_000, cells=512, depth=50)
ENTRIES = ["".join(parts) for parts in itertools.product("01", "LR", "ABZ")] + ["---"]


def machines() -> Iterator[str]:
    """All machines of two states and two symbols, one of each normal form."""
    every = ("%s%s_%s%s" % entries for entries in itertools.product(ENTRIES, repeat=4))
    return (form.machine for form, before in budlarem.distinct(every, steps=100) if before is None)


def main() -> None:
    counts: "collections.Counter[str]" = collections.Counter()
    for verdict in budlarem.decide(machines(), LIMITS):
        counts[verdict.kind] += 1
        if isinstance(verdict, budlarem.Undecided):
            (now,) = budlarem.trace(verdict.machine, 1_000, start=1_000)
            print("%s: %d cells after 1,000 steps" % (verdict.machine, len(now.cells)))
    for kind, count in counts.most_common():
        print(count, kind)


if __name__ == "__main__":
    main()
