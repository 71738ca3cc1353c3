#!/usr/bin/env python3
"""Decides the machines of standard input, a line each, and checks what was said.

    pip install python/dist/budlarem-*.whl
    python3 examples/python/list.py < machines

Prints each verdict line, and the checker's answer before it. It uses all cores, and holds only some lines at
a time. Without the wheel, after `make library`, the package is found by `PYTHONPATH=python/src`.
"""

import itertools
import os
import sys
from typing import Iterator

import budlarem

LIMITS = budlarem.Limits(steps=1_000, cells=200, depth=60)


def check_verdicts(machines: Iterator[str]) -> Iterator[tuple[budlarem.Answer, budlarem.Verdict]]:
    """The checker's answer to each verdict, and the verdict."""
    verdicts = budlarem.decide(machines, LIMITS, threads=os.cpu_count() or 1)
    kept, given = itertools.tee(verdicts)
    return zip(budlarem.check(given, LIMITS), kept)


def main() -> None:
    machines = (line.rstrip("\n") for line in sys.stdin)
    for answer, verdict in check_verdicts(machines):
        print(answer, verdict)


if __name__ == "__main__":
    main()
