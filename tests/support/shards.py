"""The line of `cover`, and the lines that stand for shards of a list."""

from __future__ import annotations

import hashlib
import re
from typing import Collection

from .program import as_lines


def counts_in(line: str) -> str:
    """Return the counts in a line of `cover`, without the greatest halt: a skeleton's is that of its own lines."""
    return line.split(": ")[1].partition(";")[0]


def shard_line(machine: str, lines: list[str]) -> str:
    """Return the line that stands for a shard in a skeleton."""
    undecided = [line for line in lines if " undecided " in line]
    wide = sum(line.count("---") > 1 for line in undecided)
    digest = hashlib.sha256(as_lines(lines)).hexdigest()
    return "%s below %d %d %d %s" % (machine, len(lines), len(undecided), wide, digest)


def summarize_bound(lines: Collection[str], assumed: Collection[str] = (), where: str = "") -> str:
    """Return the end of the line, of a list or of the lines of a skeleton, if some machines are assumed."""
    halts = re.findall(r" halt (\d+) (\d+)$", "\n".join(lines), flags=re.M)
    steps, score = (max([0, *(int(halt[k]) for halt in halts)]) for k in (0, 1))
    undecided = [line.split(" ")[0] for line in lines if " undecided " in line]
    known = sum(machine in assumed for machine in undecided)
    shards = [line.split(" ") for line in lines if " below " in line]
    count = len(undecided) - known + sum(int(fields[3]) for fields in shards)
    word = "step" if steps == 1 else "steps"
    counts = "; %d open, %d assumed" % (count, known)
    return "; halts %swithin %d %s, score up to %d%s" % (where, steps, word, score, counts)
