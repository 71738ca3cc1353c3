#!/usr/bin/python3
"""Prove the library of a crate from nothing, and keep its statements alone.

    tools/libraries.py JOBS...

`tools/prove` runs it in the crate's folder, where no work is kept. The gate keeps its libraries so too: what is
above loads them in a third of the time that it takes with their proofs, and a proof from nothing loads what is
below it once, not once for each job. A kit of another layout gets `rt lib` instead. Status and output are `rt`'s.
"""

import importlib
import os
import pathlib
import signal
import subprocess
import sys
from typing import Any


def kit() -> Any:
    """Import the kit's module of crates, or return None where it is another."""
    page = subprocess.run(["rt", "doc"], stdout=subprocess.PIPE, text=True, check=True).stdout
    sys.path.insert(0, str(pathlib.Path(page.strip()).parent / "bin"))
    try:
        crates = importlib.import_module("rtlib")
    except ImportError:
        return None
    known = hasattr(crates, "crates_below") and hasattr(crates, "guarded") and hasattr(crates, "Crate")
    return crates if known and hasattr(crates.Crate, "build_rlib") else None


def build(crates: Any, folder: pathlib.Path, jobs: list[str]) -> int:
    """Prove a crate, and stamp its library as made from these sources; return the status of `rt`."""
    # What is started ends with this process.
    crates.guarded()
    signal.signal(signal.SIGINT, signal.SIG_DFL)
    crates.Crate.cuts_libraries = True
    crate = crates.Crate(str(folder), str(folder.parents[1]), {})
    before = crate.stamp()
    status: int = crate.build_rlib(jobs, anew=True)
    if status == 0 and crate.stamp() == before:
        (folder / "out/rlib/stamp").write_text(before, encoding="utf-8")
    return status


def main(jobs: list[str]) -> int:
    crates = kit()
    if crates is None:
        os.execvp("rt", ["rt", "lib", *jobs])
    return build(crates, pathlib.Path.cwd(), jobs)


if __name__ == "__main__":
    sys.exit(main(sys.argv[1:]))
