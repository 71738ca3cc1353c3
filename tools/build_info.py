"""What the builds of packages and of the release share: commands, the version, what a built file needs."""

from __future__ import annotations

import hashlib
import os
import pathlib
import re
import subprocess
import sys
from typing import Iterable, NamedTuple, Sequence

TOP = pathlib.Path(__file__).resolve().parents[1]
# The newest glibc that the wheel's tag allows.
NEWEST_GLIBC = (2, 17)
_NAME = os.path.basename(sys.argv[0])


def output_of(*command: object) -> str:
    """Run a command at the repository's top; return its trimmed output, or end the process if it fails."""
    words = [str(word) for word in command]
    try:
        done = subprocess.run(words, cwd=TOP, stdout=subprocess.PIPE, stdin=subprocess.DEVNULL, text=True)
    except FileNotFoundError:
        lines = (TOP / ".ci" / "packages.txt").read_text().splitlines()
        rows = [line.split("#")[0].split() for line in lines]
        package = next(("Debian: " + row[0] for row in rows if words[0] in row[1:]), "no package of Debian's")
        sys.exit("%s: %s isn't installed (%s)" % (_NAME, words[0], package))
    if done.returncode != 0:
        sys.exit("%s: %s ended with status %d" % (_NAME, " ".join(words), done.returncode))
    return done.stdout.strip()


class Version(NamedTuple):
    """The header's version, what names the commit behind it, and the commit with `, changed` where it is."""

    number: str
    suffix: str
    commit: str


def header_version() -> str:
    """Return the version that the header states."""
    found = re.search(r'#define BB_VERSION "([0-9.]+)"', (TOP / "include" / "bb.h").read_text("utf-8"))
    if found is None:
        sys.exit("%s: include/bb.h has no version" % _NAME)
    return found[1]


def commit_version(paths: Sequence[str], files: Iterable[pathlib.Path]) -> Version:
    """Return a package's version, with `.changed` and a digest of `files` after changes below `paths`."""
    number, commit = header_version(), output_of("git", "rev-parse", "HEAD")
    suffix = "g" + commit[:12]
    if not output_of("git", "status", "--porcelain", "--", *paths):
        return Version(number, suffix, commit)
    digest = hashlib.sha256(b"".join(path.read_bytes() for path in files)).hexdigest()
    return Version(number, "%s.changed.%s" % (suffix, digest[:8]), commit + ", changed")


def is_plain(library: pathlib.Path) -> bool:
    """Tell whether a library is the one that cargo builds, without proofs."""
    return " bb_is_plain" in output_of("nm", "--dynamic", "--defined-only", library)


def glibc_of(path: str | pathlib.Path) -> tuple[int, ...]:
    """Return the newest glibc whose symbols a program or library needs; (0,) where it needs none."""
    names = re.findall(r"GLIBC_([0-9.]+)", output_of("readelf", "--version-info", "--wide", path))
    return max((tuple(int(part) for part in name.split(".")) for name in names), default=(0,))
