#!/usr/bin/python3
"""Pack the plain workspace with its dependencies, to be built without a network.

    plain/archive.py FOLDER

It writes FOLDER/budlarem-VERSION-src.tar.gz and prints its path. The same commit and registry give the same
bytes. The status is 1 where git or cargo fails.
"""

import argparse
import gzip
import io
import pathlib
import re
import shutil
import subprocess
import sys
import tarfile
import tempfile

TOP = pathlib.Path(__file__).resolve().parents[1]
sys.path.insert(0, str(TOP))

from plain.erase import FLAGS, write_workspace  # noqa: E402
from tools.build_info import header_version  # noqa: E402

README = """# Budlarem without its proofs

The programs `bb`, `cover` and `recurrence`, and the library for C, in plain Rust. `cargo build --release` builds them into
target/release, with rustc 1.88 or later and no network; `cargo test` runs their tests.

This build isn't proved. Each contract stands as a comment above its function. `plain.md` says what differs from
the proved programs, and how a list decided here is confirmed.
"""
FILES = ("include/bb.h", "docs/bb.1", "docs/plain.md")
VENDORED = '\n[source.crates-io]\nreplace-with = "vendored"\n\n[source.vendored]\ndirectory = "vendor"\n'


def run(*command: object, cwd: pathlib.Path = TOP) -> str:
    words = [str(word) for word in command]
    done = subprocess.run(words, cwd=cwd, stdout=subprocess.PIPE, text=True)
    if done.returncode != 0:
        sys.exit("archive: %s ended with status %d" % (" ".join(words), done.returncode))
    return done.stdout.strip()


def fill(folder: pathlib.Path) -> None:
    """Write the workspace, the sources of its dependencies, and the documents."""
    write_workspace(folder)
    run("cargo", "fmt", "--all", cwd=folder)
    run("cargo", "vendor", "--quiet", "--respect-source-config", "--versioned-dirs", "vendor", cwd=folder)
    shutil.rmtree(folder / ".cargo", ignore_errors=True)
    (folder / ".cargo").mkdir()
    (folder / ".cargo" / "config.toml").write_text(FLAGS + VENDORED)
    (folder / "README.md").write_text(README)
    for name in FILES:
        shutil.copyfile(TOP / name, folder / pathlib.Path(name).name)


def pack(folder: pathlib.Path, path: pathlib.Path) -> None:
    """Pack a folder in the order of names, with the commit's date and without owners."""
    seconds = int(run("git", "log", "-1", "--format=%ct"))

    def neutral(member: tarfile.TarInfo) -> tarfile.TarInfo:
        member.mtime, member.uid, member.gid, member.uname, member.gname = seconds, 0, 0, "", ""
        member.mode = 0o755 if member.isdir() or member.mode & 0o100 else 0o644
        return member

    packed = io.BytesIO()
    with tarfile.open(fileobj=packed, mode="w", format=tarfile.PAX_FORMAT) as archive:
        archive.add(folder, folder.name, filter=neutral)
    path.write_bytes(gzip.compress(packed.getvalue(), mtime=seconds))


def main() -> int:
    about = re.split(r"\n\n", __doc__ or "")[0]
    words = argparse.ArgumentParser(description=about)
    words.add_argument("folder", metavar="FOLDER", type=pathlib.Path, help="where the archive is written")
    name = "budlarem-%s-src" % header_version()
    path: pathlib.Path = words.parse_args().folder / (name + ".tar.gz")
    with tempfile.TemporaryDirectory() as top:
        folder = pathlib.Path(top) / name
        folder.mkdir()
        fill(folder)
        pack(folder, path)
    print(path)
    return 0


if __name__ == "__main__":
    sys.exit(main())
