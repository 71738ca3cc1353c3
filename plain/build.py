#!/usr/bin/python3
"""Build without the kit: write the Cargo workspace out/plain, and build packages of it.

    plain/build.py [PACKAGE...]

The packages are `bb`, `cover` and `recurrence` by default; `bb_c` is the library. Files are compared by size and
time with those of the last build, so nothing is done if none changed. One process builds at a time. Standard
error names each crate that is compiled. The status is 1 if the build fails; one sentence names what is missing.
"""

import argparse
import contextlib
import fcntl
import json
import os
import pathlib
import re
import shutil
import subprocess
import sys
import tempfile
from typing import IO, Iterable, Iterator, NoReturn, Sequence

TOP = pathlib.Path(__file__).resolve().parents[1]
sys.path.insert(0, str(TOP))

from plain.erase import RUST, absent_from_debian, write_workspace  # noqa: E402

OUT = TOP / "out" / "plain"
PROGRAMS = ("bb", "cover", "recurrence")
LIBRARY = "bb_c"
ON_DEBIAN = "on Debian 12 install rustc-web and cargo-web, elsewhere see https://rustup.rs"
# A status line of `cargo build -v`; the others are about errors and warnings.
STATUS = re.compile(r"\s*(Compiling|Fresh|Dirty|Running|Finished|Locking|Adding) (.*)")
# A variable that would move what cargo builds, and those of a job server that it can't reach.
DROPPED = ("CARGO_BUILD_TARGET", "MAKEFLAGS", "MFLAGS")


def stop(sentence: str) -> NoReturn:
    sys.exit("build: " + sentence)


def own_environment() -> dict[str, str]:
    """Return the environment without the variables that are dropped."""
    return {name: value for name, value in os.environ.items() if name not in DROPPED}


def run(*command: str) -> subprocess.CompletedProcess[str]:
    """Run a command in the workspace, and keep its output."""
    return subprocess.run(
        command, cwd=OUT, env=own_environment(), stdin=subprocess.DEVNULL, capture_output=True, text=True
    )


def sources() -> list[pathlib.Path]:
    """List the files of which the workspace is made."""
    folders = [TOP / "plain" / "shim", *(TOP / "crates").glob("*/src")]
    paths = [pathlib.Path(name, file) for top in folders for name, _, files in os.walk(top) for file in files]
    names = ("crates.txt", "include/bb.h", "plain/erase.py", "plain/build.py")
    return sorted([*paths, *(TOP / name for name in names)])


def products(packages: Sequence[str]) -> list[pathlib.Path]:
    """List the files that cargo builds of packages."""
    names = ["libbb_c.a" if package == LIBRARY else package for package in packages]
    return [OUT / "target" / "release" / name for name in names]


def describe(paths: Iterable[pathlib.Path]) -> str:
    """Return a line for each file, with its size and time."""
    rows = ((os.path.relpath(path, TOP), path.stat()) for path in paths)
    return "".join("%s %d %d\n" % (name, found.st_size, found.st_mtime_ns) for name, found in rows)


def stamp_of(packages: Sequence[str]) -> pathlib.Path:
    """Return the path of the file that describes the last build of packages."""
    return OUT / ("built-" + "-".join(packages))


def is_current(packages: Sequence[str]) -> bool:
    """Tell whether sources and programs are those of the last build."""
    with contextlib.suppress(OSError):
        return stamp_of(packages).read_text() == describe([*sources(), *products(packages)])
    return False


@contextlib.contextmanager
def only_process() -> Iterator[None]:
    """Keep other processes from building in the workspace."""
    OUT.mkdir(parents=True, exist_ok=True)
    with open(OUT / "lock", "w") as lock:
        try:
            fcntl.flock(lock, fcntl.LOCK_EX | fcntl.LOCK_NB)
        except BlockingIOError:
            print("waiting for another process that builds out/plain", file=sys.stderr, flush=True)
            fcntl.flock(lock, fcntl.LOCK_EX)
        yield


def require_cargo() -> None:
    """Stop if cargo or rustc is missing or older than the workspace asks."""
    for name in ("cargo", "rustc"):
        if shutil.which(name) is None:
            stop("%s isn't installed, and neither is the kit (rt); %s" % (name, ON_DEBIAN))
        found = re.search(r"\d+\.\d+\.\d+", run(name, "--version").stdout)
        if found is None:
            stop("`%s --version` prints no version; %s" % (name, ON_DEBIAN))
        if [int(part) for part in found[0].split(".")] < [int(part) for part in RUST.split(".")]:
            stop("%s %s is too old, %s or later is needed; %s" % (name, found[0], RUST, ON_DEBIAN))


def update_workspace() -> None:
    """Write the workspace; files that are as before keep their time, so cargo compiles only what changed."""
    with tempfile.TemporaryDirectory() as name:
        part = pathlib.Path(name)
        write_workspace(part)
        # Without rustfmt the workspace is built as it is.
        subprocess.run(["cargo", "fmt", "--all"], cwd=part, capture_output=True)
        files = {path.relative_to(part): path.read_bytes() for path in part.rglob("*") if path.is_file()}
        for path in (path for folder in part.iterdir() for path in (OUT / folder.name).rglob("*")):
            if path.is_file() and path.relative_to(OUT) not in files:
                path.unlink()
    for path, text in files.items():
        update_file(OUT / path, text)


def update_file(path: pathlib.Path, text: bytes) -> None:
    """Write a file if it has another text."""
    if path.exists() and path.read_bytes() == text:
        return
    path.parent.mkdir(parents=True, exist_ok=True)
    path.write_bytes(text)
    if path.name == "config.toml":
        # It has the versions of another registry.
        (OUT / "Cargo.lock").unlink(missing_ok=True)


def fetch_crates() -> None:
    """Download the crates of the registry, unless Debian's folder has them all."""
    host = re.search(r"host: (\S+)", run("rustc", "-vV").stdout)
    done = run("cargo", "fetch", "--config", "net.retry=1", "--target", host[1] if host else "")
    if done.returncode == 0:
        return
    reason = next((line.strip() for line in reversed(done.stderr.splitlines()) if line.strip()), "no reason")
    absent = absent_from_debian()
    if not absent:
        stop("cargo doesn't find all crates in Debian's registry: " + reason)
    packages = " ".join("librust-%s-dev" % name for name in absent)
    stop("cargo can't download its crates (%s); without a network install Debian's %s" % (reason, packages))


def count_crates(words: Sequence[str]) -> int:
    """Count the crates of which packages are built."""
    lines = run("cargo", "tree", "--edges", "normal,build", "--prefix", "none", *words).stdout.splitlines()
    return len({tuple(line.split()[:2]) for line in lines if line.strip()})


def show_progress(lines: Iterable[str], count: int) -> str:
    """Name each crate that is compiled, and return all lines about errors and warnings."""
    rest, known = "", set()
    for line in lines:
        status = STATUS.match(line)
        if status is None:
            rest += line
            continue
        if status[1] in ("Compiling", "Fresh"):
            known.add(status[2])
        if status[1] == "Compiling":
            place = (status[2].split()[0], len(known), count)
            print("building %s by cargo, crate %d of %d" % place, file=sys.stderr, flush=True)
    return rest


def run_cargo(packages: Sequence[str], reports: IO[str]) -> None:
    """Build packages; `reports` gets cargo's list of built files."""
    words = [word for package in packages for word in ("-p", package)]
    shape = ("--message-format", "json-render-diagnostics", "--color", "never")
    command = ["cargo", "build", "--release", "-v", *shape, "--target-dir", "target", *words]
    count = count_crates(words)
    environment = own_environment()
    process = subprocess.Popen(
        command, cwd=OUT, env=environment, stdout=reports, stderr=subprocess.PIPE, text=True, errors="replace"
    )
    assert process.stderr
    rest = show_progress(process.stderr, count)
    if process.wait() != 0:
        sys.stderr.write(rest)
        linker = "; it needs a C compiler to link (Debian: gcc and libc6-dev)" if "linker `" in rest else ""
        stop("cargo ended with status %d%s" % (process.returncode, linker))


def build(packages: Sequence[str]) -> None:
    """Build packages, and describe the build once it is whole."""
    before = describe(sources())
    stamp_of(packages).unlink(missing_ok=True)
    require_cargo()
    update_workspace()
    fetch_crates()
    with tempfile.TemporaryFile("w+") as reports:
        run_cargo(packages, reports)
        reports.seek(0)
        built = [path for line in reports for path in json.loads(line).get("filenames", ())]
    if not {str(path) for path in products(packages)} <= set(built):
        stop("cargo builds for another target; remove `build.target` from its config.toml")
    stamp_of(packages).write_text(before + describe(products(packages)))
    print(
        "out/plain is built by cargo and not proved; docs/plain.md says how to confirm its lists",
        file=sys.stderr,
    )


def main() -> int:
    shape = argparse.RawDescriptionHelpFormatter
    parser = argparse.ArgumentParser(description=__doc__, formatter_class=shape)
    parser.add_argument("packages", nargs="*", metavar="PACKAGE")
    packages = parser.parse_args().packages or list(PROGRAMS)
    unknown = [name for name in packages if name not in (*PROGRAMS, LIBRARY)]
    if unknown:
        parser.error("no package %s" % unknown[0])
    if is_current(packages):
        return 0
    with only_process():
        if not is_current(packages):
            build(packages)
    return 0


if __name__ == "__main__":
    try:
        sys.exit(main())
    except KeyboardInterrupt:
        sys.exit(130)
    except OSError as error:
        stop(str(error))
