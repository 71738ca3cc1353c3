"""How make has the crates proved: side by side, in copies; and the stamps that the gate leaves to it.

A script stands in for the kit, over a small repository.
"""

import fcntl
import os
import pathlib
import re
import signal
import time

import pytest
from support.repository import Repository

FILES = "Makefile tools/prove tools/libraries.py tools/gate tools/kit HANDLES"
CRATES = "low: arrayvec\none: low\ntwo: low\nbb: low one two\nbb_c staticlib: low\n"
# It checks, as `rt` does, that the crates below were proved over the sources beside them. `lib` and `run` wait
# until all crates of $TOGETHER have begun. A source that has the word `wrong` isn't proved.
RT = """#!/usr/bin/python3
import hashlib, os, pathlib, subprocess, sys, tempfile, time

kit = pathlib.Path(__file__).resolve().parents[1]
if sys.argv[1] in ("doc", "version"):
    print(kit / "START-HERE.md")
    sys.exit()
here = pathlib.Path.cwd()
rows = [line.split(":") for line in (here.parents[1] / "crates.txt").read_text().splitlines()]
below = {row[0].split()[0]: [lower for lower in row[1].split() if lower != "arrayvec"] for row in rows}


def stamp(crate):
    text = (here.parent / crate / "src/lib.rt").read_text() + "".join(map(stamp, below[crate]))
    return hashlib.sha256(text.encode()).hexdigest()


def began():
    return (kit / "log").read_text().split()


with open(kit / "log", "a") as log:
    log.write(here.name + "\\n")
source, first = here / "src/lib.rt", stamp(here.name)
if os.environ.get("EDITED") == here.name:
    (kit.parent / "repository/crates" / here.name / "src/lib.rt").write_text("edited")
together, end = os.environ.get("TOGETHER", "").split(), time.time() + 20
while here.name in together and not set(together) <= set(began()):
    if time.time() > end:
        sys.exit("%s is alone" % here.name)
    time.sleep(0.01)
for lower in below[here.name]:
    if (here.parent / lower / "out/rlib/stamp").read_text() != stamp(lower):
        sys.exit("%s isn't proved" % lower)
(here / "out/rlib").mkdir(exist_ok=True)
(here / "out/kept").write_text("".join(sorted(path.name for path in here.iterdir() if path.is_file())))
(here / "out/rlib/stamp").unlink(missing_ok=True)
if "wrong" in source.read_text():
    sys.exit("%s isn't right" % here.name)
(here / "out/rlib/stamp").write_text(first)
if here.name == "bb_c":
    with tempfile.TemporaryDirectory() as name:
        pathlib.Path(name, "module.bc").write_text("IR")
        subprocess.run([kit / "toolchain/bin/clang", "module.bc"], cwd=name, check=True)
"""
RTLIB = """import pathlib


class Crate:
    cuts_libraries = False

    def __init__(self, folder, *_):
        self.folder = str(folder)

    def stamp(self):
        return pathlib.Path(self.folder, "src/lib.rt").read_text()

    def build_rlib(self, jobs, anew):
        made = pathlib.Path(self.folder, "out/rlib")
        made.mkdir(parents=True, exist_ok=True)
        (made / "statements").write_text("%s %s %s" % (anew, self.cuts_libraries, jobs[0]))
        return int("wrong" in self.stamp())


def guarded():
    pass


def crates_below(top):
    return [Crate(path) for path in pathlib.Path(top, "crates").iterdir()]
"""
# The gate builds two libraries, and then one of their sources is edited.
GATE = """[ "$1" = doc ] && exec echo "%s/START-HERE.md"
for crate in low one; do mkdir -p crates/$crate/out/rlib/$crate.rlib; touch crates/$crate/out/rlib/$crate.rlib/format; done
mkdir -p crates/two/out/rlib/two.rlib; touch -d '1 hour ago' crates/two/out/rlib/two.rlib/format
echo later > crates/one/src/lib.rt
exit $FAILS
"""

pytestmark = pytest.mark.needs("make")


@pytest.fixture
def repository(tmp_path: pathlib.Path) -> Repository:
    made = Repository(tmp_path, FILES)
    made.write("crates.txt", CRATES)
    for name in ("low", "one", "two", "bb", "bb_c"):
        made.write("crates/%s/src/lib.rt" % name, name)
    for name in ("bin/rt", "bin/rattle"):
        made.write("../kit/" + name, RT).chmod(0o755)
    made.write("../kit/toolchain/bin/clang", "#!/bin/sh\n").chmod(0o755)
    (made.bin / "rt").symlink_to(tmp_path / "kit" / "bin" / "rt")
    (tmp_path / "copies").mkdir()
    made.environment["TMPDIR"] = str(tmp_path / "copies")
    return made


def began(repository: Repository) -> list[str]:
    """List the crates whose proofs have begun, sorted, and forget them."""
    log = repository.top.parent / "kit" / "log"
    names = sorted(log.read_text().split()) if log.exists() else []
    log.unlink(missing_ok=True)
    return names


def stamps(repository: Repository, name: str = "proved") -> list[str]:
    """List the crates that have a stamp, of make or of the library."""
    return sorted(
        path.name for path in (repository.top / "crates").iterdir() if (path / "out" / name).exists()
    )


def require_no_copies(repository: Repository) -> None:
    assert list((repository.top.parent / "copies").iterdir()) == []


def test_crates_are_proved_side_by_side(repository: Repository) -> None:
    """A crate waits only for those below it. When each was proved is printed, and what is left."""
    repository.write("crates/bb/args", "--help")
    done = repository.run("make bb", TOGETHER="one two")
    assert done.returncode == 0, done.stderr
    lines = done.stderr.splitlines()
    named = zip(("low", "one", "two", "bb"), range(1, 5))
    assert set(lines) >= {"proving %s, crate %d of 4" % pair for pair in named}
    proved = [re.fullmatch(r"(\w+): proved at (\d+):\d\d(, about .* left)?", line) for line in lines]
    found = [match.groups() for match in proved if match]
    assert (found[0][0], found[-1]) == ("low", ("bb", "0", None)) and found[0][2]
    assert stamps(repository) == stamps(repository, "rlib/stamp") == ["bb", "low", "one", "two"]
    assert began(repository) == ["bb", "low", "one", "two"]
    assert (repository.top / "crates/bb/out/kept").read_text() == "args"
    assert repository.run("make bb").stderr == "" and began(repository) == []
    require_no_copies(repository)


def test_failed_proof_has_no_stamp(repository: Repository) -> None:
    """Its output is shown, its work is kept, and nothing above it is proved."""
    repository.run("make bb")
    began(repository)
    source = repository.write("crates/one/src/lib.rt", "wrong")
    done = repository.run("make bb")
    assert done.returncode == 2 and "one isn't right\n" in done.stderr
    assert began(repository) == ["one"] and "one" not in stamps(repository) + stamps(repository, "rlib/stamp")
    assert (repository.top / "crates/one/out/kept").exists()
    source.write_text("right")
    assert repository.run("make bb").returncode == 0 and began(repository) == ["bb", "one"]
    require_no_copies(repository)


def test_source_edited_during_its_proof_is_proved_again(repository: Repository) -> None:
    assert repository.run("make bb", EDITED="low").returncode == 2
    began(repository)
    assert repository.run("make bb").returncode == 0
    assert began(repository) == ["bb", "low", "one", "two"]
    assert (repository.top / "crates/low/src/lib.rt").read_text() == "edited"


def test_proof_waits_for_another_process_in_the_crate(repository: Repository) -> None:
    folder = os.open(repository.top / "crates" / "low", os.O_RDONLY)
    fcntl.flock(folder, fcntl.LOCK_EX)
    with repository.start("make bb") as process:
        assert process.stderr
        lines = [process.stderr.readline() for _ in range(2)]
        assert "low: waiting for process %d, " % os.getpid() in lines[1] and began(repository) == []
        os.close(folder)
        assert process.wait() == 0 and len(began(repository)) == 4


def test_library_without_kept_work_keeps_statements_alone(repository: Repository) -> None:
    """Over kept work `rt lib` proves what was edited."""
    repository.write("../kit/bin/rtlib.py", RTLIB)
    source, made = repository.top / "crates/low/src/lib.rt", repository.top / "crates/low/out"
    command = "tools/prove low --goals bb"
    source.write_text("wrong")
    assert repository.run(command).returncode == 1
    assert stamps(repository) == stamps(repository, "rlib/stamp") == []
    source.write_text("right")
    assert repository.run(command).returncode == 0 and began(repository) == []
    assert (made / "rlib/statements").read_text() == "True True --jobs"
    assert (made / "rlib/stamp").read_text() == "right" and stamps(repository) == ["low"]
    (made / "incremental").mkdir()
    assert repository.run(command).returncode == 0 and began(repository) == ["low"]
    require_no_copies(repository)


def test_library_keeps_its_intermediate_code(repository: Repository) -> None:
    """Also after a call that has nothing to compile."""
    for _ in range(2):
        assert repository.run("tools/prove low --goals bb && tools/prove bb_c --goals bb").returncode == 0
        assert (repository.top / "crates/bb_c/out/module.bc").read_text() == "IR"
    assert len(list((repository.top / "out").iterdir())) == 1


def test_interrupted_proof_has_no_stamp(repository: Repository) -> None:
    with repository.start("exec tools/prove low --goals bb", TOGETHER="low other") as process:
        log, end = repository.top.parent / "kit" / "log", time.time() + 20
        while not log.exists() and time.time() < end:
            time.sleep(0.01)
        process.send_signal(signal.SIGTERM)
        assert process.wait() == 143, process.stderr and process.stderr.read()
    assert stamps(repository) == stamps(repository, "rlib/stamp") == []
    require_no_copies(repository)


@pytest.mark.parametrize("fails, stamped", [("0", ["low"]), ("1", [])])
def test_gate_stamps_what_it_proved(repository: Repository, fails: str, stamped: list[str]) -> None:
    """Libraries of this run alone, whose sources are those that it began with."""
    kit = repository.write("../kit/bin/rtlib.py", RTLIB).parents[1]
    repository.add_program("rt", GATE % kit)
    done = repository.run("tools/gate", FAILS=fails)
    assert (done.returncode, done.stderr) == (int(fails), "")
    assert stamps(repository, "rlib/stamp") == stamped
    if stamped:
        assert (repository.top / "crates/low/out/rlib/stamp").read_text() == "low"
