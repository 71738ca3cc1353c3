"""`budlarem publish` as a process: archives of lists, of holdouts and of shards, and checks of them."""

from __future__ import annotations

import functools
import gzip
import hashlib
import json
import os
import pathlib
import random
import re
import resource
import shutil
import signal
import subprocess
import sys
import tarfile
import time
from typing import Any

import pytest
from support import restore_signals
from support.machines import mixed_machines
from support.program import as_lines, options, place_programs, run_command, write_script
from support.runs import Case, small_disk, wait_until
from python.tests.runner import run_budlarem

Done = subprocess.CompletedProcess[str]

FIRST = (300, 64, 10, 100)
PASS = "steps=300,cells=64,depth=10,nodes=100"


class Place:
    """A folder with a list and its verdicts, in which archives are made."""

    def __init__(self, bb: str, top: pathlib.Path, count: int, seed: int) -> None:
        top.mkdir()
        self.top = top
        lines = list(mixed_machines(count, seed))
        lines[count // 2], lines[count // 3] = "1rB1LB", ""
        self.list, self.verdicts, self.out = (top / "list.txt", top / "verdicts.txt", top / "out.tar")
        self.list.write_bytes(as_lines(lines))
        self.verdicts.write_bytes(run_command([bb, "decide", *options(FIRST)], as_lines(lines)).output)

    def given(self) -> list[str]:
        return ["--verdicts", str(self.verdicts), "--list", str(self.list)]

    def publish(self, *more: str, out: pathlib.Path | None = None, **how: Any) -> Done:
        return run_budlarem("publish", out or self.out, *(more or self.given()), **how)

    def left(self) -> list[str]:
        return sorted(set(os.listdir(self.top)) - {"list.txt", "verdicts.txt"})


def commands_of(readme: str) -> list[list[str]]:
    """The commands of a README, those of each numbered way together."""
    ways: list[list[str]] = []
    for line in readme.partition("How to check it again")[2].splitlines():
        if line[2:4] in ("1.", "2.", "3.", "4.", "5."):
            ways.append([])
        elif line.startswith("      "):
            ways[-1].append(line.strip())
    return ways


class Ways:
    """The commands of an archive's README, run in its folder, with `bb` and `budlarem` in another."""

    def __init__(self, bb: str, folder: pathlib.Path, programs: pathlib.Path) -> None:
        self.folder = folder
        self.ways = commands_of((folder / "README.txt").read_text(encoding="utf-8"))
        place_programs(programs, bb)
        self._environment = {**os.environ, "PATH": "%s:%s" % (programs, os.environ["PATH"])}

    def run(self, command: str) -> "subprocess.CompletedProcess[str]":
        how: dict[str, Any] = {"cwd": self.folder, "env": self._environment, "errors": "replace"}
        return subprocess.run(["sh", "-c", command], capture_output=True, text=True, **how)

    def is_whole(self) -> bool:
        first, second = map(self.run, self.ways[0])
        return first.returncode == 0 and not first.stdout and second.returncode == 0


def require_silent(ways: Ways, command: str) -> None:
    """A command that shows what isn't confirmed shows nothing."""
    done = ways.run(command)
    output = done.stdout + done.stderr
    assert done.returncode == 1 and not output, (command, done.returncode, output)


def require_ways(ways: Ways, count: int) -> None:
    assert [len(way) for way in ways.ways] == [2, 1, 1, 1, 1]
    assert ways.is_whole()
    require_silent(ways, ways.ways[1][0])
    for way in ways.ways[2:4]:
        done = ways.run(way[0])
        assert done.returncode == 0, done.stderr
        answers = (ways.folder / "answers.txt").read_text().splitlines()
        assert len(answers) == count
    os.unlink(ways.folder / "answers.txt")


def require_changes(ways: Ways, count: int, source: random.Random) -> None:
    """A byte that is changed in any file of an unpacked archive is noticed."""
    files = sorted(path for path in ways.folder.iterdir())
    for _ in range(count):
        path = source.choice(files)
        data = path.read_bytes()
        place = source.randrange(len(data))
        byte = source.choice([value for value in range(256) if value != data[place]])
        path.write_bytes(data[:place] + bytes([byte]) + data[place + 1 :])
        assert not ways.is_whole(), (path.name, place, byte)
        path.write_bytes(data)
    assert ways.is_whole()


def archive_of(bb: str, top: pathlib.Path) -> tuple[Place, Ways]:
    """An archive that was made, and what stands in its unpacked folder."""
    place = Place(bb, top / "archive", 3_000, 1)
    done = place.publish(*place.given(), "--pass", PASS)
    assert done.stdout == "%s  %s\n" % (hashlib.sha256(place.out.read_bytes()).hexdigest(), place.out)
    assert place.left() == ["out.tar"]
    (top / "unpacked").mkdir()
    subprocess.run(["tar", "-x", "-f", str(place.out), "-C", str(top / "unpacked")], check=True)
    (folder,) = (top / "unpacked").iterdir()
    return place, Ways(bb, folder, top / "programs")


@pytest.mark.parametrize("count", [100, pytest.param(1_000, marks=pytest.mark.slow)])
def test_archive(bb: str, tmp_path: pathlib.Path, rng: random.Random, count: int) -> None:
    place, ways = archive_of(bb, tmp_path)
    made = ways.folder
    names = {"README.txt", "list.txt", "verdicts.txt", "about.json", "recheck.py", "SHA256SUMS"}
    assert set(os.listdir(made)) == names
    for path in (place.list, place.verdicts):
        assert (made / path.name).read_bytes() == path.read_bytes()
    about = json.loads((made / "about.json").read_text())
    assert about["sha256"]["list.txt"] == hashlib.sha256(place.list.read_bytes()).hexdigest()
    assert about["passes"] == [PASS]
    assert about["counts"]["halt"] == place.verdicts.read_bytes().count(b" halt ")
    assert about["counts"]["refused"] == 2
    page = (made / "README.txt").read_text(encoding="utf-8")
    assert page.count("\n") < 80
    assert not [line for line in page.splitlines() if len(line) > 80 and not line.startswith("      ")]
    require_ways(ways, 3_000)
    require_changes(ways, count, rng)


@pytest.mark.needs("ar", "objcopy", "cc")
def test_a_library_that_is_not_proved_is_named(
    bb: str, plain_library: pathlib.Path, tmp_path: pathlib.Path, monkeypatch: pytest.MonkeyPatch
) -> None:
    """That of cargo has the call bb_is_plain. Without it, it stands for the proved one."""
    folder = tmp_path / "proved"
    folder.mkdir()
    link = "ar x %s && objcopy --localize-symbol=bb_is_plain bb.o && cc -shared -o libbb.so bb.o"
    subprocess.run(["sh", "-ec", link % plain_library.with_suffix(".a")], cwd=folder, check=True)
    for library, name in ((plain_library, "plain"), (folder / "libbb.so", "proved one")):
        monkeypatch.setenv("BB_LIBRARY", str(library))
        version = run_budlarem("--version").stdout
        assert version.endswith(" (plain)\n") == (name == "plain")
        place = Place(bb, tmp_path / name, 60, 7)
        place.publish()
        files = read_archive(place.out)
        about = json.loads(files["about.json"])
        assert about["checked_by"]["version"] == version.split(" ", 1)[1].strip()
        words = " ".join(files["README.txt"].decode().split())
        assert ("The checker is proved" in words) == (name != "plain") != ("by cargo, isn't proved" in words)


def test_archive_by_coq(bb: str, tmp_path: pathlib.Path, checker: str) -> None:
    _, ways = archive_of(bb, tmp_path)
    (tmp_path / "programs" / "checker").symlink_to(checker)
    require_silent(ways, ways.ways[4][0])


def test_same(bb: str, tmp_path: pathlib.Path) -> None:
    place = Place(bb, tmp_path / "same", 500, 3)
    place.publish()
    first = place.out.read_bytes()
    other = tmp_path / "same" / "other"
    other.mkdir()
    for path in (place.list, place.verdicts):
        (other / (path.name + ".gz")).write_bytes(gzip.compress(path.read_bytes()))
    time.sleep(1.1)
    named = ["--verdicts", str(other / "verdicts.txt.gz"), "--list", str(other / "list.txt.gz")]
    place.publish(*named, "--threads=1", out=other / "again.tar")
    assert (other / "again.tar").read_bytes() == first
    place.publish("--verdicts", str(place.verdicts), out=other / "bare.tar")
    with tarfile.open(other / "bare.tar") as archive:
        names = [os.path.basename(name) for name in archive.getnames()]
        facts = {(one.mtime, one.uid, one.gid, one.uname, one.mode) for one in archive.getmembers()}
    assert "list.txt" not in names and "verdicts.txt" in names, names
    assert len(facts) == 1


def test_refused(bb: str, tmp_path: pathlib.Path) -> None:
    """What can't be published is refused, with its file and line, and leaves nothing."""
    place = Place(bb, tmp_path / "refused", 300, 4)
    verdicts, machines = place.verdicts.read_bytes(), place.list.read_bytes()
    lines, listed = verdicts.split(b"\n"), machines.split(b"\n")
    halting = next(k for k, line in enumerate(lines) if b" halt " in line)
    cycling = next(k for k, line in enumerate(lines) if b" cycler " in line)

    def put(rows: list[bytes], place: int, line: bytes) -> list[bytes]:
        return [*rows[:place], line, *rows[place + 1 :]]

    wrong, unread = (put(lines, halting, lines[halting] + more) for more in (b"7", b"\tthe champion"))
    refused, other = put(lines, cycling, b"refused 3"), put(listed, halting, b"1RA1RA")
    cases = [
        (wrong, listed, 1, "%s:%d: bad: " % (place.verdicts, halting + 1)),
        (unread, listed, 1, "%s:%d: unread: " % (place.verdicts, halting + 1)),
        (refused, listed, 2, "%s:%d: " % (place.list, cycling + 1)),
        (lines, other, 2, "%s:%d: " % (place.list, halting + 1)),
        (lines[:-2] + [b""], listed, 2, "verdicts.txt has 299 lines"),
        (lines, listed[:-2] + [b""], 2, "list.txt has 299 lines"),
        ([b""], [b""], 2, "verdicts.txt has no line"),
    ]
    for rows, given, status, sentence in cases:
        place.verdicts.write_bytes(b"\n".join(rows))
        place.list.write_bytes(b"\n".join(given))
        place.publish(status=status, sentence=re.escape(sentence))
        assert not place.left(), (sentence, place.left())
    place.verdicts.write_bytes(verdicts)
    place.list.write_bytes(machines)
    require_names(place)


def require_names(place: Place) -> None:
    """Names that an archive can't have, and files that aren't there."""
    place.out.write_bytes(b"mine")
    cases = [
        (place.given(), place.out, 2, "out.tar exists already"),
        (place.given(), place.top / "out.tar.gz", 2, "out.tar.gz: the output is a tar archive"),
        (["--verdicts", str(place.top)], place.top / "new.tar", 2, "not of `budlarem run`"),
        (["--verdicts", "-"], place.top / "new.tar", 2, "standard input is read more than once"),
        (["--verdicts", str(place.top / "none")], place.top / "new.tar", 3, "none"),
        (place.given(), place.top / "no" / "new.tar", 3, "new.tar"),
        ([*place.given(), "--pass", "steps=x"], place.top / "new.tar", 2, "is no limit"),
        ([*place.given(), "--threads", "0"], place.top / "new.tar", 2, "threads"),
    ]
    for more, out, status, sentence in cases:
        done = place.publish(*more, out=out, status=status, sentence=sentence)
        assert done.stderr.count("\n") == 1
    assert place.out.read_bytes() == b"mine" and place.left() == ["out.tar"]


def test_run(bb: str, tmp_path: pathlib.Path) -> None:
    place = Place(bb, tmp_path / "of_run", 400, 5)
    case = Case(tmp_path / "run", place.list.read_bytes())
    case.run()
    place.publish("--verdicts", str(case.out), "--list", str(case.list))
    about = json.loads(read_archive(place.out)["about.json"])
    assert about["passes"] == case.words[1::2]
    assert about["decided_by"] == about["checked_by"]


@pytest.mark.slow
def test_full_disk(bb: str, tmp_path: pathlib.Path) -> None:
    place = Place(bb, tmp_path / "full", 2_000, 6)
    for size in (1_000, place.list.stat().st_size + 5_000):
        limit = functools.partial(resource.setrlimit, resource.RLIMIT_FSIZE, (size, size))
        done = place.publish(status=3, sentence="File too large", preexec_fn=limit)
        assert str(place.out) in done.stderr and not place.left(), (size, place.left())
    disk = tmp_path / "disk"
    disk.mkdir()
    with small_disk(disk, 64):
        done = place.publish(out=disk / "out.tar", status=3, sentence="No space left")
        assert "out.tar" in done.stderr and not os.listdir(disk), os.listdir(disk)


@pytest.mark.parametrize("tries", [1, pytest.param(4, marks=pytest.mark.slow)])
def test_signals(bb: str, tmp_path: pathlib.Path, rng: random.Random, tries: int) -> None:
    """SIGINT, SIGTERM and SIGHUP leave nothing half while it is written."""
    place = Place(bb, tmp_path / "signals", 20_000, 7)
    part = place.top / "out.tar.part"
    half = 0
    how: dict[str, Any] = {"stdout": subprocess.DEVNULL, "stderr": subprocess.PIPE}
    command = [sys.executable, "-m", "budlarem", "publish", str(place.out), *place.given()]
    for number in [signal.SIGINT, signal.SIGTERM, signal.SIGHUP] * tries:
        with subprocess.Popen(command, preexec_fn=restore_signals, **how) as process:
            wait_until(process, part.exists)
            time.sleep(rng.random() * 0.02)
            process.send_signal(number)
            try:
                _, error = process.communicate(timeout=60)
            finally:
                process.kill()
        half += process.returncode != 0
        assert place.left() in ([], ["out.tar"]), (process.returncode, place.left(), error)
        if place.out.exists():
            assert len(read_archive(place.out)) == 6
            os.unlink(place.out)
    assert half > 0


PASSES = [word for steps in (300, 400) for word in ("--pass", "steps=%d,cells=64,depth=10,nodes=100" % steps)]
PLAN = ["--states", "3", "--entries", "2", "--list-steps", "50", "--steps", "50"]


@pytest.fixture
def work_in_folder(programs: object, tmp_path: pathlib.Path, monkeypatch: pytest.MonkeyPatch) -> None:
    monkeypatch.chdir(tmp_path)


def read_archive(path: str | os.PathLike[str]) -> dict[str, bytes]:
    """The files of an archive."""
    with tarfile.open(path) as archive:
        opened = {os.path.basename(member.name): archive.extractfile(member) for member in archive}
        return {name: file.read() for name, file in opened.items() if file is not None}


def unpack(path: str) -> dict[str, bytes]:
    """The files of an archive, written into this folder too."""
    files = read_archive(path)
    for line in files["SHA256SUMS"].decode().splitlines():
        sha256, name = line.split()
        assert hashlib.sha256(files[name]).hexdigest() == sha256
        pathlib.Path(name).write_bytes(files[name])
    return files


def commands_again(files: dict[str, bytes]) -> list[str]:
    page = files["README.txt"].decode().partition("How to make the rest again")[2]
    return [line.strip() for line in page.splitlines() if line.startswith("      ")]


def run_script(commands: list[str], **names: str) -> Done:
    """Runs commands in which names stand for others."""
    script = "\n".join(commands)
    for name, other in names.items():
        script = re.sub(r"\b%s\b" % name, other, script)
    done = subprocess.run(["sh", "-ec", script], capture_output=True, text=True)
    assert done.returncode == 0, done.stderr
    return done


@pytest.mark.usefixtures("work_in_folder")
def test_run_that_kept_its_holdouts() -> None:
    lines = [*mixed_machines(1_000, 11), "1rB1LB"]
    pathlib.Path("list.txt").write_bytes(as_lines(lines))
    words = ["run", "list.txt", "--out", "run", "--keep", "left,halts=20", *PASSES]
    publish = ["publish", "out.tar", "--verdicts", "run"]
    run_budlarem(*words, status=1)
    run_budlarem(
        *publish, "--list", "list.txt", status=2, sentence="dropped verdicts that no checker confirmed"
    )
    shutil.rmtree("run")
    run_budlarem(*words, "--check", status=1)
    sentence = "only the verdicts that --keep left,halts=20 kept; give the list by --list"
    run_budlarem(*publish, status=2, sentence=sentence)
    cases = [(lines[:-1], "has 1000 lines"), (lines[::-1], "doesn't have behind the machine")]
    for changed, sentence in cases:
        pathlib.Path("other.txt").write_bytes(as_lines(changed))
        run_budlarem(*publish, "--list", "other.txt", status=2, sentence=sentence)
    run_budlarem(*publish, "--list", "list.txt")
    files = unpack("out.tar")
    assert files["holdouts.txt"] == pathlib.Path("run/verdicts.txt").read_bytes()
    about = json.loads(files["about.json"])
    assert about["lines"] == len(lines) and about["counts"]["refused"] == 1
    assert about["counts"]["undecided"] == files["holdouts.txt"].count(b" undecided ") > 0
    first, again, compare, publish_again = commands_again(files)
    assert run_script([first], LIST="list.txt").stdout.split()[0] == about["list"]
    run_script([again + " || [ $? -eq 1 ]", compare], LIST="list.txt", FOLDER="again")
    run_script([publish_again], LIST="list.txt", FOLDER="again", ARCHIVE="again")
    assert unpack("again.tar")["holdouts.txt"] == files["holdouts.txt"]


@pytest.mark.usefixtures("work_in_folder")
def test_an_edited_summary_is_not_believed() -> None:
    """Limits, counts and what was checked come from sealed files."""
    pathlib.Path("list.txt").write_bytes(as_lines([*mixed_machines(300, 12)]))
    words = ["run", "list.txt", "--out", "run", "--keep", "left", *PASSES]
    publish = ["publish", "out.tar", "--verdicts", "run", "--list", "list.txt"]
    summary, sealed = pathlib.Path("run/summary.json"), "summary.json: it was changed: its seal doesn't fit"
    run_budlarem(*words)
    run_budlarem(*publish, status=2, sentence="dropped verdicts that no checker confirmed")
    summary.write_text(summary.read_text().replace('"checked": false', '"checked": true'))
    run_budlarem(*publish, status=2, sentence=sealed)
    shutil.rmtree("run")
    run_budlarem(*words, "--check")
    text = summary.read_text()
    changes = [
        ('"steps": 300', '"steps": 9300'),
        ('"halt": ', '"halt": 9'),
        ('"left"', '"all"'),
        ('"lines": ', '"lines": 1e999'),
    ]
    edited = [text.replace(*change, 1) for change in changes]
    assert text not in edited
    for change in (*edited, "[" * 100_000, "null", text + "\n"):
        summary.write_text(change)
        done = run_budlarem(*publish, status=2, sentence=sealed)
        assert done.stderr.count("\n") == 1, done.stderr
    summary.write_text(text[: len(text) // 2])
    run_budlarem(*publish, status=2, sentence="summary.json doesn't match run.json")
    summary.write_text(text)
    run_budlarem(*publish)
    about = json.loads(unpack("out.tar")["about.json"])
    assert about["passes"] == PASSES[1::2] and about["counts"]["halt"] == json.loads(text)["counts"]["halt"]
    pathlib.Path("run/verdicts.txt").unlink()
    run_budlarem("publish", "new.tar", *publish[2:], status=2, sentence="has no verdicts.txt: that run isn't")


@pytest.mark.usefixtures("work_in_folder")
def test_shards() -> None:
    publish = ["publish", "out.tar", "--verdicts", "walk"]
    run_budlarem("shards", "walk", *PLAN, "--plan")
    run_budlarem(*publish, status=2, sentence="isn't finished; `budlarem shards walk` resumes")
    covered = run_budlarem("shards", "walk").stdout
    run_budlarem(*publish, "--list", "walk/machines.txt", status=2, sentence="leave --list out")
    run_budlarem(*publish)
    files = unpack("out.tar")
    for name in ("skeleton.txt", "holdouts.txt"):
        assert files[name] == pathlib.Path("walk", name).read_bytes()
    about = json.loads(files["about.json"])
    assert (about["lines"], about["cover"] + "\n") == (5_417, covered)
    assert about["counts"]["undecided"] == len(files["holdouts.txt"].splitlines()) > 0
    shard = next(line for line in files["skeleton.txt"].decode().splitlines() if " below " in line)
    machine, *_, sha256 = shard.split(" ")
    printed = run_script(commands_again(files), MACHINE=machine, FOLDER="again").stdout
    assert printed.startswith(covered) and printed.endswith(covered) and sha256 + "  shard.txt" in printed


@pytest.mark.usefixtures("work_in_folder")
def test_changed_shards(programs: pathlib.Path) -> None:
    """Files that don't match the summary are refused, and what `cover` refuses."""
    publish = ["publish", "out.tar", "--verdicts", "walk"]
    run_budlarem("shards", "walk", *PLAN)
    path, summary = pathlib.Path("walk/holdouts.txt"), pathlib.Path("walk/summary.json")
    holdouts, fields = path.read_bytes(), summary.read_text()
    path.write_bytes(holdouts + holdouts)
    run_budlarem(*publish, status=2, sentence="isn't that of the summary")
    path.write_bytes(holdouts)
    for change in (fields.replace("covers 3", "covers 4"), fields.replace('"halt": ', '"halt": 9'), "{}"):
        summary.write_text(change)
        run_budlarem(*publish, status=2, sentence="summary.json: it was changed: its seal doesn't fit")
    summary.write_text(fields[:100])
    run_budlarem(*publish, status=2, sentence="isn't finished")
    summary.write_text(fields)
    write_script(programs / "cover", "cat > /dev/null; echo covers all")
    run_budlarem(*publish, status=2, sentence="and cover prints")
    write_script(programs / "cover", "cat > /dev/null; echo line 1: no; exit 1")
    run_budlarem(*publish, status=1, sentence="cover refuses walk/skeleton.txt: line 1: no")
    assert not pathlib.Path("out.tar").exists()
