"""`budlarem run` as a process beside the program, byte for byte, whatever ends it meanwhile."""

import gzip
import itertools
import json
import os
import pathlib
import random
import resource
import subprocess
import time
from typing import Callable

import pytest
from support.program import MAX_CELLS, MAX_STEPS
from support.runs import LONG_MACHINE, PASSES, QUICK_PASS, SLOWLY, Case, expected_verdicts, is_at_work
from support.runs import kill_often, most_memory, random_list, require_interrupted, small_disk, stop
from support.runs import wait_until

# A process whose wall's clock is an hour earlier each time that it is asked.
SET_BACK = """import time
hours = iter(range(2_000_000_000, 0, -3_600))
time.time = lambda: float(next(hours))
"""
LONG_PASS = "steps=%d,cells=%d" % (MAX_STEPS, MAX_CELLS)
# The verdicts on a list without refusals.
DECIDED = b"1RB1LB_1LA1RZ halt 6 4\n1RA1RA translated R 1 2 1 1\n"


@pytest.mark.parametrize("count, lines", [(1, 3_000), pytest.param(100, 20_000, marks=pytest.mark.slow)])
def test_kills(bb: str, tmp_path: pathlib.Path, rng: random.Random, count: int, lines: int) -> None:
    """The runner is killed at random moments before its end, and run again."""
    case = Case(tmp_path / "kills", random_list(lines, rng.randrange(10**9)))
    right = expected_verdicts(bb, case.list.read_bytes(), PASSES)
    assert kill_often(case, count, rng, "--threads", "2") == count
    case.require_verdicts(right, str(case.list), "--check")
    summary = json.loads((case.out / "summary.json").read_text())
    assert all(one["checked"] for one in summary["passes"]), summary
    assert summary["lines"] == lines


def endless_case(top: pathlib.Path) -> Case:
    case = Case(top, b"1RZ---\n" * 30 + LONG_MACHINE * 3)
    case.words = ["--pass", LONG_PASS, "--threads", "2"]
    return case


@pytest.mark.slow
def test_interruption(tmp_path: pathlib.Path) -> None:
    """SIGINT ends 1,000,000,000,000 steps within a second; a second run is refused meanwhile."""
    case = endless_case(tmp_path / "interruption")
    with case.start() as process:
        assert wait_until(process, lambda: case.chunks() > 0 and is_at_work(process.pid)), case.output()
        second = Case(tmp_path / "second", b"")
        second.list, second.out, second.words = case.list, case.out, case.words
        second.require_error(2, "another run works in")
        require_interrupted(case, process)


def require_after_fault(case: Case, status: int, sentence: str, right: bytes) -> None:
    """A run ended with status 3 and a sentence, and goes on when it is run again."""
    said = case.output()
    assert status == 3 and sentence in said, said
    assert not case.verdicts()
    case.require_verdicts(right)


@pytest.mark.slow
def test_full_disk(bb: str, tmp_path: pathlib.Path) -> None:
    given = random_list(6_000, 5)
    right = expected_verdicts(bb, given, PASSES)
    case = Case(tmp_path / "sizes", given)
    for size in (10_000, len(right) - 1):
        case.clear()
        status = case.run(preexec_fn=lambda: resource.setrlimit(resource.RLIMIT_FSIZE, (size, size)))
        require_after_fault(case, status, "File too large", right)
    case = Case(tmp_path / "disk", given)
    case.out.mkdir()
    with small_disk(case.out, len(right) // 2_048):
        status, chunks = case.run(), case.chunks()
        subprocess.run(["mount", "-o", "remount,size=64m", str(case.out)], check=True)
        require_after_fault(case, status, "No space left on device", right)
        assert chunks > 0


@pytest.mark.slow
@pytest.mark.parametrize("grows", [True, False])
def test_list_that_changes(bb: str, tmp_path: pathlib.Path, grows: bool) -> None:
    """The list grows or changes while it is read, and the run is stopped meanwhile; then it is as before."""
    given = random_list(60_000, 6)
    right = expected_verdicts(bb, given, [QUICK_PASS])
    case = Case(tmp_path / "changing", given, [QUICK_PASS])
    case.words += SLOWLY
    half = given.index(b"\n", len(given) // 2) + 1
    with case.start() as process:
        with stop(case, process, 1), open(case.list, "r+b") as file:
            file.seek(0 if grows else half, os.SEEK_END if grows else os.SEEK_SET)
            file.write(b"1RZ---\n" if grows else (b"1RZ---\n" * len(given))[: len(given) - half - 1] + b"\n")
    case.list.write_bytes(given)
    require_after_fault(case, process.returncode, "changed while it was read", right)
    case.list.write_bytes(given + b"1RZ---\n")
    case.require_error(2, "bytes")


@pytest.mark.slow
def test_lists(bb: str, tmp_path: pathlib.Path) -> None:
    """Standard input, a pipe, a compressed list; with and without lines that are no machines."""
    given = random_list(5_000, 7)
    right = expected_verdicts(bb, given, PASSES)
    case = Case(tmp_path / "lists", given)
    packed = case.list.with_suffix(".gz")
    packed.write_bytes(gzip.compress(given))
    for path in (case.list, packed):
        case.clear()
        case.require_verdicts(right, str(path))
    case.clear()
    with case.start("-", stdin=subprocess.PIPE) as process:
        process.communicate(given)
    assert process.returncode == 1 and case.verdicts() == right, case.output()
    with open(case.list, "rb") as file:
        case.require_verdicts(right, "-", stdin=file)
    clean = Case(tmp_path / "clean", b"1RB1LB_1LA1RZ\n1RA1RA")
    clean.require_verdicts(DECIDED, status=0, words=[])


def test_folder_that_is_a_file(tmp_path: pathlib.Path) -> None:
    case = Case(tmp_path / "words", b"1RB1LB_1LA1RZ\n")
    case.out.write_bytes(b"mine")
    case.require_error(2, "is a file; give a folder")


@pytest.mark.slow
def test_slow_input(bb: str, tmp_path: pathlib.Path) -> None:
    """Standard input that is empty for a while, also non-blocking, and a compressed one byte by byte."""
    given = random_list(400, 10)
    right = expected_verdicts(bb, given, PASSES)
    packed = gzip.compress(given)
    parts = {
        "a slow pipe": [given[:1_000], given[1_000:1_001], given[1_001:]],
        "a slow compressed pipe": [packed[:1], packed[1:2], packed[2:500], packed[500:]],
    }
    for (what, sent), is_waiting in itertools.product(parts.items(), (True, False)):
        case = Case(tmp_path / ("%s-%s" % (what.replace(" ", "-"), is_waiting)), b"")
        reading, writing = os.pipe()
        os.set_blocking(reading, is_waiting)
        with case.start("-", stdin=reading) as process:
            os.close(reading)
            for part in sent:
                time.sleep(0.5)
                os.write(writing, part)
            os.close(writing)
        assert process.returncode == 1 and case.verdicts() == right, case.output()


@pytest.mark.slow
def test_keep(bb: str, tmp_path: pathlib.Path, rng: random.Random) -> None:
    """Only what is left is kept: killed and run again, and chunks that were dropped can't be checked."""
    case = Case(tmp_path / "keep", random_list(20_000, rng.randrange(10**9)))
    right = expected_verdicts(bb, case.list.read_bytes(), PASSES).splitlines(keepends=True)
    kept = b"".join(line for line in right if b" undecided " in line or line.startswith(b"refused "))
    case.words += ["--keep", "left"]
    kill_often(case, 5, rng, "--threads", "2")
    case.require_verdicts(kept)
    assert sum(path.stat().st_size for path in case.out.glob("pass-*/*")) < len(b"".join(right)) // 2
    summary = json.loads((case.out / "summary.json").read_text())
    assert summary["lines"] == len(right) and summary["kept"] == "left", summary
    before = {path: path.read_bytes() for path in case.out.rglob("*") if path.is_file()}
    case.require_error(2, "before they were checked", "--check", str(case.list))
    assert {path: path.read_bytes() for path in case.out.rglob("*") if path.is_file()} == before


@pytest.mark.slow
def test_order(bb: str, tmp_path: pathlib.Path) -> None:
    """A machine takes seconds, and those behind it don't; verdicts are in the list's order."""
    passes = [(300_000_000, 200_000, 3, 10)]
    given = b"1RB1LB_1LA1RZ\n" * 300 + LONG_MACHINE + b"1RB1LB_1LA1RZ\n" * 20_000
    case = Case(tmp_path / "order", given, passes)
    with case.start(str(case.list), "--threads", "2", "--chunk", "100") as process:
        stood = wait_until(process, lambda: case.chunks() > 100)
    assert stood and process.returncode == 0, case.output()
    assert case.verdicts() == expected_verdicts(bb, given, passes)


@pytest.mark.slow
def test_slow_kill(bb: str, tmp_path: pathlib.Path) -> None:
    """Standard input pauses, and the runner is killed a second later: what was decided stands."""
    given = b"1RB1LB_1LA1RZ\n" * 40
    case = Case(tmp_path / "pause", given, PASSES[:1])
    reading, writing = os.pipe()
    with case.start("-", "--chunk", "1", stdin=reading) as process:
        os.close(reading)
        os.write(writing, given[:-14])
        wait_until(process, lambda: case.chunks() > 0)
        time.sleep(2.0)
        process.kill()
        process.wait()
    os.close(writing)
    assert case.chunks() == 39
    with open(case.list, "rb") as file:
        case.require_verdicts(expected_verdicts(bb, given, PASSES[:1]), "-", status=0, stdin=file)


def limit_resources(*limits: tuple[int, int]) -> Callable[[], None]:
    """What sets these limits of the system for a process, which isn't root's, for whom there are none."""

    def limit() -> None:
        if os.getuid() == 0:
            os.setgroups([])
            os.setgid(65_534)
            os.setuid(65_534)
        for what, most in limits:
            resource.setrlimit(what, (most, most))

    return limit


@pytest.mark.slow
def test_no_memory(tmp_path: pathlib.Path) -> None:
    """Without memory or threads the run ends at once with status 3 and a sentence, or is at work."""
    sizes = (56, 80, 120, 160, 200, 280, 400)
    faults = [("%d MB" % size, (resource.RLIMIT_AS, size << 20)) for size in sizes]
    faults += [("%d threads" % count, (resource.RLIMIT_NPROC, count)) for count in range(1, 9)]
    os.chmod(tmp_path, 0o755)
    for what, limit in faults:
        case = Case(tmp_path / what.replace(" ", "-"), b"1RZ---\n" * 30 + LONG_MACHINE)
        case.out.mkdir()
        os.chmod(case.out, 0o777)
        case.words = ["--pass", LONG_PASS, "--threads", "4"]
        with case.start(preexec_fn=limit_resources(limit)) as process:
            until = time.monotonic() + 20
            while process.poll() is None and time.monotonic() < until and not is_at_work(process.pid):
                time.sleep(0.05)
            time.sleep(0.5)
            is_ended, status = process.poll() is not None, process.poll()
            at_work = not is_ended and is_at_work(process.pid)
            process.kill()
        said = case.output()
        is_right_end = status == 3 and said.startswith("budlarem: ") and "Traceback" not in said
        assert at_work or is_right_end, said


@pytest.mark.slow
def test_closed_files(tmp_path: pathlib.Path) -> None:
    for closed in ((0,), (1,), (2,), (1, 2), (0, 1, 2)):
        case = Case(tmp_path / ("closed-%s" % "".join(map(str, closed))), b"1RB1LB_1LA1RZ\n1RA1RA\n")
        case.require_verdicts(DECIDED, status=0, words=[], preexec_fn=lambda: [*map(os.close, closed)])
    case = Case(tmp_path / "closed-list", b"")
    case.require_error(3, "standard input is closed", "-", preexec_fn=lambda: os.close(0))


@pytest.mark.slow
def test_clock(tmp_path: pathlib.Path) -> None:
    """The wall's clock is set back all the time: no time in the summary is below nothing."""
    case = Case(tmp_path / "clock", b"1RZ---\n" * 5_000)
    (tmp_path / "clock" / "sitecustomize.py").write_text(SET_BACK, encoding="utf-8")
    places = os.pathsep.join([str(tmp_path / "clock"), os.environ["PYTHONPATH"]])
    assert case.run(variables={"PYTHONPATH": places}) == 0, case.output()
    summary = json.loads((case.out / "summary.json").read_text())
    seconds = [summary["seconds"], *(one["work_seconds"] for one in summary["passes"])]
    assert min(seconds) >= 0 and summary["began"] <= summary["ended"], summary


@pytest.mark.slow
def test_memory(tmp_path: pathlib.Path) -> None:
    """Ten times the list takes the same memory; the longer list alone has 72 MB, and its verdicts 100."""
    case = Case(tmp_path / "memory", b"")
    peaks = [most_memory(case, count, QUICK_PASS) for count in (200_000, 2_000_000)]
    assert 0 < peaks[1] < 1.5 * peaks[0]
