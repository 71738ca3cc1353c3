"""`budlarem run --scheduler` beside the program, over real schedulers and workers of dask."""

import os
import pathlib
import random
import subprocess
import time

import pytest
from support.clusters import Cluster, changed_package, cluster
from support.machines import CHAMPION
from support.program import MAX_CELLS, MAX_STEPS, as_lines
from support.runs import LONG_MACHINE, PASSES, Case, Process, decide_lines, expected_verdicts, is_at_work
from support.runs import kill_often, random_list, require_interrupted, stop, wait_until

pytestmark = pytest.mark.needs(modules=("distributed",))
# A run of LONG_MACHINE at these limits takes seconds.
LONG_PASS = (300_000_000, 200_000, 3, 10)
ENDLESS_PASS = (MAX_STEPS, MAX_CELLS, 3, 10)
# At these limits a line costs nothing to speak of.
QUICK_PASS = (300, 64, 3, 10)
# How a worker ends itself at LONG_MACHINE.
DEADLY = "    if %r in lines: import os; os._exit(9)\n" % LONG_MACHINE
# What makes a process collect garbage all the time.
COLLECTS = """import gc, threading, time
def collect():
    while True:
        time.sleep(0.2)
        gc.collect()
threading.Thread(target=collect, daemon=True).start()
"""
# Workers that can't decide anything rightly: what the run says of them, and the file of their package that is
# changed, with the texts; they have none where no file is named.
ODD = [("def digest_of", "class Odd: pass\n\ndef digest_of"), ("return (written,", "return (Odd(),")]
WRONG_WORKERS: dict[str, tuple[str, str, list[tuple[str, str]]]] = {
    "nothing": ("No module named 'budlarem'", "", []),
    "another version": ("it was decided by version 9.", "_version.py", [('VERSION = "', 'VERSION = "9.')]),
    "garbage": ("came back for", "runner/chunks.py", [("return decide_call", 'return b"x\\n"; decide_call')]),
    "a reply that can't be read": ("AttributeError: ", "runner/replies.py", ODD),
}
# A list, and the verdicts of one process for each pass.
Given = tuple[bytes, bytes]


@pytest.fixture(scope="module")
def many(bb: str) -> Given:
    given = random_list(12_000, 1)
    return given, expected_verdicts(bb, given, PASSES)


@pytest.fixture(scope="module")
def few(bb: str) -> Given:
    given = random_list(300, 1)
    return given, expected_verdicts(bb, given, PASSES)


def case_of(found: Cluster, name: str, given: bytes, passes: tuple[tuple[int, ...], ...] = PASSES) -> Case:
    """A list that the cluster decides in small chunks."""
    case = Case(found.top / name, given, passes)
    case.words += ["--scheduler", found.address, "--chunk", "100"]
    return case


def quick_list(bb: str, count: int, seed: int) -> bytes:
    """Machines that small limits decide, and lines that are none."""
    given = random_list(count, seed).splitlines(keepends=True)
    lines = decide_lines(bb, b"".join(given), QUICK_PASS)
    return b"".join(one for one, line in zip(given, lines) if b" undecided " not in line)


def require_end(case: Case, process: Process, right: bytes) -> None:
    assert process.wait() == 1 and case.verdicts() == right, case.output()


def require_sentence(case: Case, process: Process, text: str) -> None:
    assert wait_until(process, lambda: text in case.output()), case.output()


@pytest.mark.parametrize("lines", [1_000, pytest.param(10_000, marks=pytest.mark.slow)])
def test_killed_worker(bb: str, tmp_path: pathlib.Path, lines: int) -> None:
    given = quick_list(bb, lines, 1)
    with cluster(2, tmp_path) as found:
        case = case_of(found, "killed", given + LONG_MACHINE + given, (QUICK_PASS, LONG_PASS))
        with case.start() as process:
            at_work: list[Process] = []

            def is_one_at_work() -> bool:
                at_work[:] = [worker for worker in found.workers if is_at_work(worker.pid)]
                return bool(at_work)

            assert wait_until(process, is_one_at_work), case.output()
            for worker in at_work[:1]:
                worker.kill()
        require_end(case, process, expected_verdicts(bb, case.list.read_bytes(), (QUICK_PASS, LONG_PASS)))
        assert "page is at http://127.0.0.1:" in case.output(), case.output()


@pytest.mark.slow
def test_five_kills(bb: str, tmp_path: pathlib.Path) -> None:
    """The only worker is killed five times in the middle of a line; dask gives that up at the fourth time."""
    quick = quick_list(bb, 300, 3)
    with cluster(0, tmp_path) as found:
        case = case_of(found, "five", quick + LONG_MACHINE + quick, (LONG_PASS,))
        with case.start() as process:
            for count in range(5):
                worker = found.start_worker()
                assert wait_until(process, lambda: is_at_work(worker.pid)), case.output()
                found.kill_workers()
            found.start_worker()
        assert "bisecting" in case.output(), case.output()
        require_end(case, process, expected_verdicts(bb, case.list.read_bytes(), [LONG_PASS]))


@pytest.mark.slow
def test_deadly_line(bb: str, tmp_path: pathlib.Path) -> None:
    """A line ends each worker that decides it: it is named, and all other chunks stand."""
    quick = quick_list(bb, 60, 4)
    with cluster(0, tmp_path) as found:
        call = "    return decide_call("
        deadly = changed_package(found.top, "runner/chunks.py", [(call, DEADLY + call)])
        case = case_of(found, "deadly", quick + LONG_MACHINE + quick, (QUICK_PASS,))
        with case.start(str(case.list), "--chunk", "8") as process:
            while process.poll() is None:
                found.workers = [worker for worker in found.workers if worker.poll() is None]
                while len(found.workers) < 3:
                    found.start_worker(deadly)
                time.sleep(0.02)
        assert "line %d: every worker that did it died" % (quick.count(b"\n") + 1) in case.output()
        assert "all but 1 chunks are stored" in case.output() and process.returncode == 3
        found.kill_workers()
        found.start_worker()
        case.require_verdicts(expected_verdicts(bb, case.list.read_bytes(), [QUICK_PASS]))


@pytest.mark.slow
def test_no_workers(many: Given, tmp_path: pathlib.Path) -> None:
    given, right = many
    with cluster(2, tmp_path) as found:
        case = case_of(found, "none", given)
        with case.start() as process:
            with stop(case, process):
                found.kill_workers()
            require_sentence(case, process, "has no workers; waiting")
            found.start_worker()
        require_end(case, process, right)


@pytest.mark.slow
@pytest.mark.parametrize("is_late", [False, True])
def test_scheduler(many: Given, tmp_path: pathlib.Path, is_late: bool) -> None:
    """The scheduler is killed, and another one comes, before or after the runner's timeout."""
    given, right = many
    with cluster(2, tmp_path) as found:
        case = case_of(found, "scheduler", given)
        timeout = {"DASK_DISTRIBUTED__COMM__TIMEOUTS__CONNECT": "2s" if is_late else "600s"}
        with case.start(variables=timeout) as process:
            with stop(case, process):
                found.end()
            require_sentence(case, process, "there is no scheduler" if is_late else "doesn't answer; waiting")
            found.start_scheduler()
            found.start_worker()
        require_end(case, process, right)


@pytest.mark.slow
@pytest.mark.parametrize("what", WRONG_WORKERS)
def test_wrong_worker(few: Given, tmp_path: pathlib.Path, what: str) -> None:
    """A worker that can't decide anything rightly ends the run; by a right one it goes on."""
    given, right = few
    sentence, file, edits = WRONG_WORKERS[what]
    with cluster(0, tmp_path) as found:
        changed = changed_package(found.top, file, edits) if file else {"PYTHONPATH": str(found.top)}
        found.start_worker(changed)
        case = case_of(found, "wrong", given)
        # The run collects garbage all the time, so that nothing is kept by chance.
        (found.top / "site").mkdir()
        (found.top / "site" / "sitecustomize.py").write_text(COLLECTS, encoding="utf-8")
        places = os.pathsep.join([str(found.top / "site"), os.environ["PYTHONPATH"]])
        case.require_error(3, sentence, variables={"PYTHONPATH": places})
        assert "resumes" in case.output() and "Traceback" not in case.output(), case.output()
        found.kill_workers()
        found.start_worker()
        case.require_verdicts(right)


@pytest.mark.slow
def test_runner(bb: str, tmp_path: pathlib.Path, rng: random.Random) -> None:
    with cluster(2, tmp_path) as found:
        case = case_of(found, "runner", random_list(20_000, 1))
        right = expected_verdicts(bb, case.list.read_bytes(), PASSES)
        assert kill_often(case, 10, rng) == 10
        case.require_verdicts(right)
        case = case_of(found, "interruption", LONG_MACHINE, (ENDLESS_PASS,))
        with case.start() as process:
            at_work = wait_until(process, lambda: any(is_at_work(worker.pid) for worker in found.workers))
            assert at_work, case.output()
            require_interrupted(case, process)


@pytest.mark.slow
@pytest.mark.needs("openssl")
def test_encryption(few: Given, tmp_path: pathlib.Path) -> None:
    """Scheduler and workers take encrypted connections alone; the runner is given the files for them."""
    given, right = few
    certificate, key = str(tmp_path / "certificate.pem"), str(tmp_path / "key.pem")
    asked = "openssl req -x509 -newkey rsa:2048 -nodes -days 2 -subj /CN=test".split(" ")
    subprocess.run([*asked, "-keyout", key, "-out", certificate], stderr=subprocess.DEVNULL, check=True)
    files = ("--tls-ca-file", certificate, "--tls-cert", certificate, "--tls-key", key)
    with cluster(1, tmp_path, files) as found:
        case = case_of(found, "encrypted", given)
        case.require_verdicts(right, str(case.list), *files)
        case.clear()
        quickly = {"DASK_DISTRIBUTED__COMM__TIMEOUTS__CONNECT": "5s"}
        case.require_error(3, "no scheduler answers", variables=quickly)


@pytest.mark.slow
def test_large_chunks(bb: str, tmp_path: pathlib.Path) -> None:
    """Chunks as large as they may be, which are also checked; dask's warning of large tasks isn't printed."""
    given = as_lines([CHAMPION]) * 100_000
    with cluster(2, tmp_path) as found:
        case = case_of(found, "large", given, (QUICK_PASS,))
        right = expected_verdicts(bb, given, (QUICK_PASS,))
        case.require_verdicts(right, str(case.list), "--chunk", "20000", "--check", status=0)
        assert "arning" not in case.output(), case.output()
