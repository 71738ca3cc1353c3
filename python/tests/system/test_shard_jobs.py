"""`budlarem shards` and `budlarem shard` as processes, beside `cover` over the list in one piece."""

import collections
import contextlib
import hashlib
import io
import json
import os
import pathlib
import random
import re
import shutil
import signal
import subprocess
import sys
import time
from typing import Callable, Iterator

import pytest
from budlarem.runner.errors import RunError
from budlarem.runner.progress import Progress
from budlarem.shards import ShardFolder
from support import ListMachines, require, restore_signals
from support.clusters import cluster
from support.program import as_lines, replies, run_command, write_script
from support.recurrences import reply_to_pair
from python.tests.runner import Answering, PoolBackend, reseal, run_budlarem
from support.shards import counts_in

Whole = Callable[[int], str]
PLAN = ["--states", "3", "--entries", "2"]
pytestmark = pytest.mark.usefixtures("programs")


@pytest.fixture
def out(tmp_path: pathlib.Path) -> pathlib.Path:
    return tmp_path / "out"


@pytest.fixture(scope="module")
def whole(bb: str, cover: str, list_machines: ListMachines) -> Whole:
    """A function that returns what `cover` counts in the list of so many states in one piece."""

    def counts(states: int) -> str:
        verdicts = run_command([bb, "decide"], as_lines(list_machines(states))).output
        return counts_in(run_command([cover], verdicts).output.decode())

    return counts


def run(*words: object, status: int = 0, sentence: str = "") -> str:
    """What a command prints: nothing where it fails, and nothing on standard error unless it has this sentence."""
    done = run_budlarem(*words, status=status, sentence=sentence)
    assert not (done.stdout if status else done.stderr if not sentence else "")
    return done.stdout


def fields_of(path: pathlib.Path) -> dict[str, object]:
    """The sealed fields that a file begins with."""
    text = path.read_text()
    found: dict[str, object] = json.loads(text[: text.index("\n}\n") + 2])
    return found


def joined(out: pathlib.Path) -> dict[str, bytes]:
    """What shards are joined to, but for times and what was verified."""
    summary = json.loads((out / "summary.json").read_text())
    for name in ("bytes", "seal", "seconds", "verified"):
        del summary[name]
    files = {name: (out / name).read_bytes() for name in ("skeleton.txt", "holdouts.txt")}
    return {**files, "summary.json": json.dumps(summary).encode()}


@contextlib.contextmanager
def started(*words: object) -> Iterator["subprocess.Popen[bytes]"]:
    """A command that is running; it is killed at the end."""
    command, pipe = [sys.executable, "-m", "budlarem", *map(str, words)], subprocess.PIPE
    with subprocess.Popen(command, preexec_fn=restore_signals, stdout=pipe, stderr=pipe) as process:
        try:
            yield process
        finally:
            process.kill()


def test_shards_count_as_the_list_in_one_piece(whole: Whole, out: pathlib.Path) -> None:
    printed = run("shards", out, *PLAN)
    assert printed.startswith("covers 3 states 2 symbols, given 13 shards: %s; " % whole(3))
    assert run("shards", out) == printed


def test_array_jobs(whole: Whole, out: pathlib.Path) -> None:
    """Each shard is a job of its own, and prints its line, also the second time."""
    assert run("shards", out, *PLAN, "--plan") == ""
    machines = run("shards", out, "--pending").splitlines()
    lines = [run("shard", out, machine) for machine in machines]
    assert [line.split(" ")[:2] for line in lines] == [[machine, "below"] for machine in machines]
    assert run("shard", out, machines[0]) == lines[0]
    assert run("shards", out, "--pending") == ""
    cut = out / "shards" / machines[1]
    for text in (lines[1][:-2], lines[1], cut.read_text()[:-1], ""):
        cut.write_text(text)
        again = "the shard of %s is done again: it was c" % machines[1]
        assert run("shards", out, "--pending", sentence=again) == machines[1] + "\n"
    assert counts_in(run("shards", out, sentence=again)) == whole(3) and fields_of(cut)["line"] == lines[1]
    assert sorted(os.listdir(out / "shards")) == sorted(machines)


def test_summary_and_holdouts(bb: str, list_machines: ListMachines, out: pathlib.Path) -> None:
    limits = ["--steps", "50"]
    run("shards", out, *PLAN, "--list-steps", "50", *limits)
    lines = replies([bb, "decide", *limits], list_machines(3, *limits))
    holdouts = [line for line in lines if " undecided " in line]
    assert holdouts and (out / "holdouts.txt").read_text().splitlines() == holdouts
    summary = json.loads((out / "summary.json").read_text())
    kinds = collections.Counter(line.split(" ")[1] for line in lines)
    found = {kind: count for kind, count in summary["counts"].items() if count}
    assert found == {"undecided steps" if kind == "undecided" else kind: kinds[kind] for kind in kinds}
    halts = [line for line in lines if " halt " in line]
    for place, name in ((2, "halt steps"), (3, "halt score")):
        most, line = summary["greatest"][name]
        assert line in halts and most == int(line.split(" ")[place])
        assert most == max(int(halt.split(" ")[place]) for halt in halts)
    for name, sha256 in summary["sha256"].items():
        assert sha256 == hashlib.sha256((out / name).read_bytes()).hexdigest()


def test_recurrences(bb: str, list_machines: ListMachines, out: pathlib.Path) -> None:
    """They are those of the complete list's pairs, by brute force; a shard that has others is done again."""
    run("shards", out, *PLAN, "--recurrence")
    lines = replies([bb, "decide"], list_machines(3))
    pairs = [reply_to_pair(line) for line in lines if line.split(" ")[1] in ("cycler", "translated")]
    found = json.loads((out / "summary.json").read_text())["recurrences"]
    assert found["counts"]["recurs"] == len(pairs)
    assert found["counts"]["open"] == len(lines) - len(pairs)
    assert found["counts"]["quasihalts"] == sum(" quasihalts " in pair for pair in pairs)
    assert found["greatest"]["start"][0] == max(int(pair.split(" ")[2]) for pair in pairs)
    path, before = next((out / "shards").iterdir()), joined(out)
    path.write_text(path.read_text().replace('"recurs": ', '"recurs": 9'))
    run("shards", out, sentence="the shard of %s is done again: it was changed" % path.name)
    assert joined(out) == before
    run("shards", out, *PLAN, status=2)
    run("shards", out, "--recurrence", status=2, sentence="--recurrence goes with --states")


FORGED = [
    *((b"undecided steps\n", b"my holdout, trust me\n"), (b"1RB", b"1RC"), (b" below ", b" below 1")),
    *((b'"halt steps": [', b'"halt steps": [9999'), (b'"halt": ', b'"halt": 3'), (b"\n", b"")),
    *((b'"undecided steps": ', b'"undecided steps": 1'), (b'"translated": ', b'"translated": 1')),
]


@pytest.mark.parametrize("old, new", FORGED)
def test_changed_shards_are_done_again(out: pathlib.Path, old: bytes, new: bytes) -> None:
    """In their lines, counts and greatest numbers: nothing of it is joined."""
    run("shards", out, *PLAN, "--list-steps", "50", "--steps", "50")
    before = joined(out)
    path = next(one for one in sorted((out / "shards").iterdir()) if b" undecided " in one.read_bytes())
    data = path.read_bytes()
    path.write_bytes(new.join(data.rsplit(old, 1)) if old != b"1RB" else data.replace(old, new))
    assert path.read_bytes() != data
    run("shards", out, sentence="the shard of %s is done again: it was " % path.name)
    assert joined(out) == before


@pytest.mark.parametrize("count", [12, pytest.param(150, marks=pytest.mark.slow)])
def test_each_changed_byte_is_noticed(out: pathlib.Path, rng: random.Random, count: int) -> None:
    """Wherever a byte of the folder is changed: the right bytes come, or a refusal."""
    run("shards", out, "--states", "3", "--entries", "1", "--list-steps", "50", "--steps", "50")
    before, whole = joined(out), out.with_name("whole")
    shutil.copytree(out, whole)
    files = sorted(path for path in out.rglob("*") if path.is_file())
    for _ in range(count):
        path = rng.choice(files)
        data = bytearray(path.read_bytes())
        data[rng.randrange(len(data))] ^= 1 << rng.randrange(8)
        path.write_bytes(data)
        status, _, error = run_command([sys.executable, "-m", "budlarem", "shards", str(out)])
        if status == 0:
            assert joined(out) == before, path
        else:
            assert status in (1, 2) and path.name in ("plan.json", "machines.txt"), (path, error)
            assert error.startswith(b"budlarem: ") and error.count(b"\n") == 1
        shutil.rmtree(out)
        shutil.copytree(whole, out)


def test_lost_shards_are_done_again(out: pathlib.Path) -> None:
    run("shards", out, *PLAN)
    before = joined(out)
    for path in sorted((out / "shards").iterdir())[::3]:
        path.unlink()
    (out / "machines.txt").unlink()
    for name in ("skeleton.txt", "holdouts.txt", "summary.json"):
        (out / name).write_text("mine")
    run("shards", out, *PLAN)
    assert joined(out) == before


def test_edited_plans_and_other_programs(bb: str, programs: pathlib.Path, out: pathlib.Path) -> None:
    """A plan that was edited is refused; so are shards of another plan or by other programs, by their names."""
    run("shards", out, *PLAN, "--list-steps", "50", "--steps", "50")
    path, other = out / "plan.json", out.with_name("other")
    text = path.read_text()
    path.write_text(text.replace('"steps": 50', '"steps": 90'))
    run("shards", out, status=2, sentence="plan.json: it was changed: its seal doesn't fit")
    run("publish", out.with_suffix(".tar"), "--verdicts", out, status=2, sentence="plan.json: it was changed")
    run("shards", other, *PLAN, "--plan")
    path.write_bytes((other / "plan.json").read_bytes())
    run(
        "shards", out, status=2, sentence="shards/.*: its plan is .*, and here it is .* choose another folder"
    )
    run("publish", out.with_suffix(".tar"), "--verdicts", out, status=2, sentence="is of another plan")
    path.write_text(text)
    write_script(programs / "bb", 'exec %s "$@"' % bb)
    run(
        "shards",
        out,
        status=2,
        sentence="shards/.*: its bb is .*, and here it is .*; use what it was done with",
    )
    path.write_text('{\n "states": 3,\n "symbols": 2\n}\n')
    run("shards", out, status=2, sentence="plan.json: it has no seal.* finish it by that version")


def test_a_folder_that_is_replaced_meanwhile(programs: pathlib.Path, lister: str, out: pathlib.Path) -> None:
    """The run writes nothing into the other folder, and ends with a sentence."""
    run("shards", out, *PLAN, "--plan")
    machines = run("shards", out, "--pending").split()
    write_script(programs / "tree_normal_form", 'sleep 1; exec %s "$@"' % lister)
    moved = out.with_name("moved")
    commands: list[tuple[object, ...]] = [("shards", out, "--threads", "1"), ("shard", out, machines[-1])]
    for words in commands:
        with started(*words) as process:
            while not list((out / "shards").glob("*.lock")) and process.poll() is None:
                time.sleep(0.01)
            os.rename(out, moved)
            shutil.copytree(moved, out, ignore=shutil.ignore_patterns("*.lock"))
            before = sorted(path.name for path in out.rglob("*"))
            _, error = process.communicate(timeout=60)
        assert process.returncode == 3 and b"isn't the folder that was opened any more" in error, error
        assert sorted(path.name for path in out.rglob("*")) == before
        shutil.rmtree(out)
        os.rename(moved, out)
    run("shards", out)


def test_processes_that_share_a_folder(whole: Whole, out: pathlib.Path) -> None:
    """Each shard is done by one; both come to the end."""
    run("shards", out, *PLAN, "--plan")
    machine = run("shards", out, "--pending").split()[0]
    with contextlib.ExitStack() as stack:
        words: list[tuple[object, ...]] = [("shards", out, "--threads", "2")] * 2
        words += [("shard", out, machine)] * 2
        processes = [stack.enter_context(started(*one)) for one in words]
        done = [(process.communicate(timeout=120), process.returncode) for process in processes]
    assert [status for _, status in done] == [0] * 4, done
    for (printed, _), _ in done[:2]:
        assert counts_in(printed.decode()) == whole(3)
    assert done[2][0][0] == done[3][0][0] and done[2][0][0].startswith(machine.encode() + b" below ")
    assert not [path for path in out.rglob("*") if path.suffix in (".part", ".lock")]


@pytest.mark.parametrize("count", [4, pytest.param(100, marks=pytest.mark.slow)])
def test_kills(out: pathlib.Path, rng: random.Random, count: int) -> None:
    """A run and jobs are killed at random moments, again and again: nothing is lost, and no part stays."""
    plan = ["--states", "3", "--entries", "2", "--list-steps", "50", "--steps", "50"]
    right = out.with_name("right")
    run("shards", right, *plan)
    machines = sorted(path.name for path in (right / "shards").iterdir())
    kills = 0
    while kills < count:
        words = ["shards", out, *plan] if kills % 2 else ["shard", out, rng.choice(machines)]
        with started(*words) as process:
            with contextlib.suppress(subprocess.TimeoutExpired):
                process.communicate(timeout=0.15 + rng.random())
        kills += 1
        if (out / "summary.json").exists() and rng.random() < 0.5:
            shutil.rmtree(out)
    run("shards", out, *plan)
    assert joined(out) == joined(right)
    assert sorted(os.listdir(out / "shards")) == machines
    assert not [path for path in out.rglob("*") if path.suffix in (".part", ".lock")]


def test_verified_shards(bb: str, programs: pathlib.Path, out: pathlib.Path) -> None:
    """All, or a share by a seed, are done again and compared; the summary and the archive's page say which."""
    run("shards", out, *PLAN)
    tar = out.with_suffix(".tar")
    drawn = ["--verify", "0.3", "--seed", "7"]
    cases: list[tuple[list[str], str]] = [
        ([], "No shard was done again"),
        (drawn, "4 of 13 shards, drawn by the seed 7, were done again"),
        (["--verify"], "Each shard was done again, with the same result"),
        ([], "Each shard was done again, with the same result"),
    ]
    for words, text in cases:
        printed = run("shards", out, *words, sentence="done again" if words else "")
        assert printed.startswith("covers 3 states")
        run("publish", tar, "--verdicts", out)
        command = ["tar", "-xOf", str(tar), "--wildcards", "*/README.txt"]
        page = subprocess.run(command, capture_output=True, text=True).stdout
        assert text in " ".join(page.split())
        tar.unlink()
    assert run("shards", out, *drawn, sentence="4 of 13 .* by the seed 7") == printed
    for wrong in ("0", "1.5", "x", "-1"):
        run("shards", out, "--verify=" + wrong, status=2)
    run("shards", out, "--seed", "3", status=2, sentence="--seed draws the shards of --verify")


def test_a_wrong_result_is_found_by_doing_it_again(out: pathlib.Path) -> None:
    """Its seal fits: only doing the shard again finds that other lines were decided."""
    run("shards", out, *PLAN, "--list-steps", "50", "--steps", "50")
    with contextlib.closing(ShardFolder(str(out), print)) as folder:
        machine = folder.shards()[3]
        result = folder.store.read(machine)
        assert result is not None
        fields = {**result.fields, "line": result.fields["line"][:-65] + "0" * 64 + "\n"}
        del fields["content"]
        folder.store.write(machine, fields, result.content, replaces=True)
    run("shards", out)
    sentence = "%s: done again, the shard has other line; remove it, and resume" % machine
    run("shards", out, "--verify", status=1, sentence=sentence)
    (out / "shards" / machine).unlink()
    run("shards", out, "--verify", sentence="13 of 13 shards were done again: the same")


def test_interruption(out: pathlib.Path) -> None:
    """SIGINT ends the run; the same command goes on after the finished shards."""
    with started("shards", out, "--states", "4", "--entries", "4", "--threads", "1") as process:
        while len(list((out / "shards").glob("*[-A-Z]"))) < 3 and process.poll() is None:
            time.sleep(0.01)
        process.send_signal(signal.SIGINT)
        output, error = process.communicate(timeout=60)
    assert (process.returncode, output) == (130, b"")
    assert "budlarem: interrupted; `budlarem shards %s` resumes\n" % out in error.decode()
    finished = {path.name for path in (out / "shards").glob("*[-A-Z]")}
    pending = run("shards", out, "--pending").splitlines()
    assert len(finished) >= 3 and pending and not finished & set(pending)
    run("shard", out, pending[0])


def test_shards_over_dask(whole: Whole, tmp_path: pathlib.Path) -> None:
    require(modules=("distributed",))
    with cluster(0, tmp_path) as made:
        made.start_worker({"PATH": os.environ["PATH"]}, threads=2)
        printed = run("shards", tmp_path / "out", *PLAN, "--scheduler", made.address, sentence="page")
    assert counts_in(printed) == whole(3)


LIES: dict[str, Callable[[bytes], bytes]] = {
    "another program": lambda reply: re.sub(b'"bb": "[0-9a-f]', b'"bb": "x', reply),
    "another plan": lambda reply: re.sub(b'"plan": "[0-9a-f]', b'"plan": "x', reply),
    "fewer halts": lambda reply: reply.replace(b'"halt": ', b'"halt": 1'),
    "a line fewer": lambda reply: reply[: reply.rindex(b"\n", 0, -1) + 1],
    "a line twice": lambda reply: reply + reply.splitlines(keepends=True)[-1],
    "lines in another order": lambda reply: b"".join([*(lines := reply.splitlines(True))[:1], *lines[:0:-1]]),
    "a decided line": lambda reply: reply[: reply.rindex(b" undecided ")] + b" halt 6 4\n",
    "no newline": lambda reply: reply[:-1],
    "nothing": lambda reply: b"",
    "garbage": lambda reply: b"{}\n",
    "another machine": lambda reply: reply.replace(b'"line": "1RB', b'"line": "1RC'),
}


@pytest.mark.parametrize("lie", LIES.values(), ids=LIES)
def test_lying_workers(out: pathlib.Path, lie: Callable[[bytes], bytes]) -> None:
    """A reply that doesn't fit itself or this folder is tried again, and stores nothing."""
    run("shards", out, *PLAN, "--list-steps", "50", "--steps", "50", "--plan")
    reports: list[str] = []
    progress = Progress(io.StringIO())
    with contextlib.closing(ShardFolder(str(out), reports.append)) as folder:
        machine = "1RB---_1LC---_------"
        assert machine in folder.shards()
        liar = Answering(lambda reply, before: reseal(reply, lie(reply[0])))
        with pytest.raises(RunError, match="the shard of .*; tried 3 times"):
            folder.do([machine], PoolBackend(liar, 1), progress, lambda task: None)
        assert folder.line(machine) is None and liar.count == 3
        folder.do([machine], PoolBackend(Answering(), 1), progress, lambda task: None)
        assert folder.line(machine) is not None


def test_another_plan_is_refused(out: pathlib.Path) -> None:
    run("shards", out, *PLAN, "--plan")
    run("shards", out, "--states", "3", "--entries", "1", status=2, sentence="has another plan")
    run("shards", out.with_name("none"), status=3)


@pytest.mark.parametrize(
    "words, error",
    [
        ("--states 3 --entries 7", "--entries is 7, but may be 1 to 6"),
        ("--states 3 --threads 0", "--threads is 0, but must be 1 or more"),
        ("--states 3 --cells 0", "cells is 0, but may be 1 to 67,108,864"),
        ("--states 26", "--states is 26, but may be 1 to 25"),
        ("--states 0", "--states is 0, but may be 1 to 25"),
        ("--states 3 --symbols 11", "--symbols is 11, but may be 2 to 10"),
        ("--states 3 --list-steps 1e8", "--list-steps is 100,?000,?000, but may be 0 to 10,000,000"),
        *(
            (words, words.split()[0] + " goes with --states, which makes a plan")
            for words in ("--entries 2", "--list-steps 2", "--steps 1000", "--plan")
        ),
        ("--states 3 --plan --pending", "give one of them"),
        ("--states 3 --plan --threads 2", "--threads is for shards that are run"),
        ("--pending --scheduler x", "--scheduler is for shards that are run"),
        ("--pending --verify", "--verify is for shards that are run"),
        ("--threads 2 --scheduler x", "--threads is for this computer, --scheduler for others"),
    ],
)
def test_refused_options(out: pathlib.Path, words: str, error: str) -> None:
    run("shards", out, *words.split(), status=2, sentence=error)
    assert not out.exists()


def test_machine_that_is_no_shard(out: pathlib.Path) -> None:
    """Neither a machine of another place of the walk nor one that the skeleton has decided."""
    run("shards", out, *PLAN, "--plan")
    listed = (out / "machines.txt").read_text().splitlines()
    decided = next(line for line in listed if not line.endswith(" below") and line[0] != "-")
    for machine in (decided, "1RB1LB_1LA---_------", "../plan.json"):
        run("shard", out, machine, status=2, sentence="budlarem: %s is no shard of " % machine)


def test_shard_whose_list_ends_too_soon(out: pathlib.Path) -> None:
    """The list is made with fewer steps than it is decided with: `cover` misses what a later halt leads to."""
    run("shards", out, *PLAN, "--list-steps", "3", status=1, sentence="budlarem: cover refuses ")
    run("shards", out, status=1, sentence=" expected, ")


@pytest.mark.parametrize(
    "body, sentence", [("kill -9 $$", "bb ended by signal 9"), ("exit 3", "bb ended with status 3")]
)
def test_program_that_fails(
    bb: str, programs: pathlib.Path, out: pathlib.Path, body: str, sentence: str
) -> None:
    """No shard is stored, and the run goes on once the program works."""
    write_script(programs / "bb", body)
    run("shards", out, *PLAN, status=3, sentence=sentence)
    assert not os.listdir(out / "shards")
    write_script(programs / "bb", 'exec %s "$@"' % bb)
    run("shards", out)


def test_program_that_is_missing(out: pathlib.Path, monkeypatch: pytest.MonkeyPatch) -> None:
    """No program starts unless all are there."""
    run("shards", out, *PLAN, "--plan")
    machine = run("shards", out, "--pending").split()[0]
    monkeypatch.setenv("PATH", str(out))
    place = out.with_name("other")
    run("shards", place, *PLAN, status=3, sentence="tree_normal_form isn't in the PATH")
    write_script(out / "tree_normal_form", ": > %s/started" % out)
    run("shard", out, machine, status=3, sentence="bb isn't in the PATH")
    assert not (out / "started").exists()
