"""The folder of `budlarem run`: whatever happens to it, a run writes there alone, and only its own files."""

from __future__ import annotations

import contextlib
import itertools
import os
import pathlib
import shutil
from typing import Callable, Iterator

import pytest
from support.runs import PASSES, QUICK_PASS, SLOWLY, Case, Process, expected_verdicts, random_list, stop
from support.runs import wait_until, words_of
from python.tests.runner import run_budlarem

TWO_PASSES = [QUICK_PASS, (60, 64, 3, 10)]
LINES = 60_000
MACHINE = b"1RB1LB_1LA1RZ\n"


def snapshot(tmp_path: pathlib.Path) -> dict[str, bytes]:
    """All that a folder has, by path: the bytes of files, where links lead, the kind of others."""
    found: dict[str, bytes] = {}
    for path in sorted(tmp_path.rglob("*")):
        name = str(path.relative_to(tmp_path))
        if path.is_symlink():
            found[name] = b"link to " + os.fsencode(os.readlink(path))
        elif path.is_file():
            found[name] = path.read_bytes()
        else:
            found[name] = b"folder" if path.is_dir() else b"pipe"
    return found


@contextlib.contextmanager
def stop_run(case: Case) -> Iterator[Process]:
    """A run that is stopped in the middle, and goes on afterwards, to its end."""
    with case.start() as process:
        with stop(case, process, 4):
            yield process


def slow_case(tmp_path: pathlib.Path, name: str, seed: int, passes: int = 1) -> Case:
    case = Case(tmp_path / name, random_list(LINES, seed), TWO_PASSES[:passes])
    case.words += SLOWLY
    return case


@pytest.mark.parametrize("passes", [1, pytest.param(2, marks=pytest.mark.slow)])
def test_moved(bb: str, tmp_path: pathlib.Path, passes: int) -> None:
    """The folder is moved and another run begins in a new one; the first goes on in its folder later."""
    case, limits = slow_case(tmp_path, "moved-%d" % passes, 21, passes), TWO_PASSES[:passes]
    moved = case.out.with_name("out.old")
    second = Case(tmp_path / ("second-%d" % passes), random_list(2_000, 22), limits)
    second.out = case.out
    with stop_run(case) as process:
        os.rename(case.out, moved)
        second.require_verdicts(expected_verdicts(bb, second.list.read_bytes(), limits))
        before = snapshot(case.out)
    moved_error = "isn't the folder that was opened any more"
    assert process.returncode == 3 and moved_error in case.output(), case.output()
    assert snapshot(case.out) == before
    assert not (moved / "verdicts.txt").exists()
    shutil.rmtree(case.out)
    os.rename(moved, case.out)
    case.require_verdicts(expected_verdicts(bb, case.list.read_bytes(), limits))


@pytest.mark.parametrize("number", [0, *(pytest.param(k, marks=pytest.mark.slow) for k in range(1, 5))])
def test_lock(bb: str, tmp_path: pathlib.Path, number: int) -> None:
    """All files at the top of a folder are removed while a run works in it: a second one is refused."""
    case = slow_case(tmp_path, "lock", 24 + number)
    with stop_run(case):
        second = Case(tmp_path / "lock-second", random_list(300, 3), [QUICK_PASS])
        second.out = case.out
        (case.out / "lock").unlink(missing_ok=True)
        os.rename(case.out / "run.json", case.out.with_name("away"))
        second.require_error(2, "another run works in")
        os.rename(case.out.with_name("away"), case.out / "run.json")
    assert case.verdicts() == expected_verdicts(bb, case.list.read_bytes(), [QUICK_PASS]), case.output()


def test_added_pass(bb: str, tmp_path: pathlib.Path) -> None:
    """A pass is added to a run of one, killed meanwhile, and run again."""
    case = slow_case(tmp_path, "added", 43)
    case.run()
    first = case.verdicts()
    case.words = [word for limits in TWO_PASSES for word in ("--pass", words_of(limits))]
    case.words += ["--threads", "1", "--chunk", "1"]
    with case.start() as process:
        was_seen = wait_until(process, lambda: any(case.out.glob("pass-2/*")))
        process.kill()
    assert was_seen and case.verdicts() == first
    right = expected_verdicts(bb, case.list.read_bytes(), TWO_PASSES)
    case.require_verdicts(right, "--chunk", "200", str(case.list))
    assert "decided again" not in case.output()


def require_unchanged(case: Case, top: pathlib.Path) -> None:
    """A run is refused soon, with a sentence, and all that was there is as it was."""
    before = {name: data for name, data in snapshot(top).items() if name != "errors.txt"}
    with case.start() as process:
        try:
            status = process.wait(30)
        finally:
            process.kill()
    assert status == 2 and "Traceback" not in case.output(), case.output()
    assert {name: data for name, data in snapshot(top).items() if name != "errors.txt"} == before


# What somebody else has in a folder that no run began: paths, and what is there.
MINE: dict[str, dict[str, str]] = {
    "a letter": {"letter.txt": "mine"},
    "a page": {"README.txt": "mine"},
    "a summary": {"summary.json": "mine"},
    "verdicts": {"verdicts.txt": "mine"},
    "a pass": {"pass-1/diary.txt": "mine"},
    "a chunk": {"pass-1/1-20": "mine"},
    "a journal": {"pass-1/journal": "mine"},
    "a page beside a pass": {"README.txt": "mine", "pass-1/": ""},
    "a summary beside a pass": {"summary.json": "{}", "pass-1/": ""},
    "verdicts beside a pass": {"verdicts.txt": "mine: halt\n", "pass-1/": ""},
    "a part": {"verdicts.txt.part": "mine, two lines\n"},
    "another part": {"letters.part": "mine"},
    "a part of run.json": {"run.json.part": "mine"},
    "a lock": {"lock": "mine"},
    "run.json": {"run.json": '{"name": "mine"}'},
}
LINKED = (
    *("run.json", "run.json.part", "README.txt", "verdicts.txt", "summary.json", "lock", "pass-1"),
    *("pass-1/1-20", "pass-1/1-1"),
)


@pytest.mark.parametrize("files", MINE.values(), ids=MINE)
def test_files_of_somebody_else(tmp_path: pathlib.Path, files: dict[str, str]) -> None:
    case = Case(tmp_path / "foreign", MACHINE, [QUICK_PASS])
    for name, text in files.items():
        path = case.out / name
        (path if name.endswith("/") else path.parent).mkdir(parents=True, exist_ok=True)
        if not name.endswith("/"):
            path.write_text(text)
    require_unchanged(case, case.out)
    assert os.path.basename(next(iter(files))) in case.output(), "the file is named"


@pytest.mark.parametrize("name", LINKED)
def test_links_of_somebody_else(tmp_path: pathlib.Path, name: str) -> None:
    require_link(Case(tmp_path / "link", MACHINE, [QUICK_PASS]), name)


def test_pipe_of_somebody_else(tmp_path: pathlib.Path) -> None:
    case = Case(tmp_path / "pipe", MACHINE, [QUICK_PASS])
    case.out.mkdir()
    os.mkfifo(case.out / "run.json")
    require_unchanged(case, case.out)


def require_link(case: Case, name: str) -> None:
    """What a link of a run's name leads to, and the link, stay as they are; so where it leads nowhere yet."""
    top = case.out.parent
    precious = top / "precious"
    for is_there in (True, False):
        path = case.out / name
        path.parent.mkdir(parents=True, exist_ok=True)
        with contextlib.suppress(FileNotFoundError):
            path.unlink()
        if is_there and name == "pass-1":
            precious.mkdir()
            (precious / "1-20").write_text("mine")
        elif is_there:
            precious.write_text("mine")
        path.symlink_to(precious)
        require_unchanged(case, top)
        assert precious.exists() == is_there
        if precious.is_dir():
            shutil.rmtree(precious)
        else:
            precious.unlink(missing_ok=True)


def test_begun(bb: str, tmp_path: pathlib.Path) -> None:
    """Links and pipes in a run's folder are refused; parts of somebody else stay, and the run goes on."""
    case = Case(tmp_path / "begun", random_list(300, 51), [QUICK_PASS])
    case.run()
    for name in ("README.txt", "verdicts.txt", "summary.json", "run.json", "pass-1/1-1", "pass-1"):
        own = case.out / name
        away = case.out.parent / "away"
        os.rename(own, away)
        require_link(case, name)
        own.unlink()
        os.rename(away, own)
    (case.out / "summary.json").unlink()
    os.mkfifo(case.out / "summary.json")
    require_unchanged(case, case.out)
    (case.out / "summary.json").unlink()
    (case.out.parent / "precious").write_text("mine")
    for name in ("verdicts.txt.part", "summary.json.part", "run.json.part", "README.txt.part"):
        (case.out / name).symlink_to(case.out.parent / "precious")
        (case.out / name.replace(".part", ".2.part")).write_text("mine, too\n")
    parts = {name: data for name, data in snapshot(case.out).items() if name.endswith(".part")}
    case.words += ["--pass", words_of((60, 64, 3, 10))]
    case.require_verdicts(expected_verdicts(bb, case.list.read_bytes(), TWO_PASSES))
    assert {name: data for name, data in snapshot(case.out).items() if name.endswith(".part")} == parts
    assert (case.out.parent / "precious").read_text() == "mine"
    (case.out / "pass-3").mkdir()
    (case.out / "pass-3" / "1-20").write_text("mine")
    case.words += ["--pass", words_of((70, 64, 3, 10))]
    require_unchanged(case, case.out)


@pytest.mark.parametrize("passes", [1, pytest.param(2, marks=pytest.mark.slow)])
def test_mixed(tmp_path: pathlib.Path, passes: int) -> None:
    """A summary or verdicts of another run over as many machines of each kind are refused; chunks aren't read."""
    lines = random_list(2_000, 61).splitlines(keepends=True)
    cases = [
        Case(tmp_path / ("mixed-%d-%d" % (passes, number)), b"".join(given), PASSES[:passes])
        for number, given in enumerate((lines, lines[::-1]))
    ]
    for case in cases:
        case.run()
    first, second = (case.out for case in cases)
    for name in ("verdicts.txt", "summary.json", "run.json"):
        mixed = tmp_path / ("mixed-%d-%s" % (passes, name))
        shutil.copytree(first, mixed)
        shutil.copyfile(second / name, mixed / name)
        archive = tmp_path / ("mixed-%d-%s.tar" % (passes, name))
        run_budlarem("publish", archive, "--verdicts", mixed, status=2, sentence="doesn't match")
        assert not archive.exists()
    archives = [tmp_path / ("whole-%d-%d.tar" % (passes, number)) for number in range(3)]
    words = ["--verdicts", first, "--list", cases[0].list]
    run_budlarem("publish", archives[0], *words)
    shutil.rmtree(first / "pass-1")
    shutil.copytree(second / "pass-1", first / "pass-1")
    run_budlarem("publish", archives[1], *words)
    for number in range(1, passes + 1):
        shutil.rmtree(first / ("pass-%d" % number))
    run_budlarem("publish", archives[2], *words)
    assert len({archive.read_bytes() for archive in archives}) == 1


@pytest.mark.parametrize(
    "name, begin",
    [
        ("o.tar", lambda data: data[257:262] == b"ustar"),
        pytest.param(
            "p.html", lambda data: b"<html" in data, marks=pytest.mark.needs(modules=("matplotlib",))
        ),
    ],
)
def test_output(tmp_path: pathlib.Path, name: str, begin: Callable[[bytes], bool]) -> None:
    """An archive or a report is written beside a link and a file that have the names of its parts; over no link."""
    place, archive = tmp_path / "place", name == "o.tar"
    place.mkdir()
    verdicts, precious, out = place / "verdicts.txt", place / "precious", place / name
    verdicts.write_bytes(MACHINE[:-1] + b" halt 6 4\n")
    precious.write_text("mine")
    (place / (name + ".part")).symlink_to(precious)
    (place / (name + ".2.part")).write_text("mine, too")
    words = ["publish", out, "--verdicts", verdicts] if archive else ["report", verdicts, "--out", out]
    before = snapshot(place)
    run_budlarem(*words)
    after = snapshot(place)
    assert begin(after.pop(name, b"")) and after == before
    for leads_to in (precious, place / "nowhere"):
        out.unlink()
        out.symlink_to(leads_to)
        status, sentence = (2, "exists already") if archive else (3, "it is a link")
        run_budlarem(*words, status=status, sentence=sentence)
        assert snapshot(place) == {**before, name: b"link to " + os.fsencode(leads_to)}


@pytest.mark.needs(modules=("matplotlib",))
def test_report_over_its_list(tmp_path: pathlib.Path) -> None:
    listed, same = tmp_path / "list.txt", tmp_path / "same.txt"
    listed.write_bytes(MACHINE[:-1] + b" halt 6 4\n")
    os.link(listed, same)
    before = listed.read_bytes()
    for out, named in itertools.product((listed, same), ((listed,), ())):
        with open(listed, "rb") as file:
            run_budlarem("report", *named, "--out", out, stdin=file, status=2, sentence="is the list itself")
        assert listed.read_bytes() == before
