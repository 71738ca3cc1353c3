"""The folder of a run and the files in it: open directories, checksums, locks, and what is a run's own."""

import contextlib
import errno
import fcntl
import itertools
import os
import pathlib
import random
import shutil
import unittest.mock
import zlib
from typing import Any, Callable, Iterator, Sequence

import budlarem
import pytest
from budlarem import Limits, _api, _files, _library, publish
from budlarem.runner import folder, replies
from budlarem.runner.errors import FolderError, MovedError, RunError
from python.tests.runner import LIST, PASSES, SMALL, RunCase, act, expected_verdicts


def contents(top: pathlib.Path) -> dict[str, bytes]:
    return {str(path): path.read_bytes() for path in top.rglob("*") if path.is_file()}


@pytest.fixture
def target(tmp_path: pathlib.Path) -> Iterator[_files.FileTarget]:
    """A page in a folder that may be moved."""
    (tmp_path / "in").mkdir()
    with _files.open_target(str(tmp_path / "in" / "page")) as opened:
        yield opened


def test_nothing_is_left_after_an_error(target: _files.FileTarget, tmp_path: pathlib.Path) -> None:
    def fail() -> Iterator[bytes]:
        yield b"half"
        raise OSError(errno.ENOSPC, "No space left on device")

    with pytest.raises(OSError) as raised:
        target.write(fail())
    assert (raised.value.filename, contents(tmp_path)) == (str(tmp_path / "in" / "page"), {})


def test_a_target_whose_folder_is_moved(target: _files.FileTarget, tmp_path: pathlib.Path) -> None:
    os.rename(tmp_path / "in", tmp_path / "moved")
    with pytest.raises(OSError, match="moved, removed or replaced"):
        target.write([b"page"])
    assert contents(tmp_path) == {}


def test_parts_make_the_whole() -> None:
    chance = random.Random(5)
    sizes = [0, 1, 2, 3, 100, 65_536, 1_000_003, *(chance.randrange(10_000) for _ in range(20))]
    for first, second in itertools.islice(itertools.permutations(sizes, 2), 0, None, 7):
        parts = chance.randbytes(first), chance.randbytes(second)
        whole = b"".join(parts)
        found = [_files.Checksum().add_bytes(part) for part in parts]
        assert found[0].add(found[1]) == _files.Checksum(len(whole), zlib.crc32(whole))


def test_a_file_where_folders_have_no_locks(case: RunCase) -> None:
    lock = fcntl.flock
    with contextlib.closing(folder.Folder(str(case.out))):
        assert list(case.out.iterdir()) == [], "the folder itself is locked"

    def refuse(number: int, what: int) -> None:
        if os.path.isdir("/proc/self/fd/%d" % number):
            raise OSError(errno.EBADF, "Bad file descriptor")
        lock(number, what)

    with unittest.mock.patch.object(fcntl, "flock", refuse):
        case.require_verdicts()
        first = folder.Folder(str(case.out))
        case.callback(first.close)
        case.require_error(FolderError, "another run works in")
        first.require_name()
        (case.out / "lock").unlink()
        with pytest.raises(RunError, match="lock was removed or replaced"):
            first.require_name()


class Crash(BaseException):
    """As a process that is killed."""


CALLS = ("link", "rename", "unlink", "mkdir", "fsync")


def is_ended(case: RunCase, after: int, limits: Sequence[Limits]) -> bool:
    """Whether a run has more than so many of these calls, and is ended at the next."""
    left = itertools.count(after, -1)

    def ending(call: Callable[..., Any]) -> Callable[..., Any]:
        def instead(*given: Any, **named: Any) -> Any:
            if next(left) <= 0:
                raise Crash
            return call(*given, **named)

        return instead

    with contextlib.ExitStack() as patched:
        for name in CALLS:
            patched.enter_context(unittest.mock.patch.object(os, name, ending(getattr(os, name))))
        try:
            case.run_over(limits=limits, most=100)
        except Crash:
            return True
    return False


def test_each_call(case: RunCase) -> None:
    case.list.write_bytes(LIST[: len(LIST) // 14])
    given = case.list.read_bytes()
    cases: list[tuple[list[Limits], list[Limits]]] = [([], [SMALL]), ([SMALL], [*PASSES]), ([], [*PASSES])]
    for before, limits in cases:
        after, was_ended = 0, True
        while was_ended:
            shutil.rmtree(case.out, ignore_errors=True)
            if before:
                case.run_over(limits=before, most=100)
            was_ended = is_ended(case, after, limits)
            case.require_verdicts(limits=limits, most=100)
            assert [path.name for path in case.out.rglob("*.part")] == []
            published = publish(case.top / ("%d-%d.tar" % (after, len(limits) + len(before))), case.out)
            assert published.confirmed + published.open == given.count(b"\n") + 1
            after += 1
        assert after > 15


def test_a_folder_without_what_it_was_begun_with(case: RunCase) -> None:
    """Its files show that they are a run's; one that doesn't is somebody else's."""
    case.run_over()
    (case.out / "run.json").unlink()
    shutil.copytree(case.out, case.top / "whole")
    texts = dict.fromkeys(("README.txt", "pass-1/1-7", "pass-2/notes", "pass-3/1-20"), "mine")
    texts.update(dict.fromkeys(("verdicts.txt.part", "pass-1/1-20.part"), "mine, too"))
    texts.update({"summary.json": "{}", "verdicts.txt": "mine\t1\n", "letters": ""})
    for name, text in texts.items():
        shutil.rmtree(case.out)
        shutil.copytree(case.top / "whole", case.out)
        (case.out / name).parent.mkdir(exist_ok=True)
        (case.out / name).write_text(text)
        before = contents(case.out)
        case.require_error(FolderError, "has other files in it, as %s" % os.path.basename(name))
        assert contents(case.out) == before


def test_what_a_killed_run_left_is_removed(case: RunCase) -> None:
    parts = {"run.json.part": b"", "summary.json.part": b'{\n  "form', "README.txt.part": b"Verdicts on the"}
    case.out.mkdir()
    for name, text in {**parts, "verdicts.txt.2.part": expected_verdicts(LIST)[:50]}.items():
        (case.out / name).write_bytes(text)
    case.require_verdicts()
    assert [name for name in os.listdir(case.out) if name.endswith(".part")] == []


def test_chunks_that_were_being_written(small: RunCase) -> None:
    """A part that begins as a chunk is removed; another one stays."""
    begin = small.chunk().read_bytes()[:300]
    parts = {"1-5.part": begin, "1-5.2.part": b"", "6-9.part": b"mine", "6-9.lock": b""}
    for name, text in parts.items():
        (small.out / "pass-1" / name).write_bytes(text)
    small.run_over(limits=[SMALL])
    assert [path.name for path in (small.out / "pass-1").iterdir() if "." in path.name] == ["6-9.part"]


def test_chunks_and_passes_that_are_replaced_meanwhile(case: RunCase) -> None:
    """What another made stays, and ends the run with a sentence."""

    def replace_chunk() -> None:
        (case.out / "pass-1" / "1-1").unlink(missing_ok=True)
        (case.out / "pass-1" / "1-1").write_text("mine")

    def replace_pass() -> None:
        os.rename(case.out / "pass-1", case.top / "moved")
        (case.out / "pass-1").mkdir()
        (case.out / "pass-1" / "1-1").write_text("mine")

    for at in (0, 30):
        case.out = case.top / str(at)
        sentence = "1-1 was (cut or changed|made or replaced by another)"
        case.require_error(RunError, sentence, act(replace_chunk, at), limits=[SMALL])
        assert (case.out / "pass-1" / "1-1").read_text() == "mine"
        case.require_verdicts(limits=[SMALL])
    case.out = case.top / "other"
    case.require_error(MovedError, "", act(replace_pass, 3), limits=[SMALL])
    assert (case.out / "pass-1" / "1-1").read_text() == "mine"


def test_folders_of_passes_that_are_not_asked_for(case: RunCase) -> None:
    case.run_over(limits=[SMALL])
    (case.out / "pass-7").mkdir()
    (case.out / "pass-7" / "notes").write_text("mine")
    case.run_over(limits=[SMALL])
    case.require_verdicts()
    assert (case.out / "pass-7" / "notes").read_text() == "mine"


def test_a_summary_has_the_checksum_of_the_verdicts(case: RunCase) -> None:
    for limits in (PASSES, [SMALL]):
        case.out = case.top / str(len(limits))
        case.run_over(limits=limits)
        with contextlib.closing(folder.FinishedRun(str(case.out))) as found:
            assert found.checksum == _files.Checksum().add_bytes(case.verdicts())
            assert (found.identity, found.lines) == (replies.identity(), 370)
            assert found.results[0].lines == 370


def test_all_names_are_there() -> None:
    names = getattr(budlarem, "__all__")
    assert {*names} - {*_api.__all__} == {"COMMIT", "__version__"}
    for name in names:
        assert getattr(budlarem, name) is not None
        assert name in dir(budlarem)
    assert not hasattr(budlarem, "nothing")


def test_a_library_of_another_length_than_the_wheel_says(tmp_path: pathlib.Path) -> None:
    path = tmp_path / "libbb.so"
    path.write_bytes(pathlib.Path(_library.load_library()._name).read_bytes())
    size = path.stat().st_size
    with unittest.mock.patch.object(_library, "_HERE", tmp_path):
        for said in (size, None):
            with unittest.mock.patch.object(_library, "LIBRARY_BYTES", said):
                _library.require_whole(path)
        with unittest.mock.patch.object(_library, "LIBRARY_BYTES", size + 1):
            with pytest.raises(budlarem.LibraryError, match="it was cut or changed"):
                _library.require_whole(path)
