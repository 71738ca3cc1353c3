"""The parts of the runner: its input and page, chunks, the journal, the validation of replies, and the pace."""

import contextlib
import gzip
import itertools
import os
import pathlib
import shlex
import unittest.mock
from typing import Any, Callable, Iterator

import hypothesis
import pytest
from budlarem import _files
from budlarem._text import LONGEST_GIVEN
from budlarem.runner import chunks, errors, input, passes, replies, store
from budlarem.runner.errors import ReplyError, RunError
from hypothesis import strategies as st
from python.tests.runner import KINDS, LIST, MIDDLE, PASSES, SMALL, RunCase, call_command, counts_of
from python.tests.runner import expected_verdicts


def take_all(blocks: Iterator[bytes], lines: int, size: int) -> list[bytes]:
    found = input.StreamLines.of_blocks(blocks)
    return list(iter(lambda: found.take(lines, size), b""))


@hypothesis.settings(deadline=None, suppress_health_check=[hypothesis.HealthCheck.function_scoped_fixture])
@hypothesis.given(
    lengths=st.lists(st.sampled_from((0, 1, 2, 30, 1_023, 1_024, 1_025, 5_000)), max_size=60),
    lines=st.sampled_from((1, 3, 17, 50, 1_000)),
    size=st.sampled_from((1, 100, 2_000, 1 << 20)),
    cut=st.sampled_from((1, 7, 1_000, 1_030)),
)
def test_chunks_are_the_same_however_the_bytes_come(
    case: RunCase, lengths: list[int], lines: int, size: int, cut: int
) -> None:
    texts = [b"x" * length for length in lengths]
    given = b"\n".join(texts)
    chunks = take_all(iter([given]), lines, size)
    blocks = (given[place : place + cut] for place in range(0, len(given), cut))
    assert take_all(blocks, lines, size) == chunks
    ends = texts if texts and texts[-1] else texts[:-1]
    assert b"".join(chunks) == b"".join(text[:1_024] + b"\n" for text in ends)
    with list_of(case, given) as listed:
        plain = listed.lines()
        of_file = list(iter(lambda: plain.take(lines, size), b""))
    assert b"".join(of_file) == b"".join(chunks)
    assert plain.lines_taken == len(ends)
    for chunk in [*chunks, *of_file]:
        assert chunk.count(b"\n") <= lines
        assert len(chunk) <= size or chunk.count(b"\n") == 1


def test_chunks_are_as_large_as_may_be() -> None:
    given = b"abc\n" * 1_000
    assert [len(chunk) for chunk in take_all(iter([given]), 300, 1 << 20)] == [1200] * 3 + [400]
    assert [len(chunk) for chunk in take_all(iter([given]), 300, 1_002)] == [1000] * 4


def test_gzip_and_empty_lists(case: RunCase) -> None:
    for given in (b"", b"\n", b"1RZ---", LIST):
        for written in (given, gzip.compress(given) + gzip.compress(b"")):
            with list_of(case, written) as listed:
                assert b"".join(listed.blocks()) == given


def test_a_cut_gzip_file(case: RunCase) -> None:
    case.list.write_bytes(gzip.compress(LIST)[:-20])
    with pytest.raises(RunError, match="can't be read as gzip"):
        case.run_over()


def test_a_list_that_changes(case: RunCase) -> None:
    with list_of(case, LIST) as listed:
        next(listed.blocks())
        case.list.write_bytes(LIST + KINDS)
        with pytest.raises(RunError, match="changed while it was read"):
            list(listed.blocks())


class StoreCase:
    """A store with two results."""

    def __init__(self, case: RunCase) -> None:
        self.path, self.callback = case.top / "store", case.callback
        self.path.mkdir()
        self.store = self.open_store({"limits": "steps=5"})
        for task in ("one", "two"):
            self.store.write(task, {"counts": [len(task)], "text": "\udcff"}, b"verdicts of " + task.encode())

    def open_store(self, origin: dict[str, str]) -> store.Store:
        opened = store.Store(_files.Directory.open(str(self.path)), origin)
        self.callback(opened.close)
        return opened


@pytest.fixture
def stored(case: RunCase) -> StoreCase:
    return StoreCase(case)


def test_results_come_back(stored: StoreCase) -> None:
    found = stored.store.read("two")
    assert found is not None and found.content == b"verdicts of two"
    assert (found.fields["counts"], found.fields["text"]) == ([3], "\udcff")
    assert stored.store.read_fields("two") == found.fields
    assert stored.store.read("three") is None and stored.store.read_fields("three") is None
    assert sorted(os.listdir(stored.path)) == ["one", "two"]


def test_each_changed_byte_is_seen(stored: StoreCase) -> None:
    path = stored.path / "one"
    data = path.read_bytes()
    bits = itertools.product(range(len(data)), (0, 3, 7))
    changed = [data[:place] + bytes([data[place] ^ 1 << bit]) + data[place + 1 :] for place, bit in bits]
    changed += [data[:size] for size in range(len(data))] + [data + b"x", data + data, b"mine"]
    for one in changed:
        path.write_bytes(one)
        with pytest.raises(store.SealError):
            stored.store.read("one")


def test_moved_results_and_other_origins(stored: StoreCase) -> None:
    (stored.path / "three").write_bytes((stored.path / "two").read_bytes())
    with pytest.raises(store.SealError, match="it is the result of another task"):
        stored.store.read("three")
    for limits in ("steps=6", "none"):
        with pytest.raises(store.OriginError, match="its limits is steps=5, and here it is " + limits):
            stored.open_store({"limits": limits} if limits != "none" else {}).read("two")


def test_a_lock_of_a_task(stored: StoreCase) -> None:
    """Another process waits for it, or is told; nothing of it stays, and a killed process's is taken over."""
    other = stored.open_store({})
    (stored.path / "one.lock").touch()
    with stored.store.claim("one") as is_mine, other.claim("two") as is_other:
        assert is_mine and is_other
        for claimed in (stored.store, other):
            with claimed.claim("one", waits=False) as is_free:
                assert not is_free
        other.remove_leftovers()
        assert sorted(os.listdir(stored.path)) == ["one", "one.lock", "two", "two.lock"]
    assert sorted(os.listdir(stored.path)) == ["one", "two"]
    (stored.path / "one.part").write_bytes((stored.path / "one").read_bytes()[:30])
    (stored.path / "two.part").write_text("mine")
    (stored.path / "three.lock").touch()
    other.remove_leftovers()
    assert sorted(os.listdir(stored.path)) == ["one", "two", "two.part"]


def test_verdicts_of_a_list() -> None:
    for limits in PASSES:
        verdicts = expected_verdicts(LIST, [limits])
        counts = chunks.validate_verdicts(LIST, verdicts)
        assert counts == counts_of(verdicts)
        assert sum(counts.values()) == LIST.count(b"\n")
        for kind in ("halt", "cycler", "translated", "refused"):
            assert counts[kind] > 0


def test_what_is_wrong() -> None:
    good = expected_verdicts(KINDS)
    chunks.validate_verdicts(KINDS, good)
    lines = good.splitlines(keepends=True)
    for changed in (b"", good[:-1], good + lines[0], good[len(lines[0]) :], good + b"x", good[::-1], KINDS):
        require_refusal(KINDS, changed)
    for place, line in itertools.product(range(len(lines)), lines):
        if line != lines[place]:
            require_refusal(KINDS, b"".join([*lines[:place], line, *lines[place + 1 :]]))


def test_lines_that_are_no_verdict_lines() -> None:
    machine = b"1RB1LB_1LA1RZ"
    for text in (b"halt 6", b"halt 06 4", b"halt 6 4 ", b" halt 6 4", b"", b"open", b"\x00"):
        require_refusal(machine + b"\n", machine + b" " + text + b"\n")
    for text in (b"refused 3", b"refused 0", b"refused 2 ", b"refused", b"refused 2\n"):
        require_refusal(b"1rB1LB\n", text + b"\n")
    require_refusal(b"1RA1RA translated\n", b"1RA1RA translated R 1 2 1 1\n")
    chunks.validate_verdicts(b"1RA1RA translated\n", b"refused 7\n")
    require_refusal(b"1RZ---\n", b"refused 7\n")
    require_refusal(b"refused\n", b"refused 5\n")
    chunks.validate_verdicts(b"refused\n", b"refused 1\n")


def require_refusal(given: bytes, verdicts: bytes) -> None:
    with pytest.raises(ReplyError):
        chunks.validate_verdicts(given, verdicts)


def test_answers() -> None:
    chunks.validate_answers(10, b"ok\n" * 9 + b"open\n")
    for answers in (b"", b"ok\n" * 9, b"ok\n" * 10 + b"\n", b"fine\n" * 10):
        with pytest.raises(ReplyError) as raised:
            chunks.validate_answers(10, answers)
        assert raised.value.line is None
    with pytest.raises(ReplyError, match="bad") as raised:
        chunks.validate_answers(10, b"ok\n" * 4 + b"bad\n" + b"over\n" * 5)
    assert raised.value.line == 4


def test_replies() -> None:
    ours, numbers = replies.identity(), SMALL.numbers()
    request, reply = replies.Request(chunks.decide, KINDS, numbers), replies.reply_to(
        chunks.decide, KINDS, numbers
    )
    assert replies.open_reply(reply, request, ours).written == expected_verdicts(KINDS, [SMALL])
    outputs, seconds = (reply[0][:-1] + b" ", reply[0].decode()), ("1", float("nan"))
    wrong: list[Any] = [
        *(None, b"", [], reply[:4], reply[:5], (*reply[:7], replies.digest_of(KINDS))),
        *((output, *reply[1:]) for output in outputs),
        *((reply[0], one, *reply[2:]) for one in seconds),
        *((*reply[:2], "0.0", *reply[3:]), (*reply[:4], "0" * 64, *reply[5:])),
        replies.reply_to(chunks.decide, KINDS[:-1], numbers),
        replies.reply_to(chunks.decide, KINDS, MIDDLE.numbers()),
        replies.reply_to(chunks.check, KINDS, numbers),
    ]
    for changed in wrong:
        with pytest.raises(ReplyError):
            replies.open_reply(changed, request, ours)


def test_a_chunk_lasts_some_seconds() -> None:
    costs, widths = (1e-6, 1e-3, 0.1, 3.0, 1e4), {8: 2, 200: 2, 2_000: 20}
    for cost, (width, lasting) in itertools.product(costs, widths.items()):
        pace = passes.ChunkPace(20_000)
        sizes = []
        for _ in range(40):
            sizes.append(pace.now)
            pace.update(pace.now, pace.now * cost, width)
        assert sizes[0] == 1
        assert all(after <= 8 * before for before, after in zip(sizes, sizes[1:]))
        assert sizes[-1] in (1, 20_000) or 0.7 <= sizes[-1] * cost / lasting <= 1.3, sizes


MACHINE_LINE = b"1RB1LB_1LA1RZ\n"
SMALL_PASS = ["--pass", "steps=30,cells=16,depth=3,nodes=5"]


@contextlib.contextmanager
def pipe(given: bytes) -> Iterator[tuple[input.ListFile, int]]:
    """A list that comes by a pipe, in which these bytes are, and the pipe's other end."""
    reading, writing = os.pipe()
    os.write(writing, given)
    try:
        with contextlib.closing(input.ListFile("/dev/fd/%d" % reading)) as listed:
            yield listed, writing
    finally:
        os.close(reading)


def all_lines(listed: input.ListFile) -> bytes:
    lines = listed.lines()
    return b"".join(iter(lambda: lines.take(7, 1_000), b""))


@contextlib.contextmanager
def list_of(case: RunCase, given: bytes) -> Iterator[input.ListFile]:
    case.list.write_bytes(given)
    with contextlib.closing(input.ListFile(str(case.list))) as listed:
        yield listed


def test_first_lines_are_given_again(case: RunCase) -> None:
    for count in (0, 1, 999, 1_000, 1_001, 200_000):
        given = MACHINE_LINE * count
        for data in (given, gzip.compress(given)):
            with list_of(case, data) as listed:
                assert listed.first_lines(1_000) == [MACHINE_LINE[:-1]] * min(count, 1_000)
                assert all_lines(listed) == given
    with list_of(case, MACHINE_LINE + b"1RA1RA") as listed:
        assert listed.first_lines(2) == [MACHINE_LINE[:-1], b"1RA1RA"]


def test_a_list_that_has_no_newline_is_not_held_whole(case: RunCase) -> None:
    with list_of(case, gzip.compress(os.urandom(4_000_000).replace(b"\n", b""))) as listed:
        assert [len(line) for line in listed.first_lines(1_000)] == [LONGEST_GIVEN]
        assert (listed.fraction(0) or 1.0) < 0.7


def test_a_pause() -> None:
    given = b"# a head\n" + MACHINE_LINE
    with unittest.mock.patch.object(input, "_PAUSE", 0.01), pipe(given) as (listed, writing):
        assert listed.first_lines(1_000) == []
        os.write(writing, MACHINE_LINE)
        os.close(writing)
        assert all_lines(listed) == given + MACHINE_LINE


def test_no_pause() -> None:
    with pipe(MACHINE_LINE * 2) as (listed, writing):
        os.close(writing)
        assert listed.first_lines(1_000) == [MACHINE_LINE[:-1]] * 2
        assert all_lines(listed) == MACHINE_LINE * 2


def test_more_than_half(case: RunCase) -> None:
    with list_of(case, (b"`1RB1LB_1LA1RZ`\n" + MACHINE_LINE) * 3) as listed:
        input.require_form(listed)
    with list_of(case, (MACHINE_LINE + b"`1RB1LB_1LA1RZ`\n") * 3 + b"x\n") as listed:
        with pytest.raises(errors.FolderError, match="4 of the first 7 lines .* line 2: .*budlarem read"):
            input.require_form(listed)


def test_a_run_s_own_file_is_named_before_its_form(case: RunCase) -> None:
    case.list.write_bytes(MACHINE_LINE)
    assert case.call(*SMALL_PASS)[0] == 0
    status, said = call_command("run", str(case.out / "verdicts.txt"), "--out", str(case.out), *SMALL_PASS)
    assert status == 2
    assert "which a run in that folder writes" in said


def test_what_is_no_list(case: RunCase) -> None:
    """Nothing is begun."""
    ways: list[tuple[Callable[[], object], int, str]] = [
        (lambda: case.list.write_bytes(b"1RB1LB_1LA1RZ halt 6 4\n"), 2, "budlarem read"),
        (case.list.unlink, 3, "the list %s can't be read: No such file" % case.list),
        (case.list.mkdir, 3, "can't be read: it is a folder"),
    ]
    for change, wanted, text in ways:
        change()
        status, said = case.call(*SMALL_PASS)
        assert (status, case.out.exists()) == (wanted, False) and text in said


def commands_of_page(case: RunCase) -> list[list[str]]:
    lines = (case.out / "README.txt").read_text(encoding="utf-8").splitlines()
    first = next(place for place, line in enumerate(lines) if line.startswith("    budlarem "))
    assert max(map(len, lines[3:first])) < 81
    return [shlex.split(line)[1:] for line in lines if line.startswith("    budlarem ")]


def test_it_names_all_files(case: RunCase) -> None:
    case.list.write_bytes(MACHINE_LINE)
    case.call(*SMALL_PASS)
    page = (case.out / "README.txt").read_text(encoding="utf-8")
    for path in case.out.iterdir():
        assert "  %s" % path.name in page
    assert "a file for each chunk of its lines" in page


@pytest.mark.parametrize("check", ["", "--check", "--check-here"])
def test_its_commands(case: RunCase, monkeypatch: pytest.MonkeyPatch, check: str) -> None:
    """They resume with the same check, and publish what can be published."""
    monkeypatch.chdir(case.top)
    case.list.write_bytes(MACHINE_LINE + b"0RB1LD_0RC1RD_0RD---_1LA0RB\n")
    for keep in ("", "--keep=halts=9"):
        options = list(filter(None, [keep, check]))
        case.out = case.top / "-".join(["out", *options])
        assert case.call(*SMALL_PASS, *options)[0] == 0
        found = commands_of_page(case)
        assert [words[0] for words in found] == ["run", "check", "publish"][: 2 if keep and not check else 3]
        for words in found:
            assert call_command(*words)[0] == 0, words
        if check:
            status, said = case.call(*SMALL_PASS, *options[:-1])
            assert status == 2 and "was started with %s; give it too, or another folder" % check in said


def test_names_that_begin_as_options_do(case: RunCase, monkeypatch: pytest.MonkeyPatch) -> None:
    """Each command of the page can be given as it stands there, where the run was begun."""
    monkeypatch.chdir(case.top)
    pathlib.Path("-list").write_bytes(MACHINE_LINE)
    case.out = case.top / "--out"
    assert call_command("run", "--out=--out", *SMALL_PASS, "--", "-list")[0] == 0
    for words in commands_of_page(case):
        assert call_command(*words)[0] == 0, words
    assert (case.top / "--out.tar").exists()
