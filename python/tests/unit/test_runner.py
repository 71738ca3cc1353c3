"""The runner: whole runs, the writer, what is kept, executors that answer wrongly, and the command."""

import contextlib
import dataclasses
import errno
import gzip
import itertools
import json
import os
import random
import re
import shutil
import threading
import unittest.mock
from concurrent.futures import Future
from typing import Any, Callable, Sequence

import budlarem
import pytest
from budlarem import Limits, _files
from budlarem.runner import chunks, folder, input, pass_folder, replies, store
from budlarem.runner.errors import CheckError, DeadWorkersError, FolderError, MovedError, RunError, UsageError
from python.tests.runner import KINDS, LIST, MIDDLE, PASSES, SMALL, Answering, KeptProgress, Late, RunCase
from python.tests.runner import PoolBackend, act, answer_with, counts_of, expected_verdicts, reseal


def chunks_of(case: RunCase) -> dict[str, bytes]:
    """The chunks of the first pass."""
    return {path.name: path.read_bytes() for path in (case.out / "pass-1").iterdir()}


def test_lists_and_passes(case: RunCase) -> None:
    lists = (b"", b"\n", KINDS[:-1], LIST, b"1RZ---\n" * 100, b"x" * 5_000 + b"\n" + KINDS)
    for place, (given, limits) in enumerate(itertools.product(lists, (PASSES, [SMALL], [MIDDLE, SMALL]))):
        case.list.write_bytes(given)
        case.out = case.top / str(place)
        outcome = case.require_verdicts(limits=limits)
        assert outcome.lines == sum(outcome.counts.values()) == case.verdicts().count(b"\n")


def test_the_summary(case: RunCase) -> None:
    case.run_over(check=True)
    summary = json.loads((case.out / "summary.json").read_text())
    assert summary["lines"] == 370
    first, second = summary["passes"]
    assert first["limits"] == {"steps": 30, "cells": 16, "depth": 3, "nodes": 5}
    left = first["counts"]["undecided steps"] + first["counts"]["undecided cells"]
    assert (first["lines"], second["lines"]) == (370, left)
    assert (sum(first["counts"].values()), sum(second["counts"].values())) == (370, left)
    assert summary["counts"] == counts_of(case.verdicts())
    assert (first["checked"], summary["version"]) == (True, replies.identity().version)
    assert (summary["commit"], len(summary["library"])) == (budlarem.COMMIT, 64)


def test_lines_keep_their_numbers(case: RunCase) -> None:
    case.run_over()
    first, second = map(case.open_pass, (1, 2))
    for limits, before in (([SMALL], [first]), (PASSES, [first, second])):
        lines = enumerate(expected_verdicts(LIST, limits).splitlines(), 1)
        left = [place for place, line in lines if b" und" in line]
        assert [pass_folder.list_line_number(before, line) for line in range(len(left))] == left
    assert pass_folder.list_line_number([], 7) == 8


def test_whole_passes_are_added(small: RunCase) -> None:
    """The verdicts are linked, and moved away meanwhile: they stay as they are."""
    verdicts, kept, moved = small.out / "verdicts.txt", small.top / "kept", small.top / "moved"
    before, executor = chunks_of(small), act(lambda: os.rename(verdicts, moved), 0)
    os.link(verdicts, kept)
    for _ in range(2):
        small.require_verdicts(executor)
        assert chunks_of(small) == before
        assert executor.count == len(small.records(2))
    assert kept.read_bytes() == moved.read_bytes() == expected_verdicts(LIST, [SMALL])


def test_what_stands_is_not_decided_again(case: RunCase) -> None:
    case.run_over()
    executor = Answering()
    (case.out / "verdicts.txt").write_bytes(b"changed")
    case.run_over(executor)
    assert (executor.count, case.verdicts()) == (0, expected_verdicts(LIST))
    count = len(case.records(1)) + len(case.records(2))
    for _ in range(2):
        case.run_over(executor, check=True)
        assert executor.count == count


def test_another_list(case: RunCase) -> None:
    case.run_over()
    packed = case.top / "list.gz"
    other = LIST.replace(b"------", b"1RZ---", 1)
    for given in (other, LIST + KINDS, LIST[: -len(KINDS)], b"", KINDS + LIST):
        for path, written in ((case.list, given), (packed, gzip.compress(given))):
            path.write_bytes(written)
            case.require_error(FolderError, "isn't the list that", path=str(path))
    packed.write_bytes(gzip.compress(LIST))
    case.list.write_bytes(LIST)
    for path in (case.list, packed):
        case.require_verdicts(path=str(path))


def config_of(text: str) -> Any:
    return folder.RunConfig.of_fields(store.unseal(text))


def test_changed_passes_and_libraries(case: RunCase) -> None:
    case.run_over()
    for limits in ([SMALL], [MIDDLE, SMALL], [MIDDLE], [SMALL, SMALL, MIDDLE]):
        case.require_error(FolderError, "started with other passes", limits=limits)
    path = case.out / "run.json"
    written = path.read_text()
    config = config_of(written)
    assert config is not None
    other = dataclasses.replace(config.identity, library="0" * 64)
    path.write_text(dataclasses.replace(config, identity=other).text())
    case.require_error(FolderError, "another library")
    for text in (written.replace('"format": 4', '"format": 1'), '{"format": 1, "passes": []}\n'):
        path.write_text(text)
        case.require_error(FolderError, "run.json: it has format 1, which another version")


def test_what_a_folder_was_begun_with() -> None:
    keep = chunks.Retention(True, 7)
    config = folder.RunConfig(
        list(PASSES), keep, replies.identity(), "\udcff list \u1234", 5, None, "--check"
    )
    text = config.text()
    assert config_of(text) == config
    assert json.loads(text)["list"]["bytes"] == 5
    for size in range(len(text)):
        assert config_of(text[:size]) is None
    bits = itertools.product(range(len(text)), range(8))
    changed = [text[:place] + chr(ord(text[place]) ^ 1 << bit) + text[place + 1 :] for place, bit in bits]
    for one in (*changed, text + " ", "hello", "[" * 10_000, "5\n", "{}\n"):
        with pytest.raises(store.SealError):
            config_of(one)


def test_a_list_that_would_be_overwritten(case: RunCase) -> None:
    case.run_over()
    own = ("verdicts.txt", "summary.json", "run.json", "pass-2/" + case.chunk(2).name)
    for path in own:
        other, before = case.top / "another_name", (case.out / path).read_bytes()
        os.link(case.out / path, other)
        for name in (case.out / path, other):
            with contextlib.closing(input.ListFile(str(name))) as listed:
                with pytest.raises(FolderError, match="the list is .*%s" % path):
                    folder.Folder(str(case.out), listed.id)
            assert name.read_bytes() == before
        other.unlink()


def test_files_that_were_cut_or_changed(case: RunCase) -> None:
    """A changed `run.json` is refused; of anything else the right verdicts come."""
    case.run_over(most=60)
    chance = random.Random(1)
    shutil.copytree(case.out, case.top / "whole")
    for path in sorted(path for path in case.out.rglob("*") if path.is_file()):
        data = path.read_bytes()
        place = chance.randrange(len(data))
        flipped = data[:place] + bytes([data[place] ^ 1]) + data[place + 1 :]
        for changed in (None, data[: len(data) // 2], flipped, data + data):
            shutil.rmtree(case.out)
            shutil.copytree(case.top / "whole", case.out)
            path.unlink()
            if changed is not None:
                path.write_bytes(changed)
            if path.name == "run.json" and changed in (flipped, data + data):
                case.require_error(FolderError, "run.json: it was changed", most=60)
                path.write_bytes(data)
            case.require_verdicts(most=60)


def test_chunks_that_are_missing_in_the_middle(case: RunCase) -> None:
    case.run_over(most=3)
    for most in (1, 3, 1_000):
        for number in (1, 2):
            names = [record.name for record in case.records(number)]
            for place in {0, len(names) // 3, len(names) // 3 + 1, len(names) // 2, len(names) - 1}:
                (case.out / ("pass-%d" % number) / names[place]).unlink()
        executor = Answering()
        case.require_verdicts(executor, most=most)
        assert executor.count < len(names)


def test_a_changed_chunk_while_passes_are_merged(small: RunCase) -> None:
    """So while the verdicts of one pass are written: nothing is joined that doesn't fit its seal."""
    cut = act(lambda: os.truncate(small.chunk(), 700))
    small.require_error(RunError, "was cut or changed", cut)
    small.require_verdicts()
    small.out = small.top / "one"
    at_end = unittest.mock.Mock(side_effect=lambda: os.truncate(small.chunk(), 700))
    with unittest.mock.patch.object(pass_folder.PassFolder, "remove_stale", at_end):
        small.require_error(RunError, "was cut or changed", limits=[SMALL])
    assert not (small.out / "verdicts.txt").exists()
    small.require_verdicts(limits=[SMALL])


@pytest.mark.parametrize("name", ["000000001.txt", "journal", "pieces"])
def test_a_folder_of_an_older_version(case: RunCase, name: str) -> None:
    """With its `run.json` and without: it stays as it is."""
    (case.out / "pass-1").mkdir(parents=True)
    (case.out / "pass-1" / name).write_text("kept")
    case.require_error(FolderError, "another version of this package wrote; finish it by that version")
    old = '{\n  "format": 3,\n  "bytes": "00000400",\n  "passes": []\n}\n'
    (case.out / "run.json").write_text(old)
    case.require_error(FolderError, "it has format 3, which another version of this package writes")
    assert (case.out / "pass-1" / name).read_text() == "kept" and (case.out / "run.json").read_text() == old


def test_verdicts_share_no_bytes_with_a_later_run(small: RunCase) -> None:
    """A second name of them stays as it is, also when another list is decided over the chunks that are left."""
    kept_lines, verdicts = small.top / "kept", small.out / "verdicts.txt"
    os.link(verdicts, kept_lines)
    for path in (small.out / "pass-1").iterdir():
        path.unlink()
    small.require_verdicts(limits=[SMALL], most=3)
    for path in [path for path in small.out.iterdir() if path.is_file()]:
        path.unlink()
    small.list.write_bytes(KINDS * 20)
    small.require_verdicts(limits=[MIDDLE])
    assert sum(record.lines for record in small.records()) == 200
    assert kept_lines.read_bytes() == expected_verdicts(LIST, [SMALL])


def test_chunks_that_were_changed_in_place(small: RunCase) -> None:
    """Each byte of a chunk counts, of its fields and of its verdicts."""
    for place in (0, 20, 40, 200, -200, -1):
        path = small.chunk()
        data = path.read_bytes()
        changed = bytearray(data)
        changed[place] ^= 1
        path.write_bytes(changed)
        small.require_verdicts(limits=[SMALL])
        assert "chunk %s of pass 1 is decided again: it was " % path.name in small.progress.kept.getvalue()
        assert path.read_bytes().partition(b"\n}\n")[2] == data.partition(b"\n}\n")[2]


def test_a_folder_that_is_removed(case: RunCase) -> None:
    case.require_error(MovedError, "", act(lambda: shutil.rmtree(case.out, ignore_errors=True)))
    assert not case.out.exists()


@pytest.mark.parametrize("name", ["verdicts.txt", "summary.json", "README.txt"])
def test_a_file_that_another_makes_meanwhile(case: RunCase, name: str) -> None:
    """It stays as it is, and ends a run that has yet to write it."""
    path = case.out / name

    def replace() -> None:
        path.unlink(missing_ok=True)
        path.write_text("mine")

    if name == "README.txt":
        case.require_verdicts(act(replace))
    else:
        case.require_error(RunError, name + " was made or replaced by another", act(replace))
    assert path.read_text() == "mine"
    path.unlink()
    case.require_verdicts()


def test_a_link_to_the_folder_that_is_pointed_elsewhere(case: RunCase) -> None:
    real, elsewhere = case.top / "real", case.top / "elsewhere"
    real.mkdir()
    elsewhere.mkdir()
    case.out.symlink_to(real)

    def point_elsewhere() -> None:
        case.out.unlink()
        case.out.symlink_to(elsewhere)

    case.require_error(MovedError, "", act(point_elsewhere, 5))
    assert list(elsewhere.iterdir()) == []


ANY_ORDER = random.Random(3).sample(range(200), 200)
REFUSED = unittest.mock.Mock(side_effect=OSError(errno.EPERM, "it can't"))


@pytest.mark.parametrize("links", [os.link, REFUSED])
@pytest.mark.parametrize("order", [[2, 0, 1, 5, 4, 3], [*range(1, 30), 0], ANY_ORDER, []])
def test_chunks_in_some_order(case: RunCase, order: list[int], links: Any) -> None:
    """None is lost, and the whole is in the list's order."""
    top = case.enter_context(contextlib.closing(folder.Folder(str(case.out))))
    config = folder.RunConfig([SMALL], chunks.Retention(), replies.identity(), "list")
    opened = case.enter_context(contextlib.closing(top.open_pass(config, 1)))
    texts = [b"%d\n" % index * (index % 7 + 1) for index in range(len(order))]
    with unittest.mock.patch.object(os, "link", links):
        for index in order:
            checksum = _files.Checksum().add_bytes(texts[index])
            record = pass_folder.Record(index, 1, "", 0, False, {}, checksum)
            opened.write(record, texts[index])
            opened.add(record)
    assert top.write_verdicts([opened]) == _files.Checksum().add_bytes(b"".join(texts))
    assert case.verdicts() == b"".join(texts)
    for _ in order[:1]:
        with pytest.raises(RunError, match="1-1 was made or replaced by another process"):
            opened.write(pass_folder.Record(0, 1, "", 0, False, {}), b"")


def kept_lines(limits: Sequence[Limits], halts: int) -> bytes:
    lines = expected_verdicts(LIST, limits).splitlines(keepends=True)
    long = [line for line in lines if b" halt " in line and int(line.split()[2]) > halts]
    return b"".join(line for line in lines if b"undecided" in line or b"refused" in line or line in long)


def test_what_is_kept(case: RunCase) -> None:
    for place, (limits, halts) in enumerate(itertools.product(([SMALL], PASSES), (None, 0, 5, 9, 10**9))):
        case.out = case.top / str(place)
        keep = chunks.Retention(True, halts)
        for _ in range(2):
            outcome = case.run_over(limits=limits, keep=keep)
            assert case.verdicts() == kept_lines(limits, 10**12 if halts is None else halts)
            assert outcome.counts == counts_of(expected_verdicts(LIST, limits))
        summary = json.loads((case.out / "summary.json").read_text())
        assert (summary["lines"], summary["kept"]) == (370, str(keep))
        dropped = "dropped before they were checked"
        case.require_error(FolderError, dropped, limits=limits, keep=keep, check=True)
        case.require_error(FolderError, "started with --keep left", limits=limits)


def test_keep_passes_are_added(case: RunCase) -> None:
    keep = chunks.Retention(True)
    case.run_over(limits=[SMALL], keep=keep, check=True)
    case.run_over(keep=keep, check=True)
    assert case.verdicts() == kept_lines(PASSES, 10**12)
    other = LIST.replace(b"------", b"1RZ---", 1)
    case.list.write_bytes(other)
    case.require_error(FolderError, "isn't the list that", keep=keep, check=True)


class Deadly(Answering):
    """Workers that die of a line, and with them all tasks that wait by then, of which dask says the same."""

    def __init__(self, line: bytes) -> None:
        super().__init__()
        self.line, self.deaths = line, 0
        self.waiting: list[tuple[Future[Any], tuple[Any, ...]]] = []

    def submit(self, function: Any, /, *given: Any, **named: Any) -> Any:
        future: Future[Any] = Future()
        self.waiting.append((future, (function, *given)))
        threading.Timer(0.005, self.work).start()
        return future

    def work(self) -> None:
        waiting, self.waiting = self.waiting, []
        is_deadly = any(self.line in given[2] for _, given in waiting)
        self.deaths += is_deadly
        for future, given in waiting:
            if is_deadly:
                future.set_exception(DeadWorkersError(repr(given[2][:-1])))
            else:
                future.set_result(super().submit(*given).result())


@pytest.mark.parametrize("most", [1, 2, 30])
def test_a_line_that_ends_its_workers_is_named(case: RunCase, most: int) -> None:
    """Chunks with it are bisected, and all other lines are stored; without such workers the run goes on."""
    case.list.write_bytes(LIST.replace(b"1RA1RA\n", b"1RZ1RZ\n", 5).replace(b"1RZ1RZ\n", b"1RA1RA\n", 4))
    deadly = Deadly(b"1RZ1RZ")
    sentence = "all but 1 chunks are stored; pass 1, line 44: every worker that did it died: b'1RZ1RZ'"
    case.require_error(RunError, sentence, deadly, limits=[SMALL], most=most)
    assert not (case.out / "verdicts.txt").exists() and 2 <= deadly.deaths <= 7
    executor = Answering()
    case.require_verdicts(executor, limits=[SMALL], most=most)
    assert executor.count == 1


def test_words() -> None:
    given = {"left": (True, None), "halts=9": (True, 9), "left,halts=0": (True, 0), "all": (False, None)}
    for words, (only_holdouts, halts) in given.items():
        keep = chunks.Retention(only_holdouts, halts)
        assert chunks.parse_retention([words]) == keep
        assert chunks.parse_retention([str(keep)]) == keep
    assert chunks.parse_retention(["left", "halts=7"]) == chunks.Retention(True, 7)
    assert chunks.parse_retention(None) == chunks.Retention()
    for wrong in (["right"], [""], ["halts="], ["halts=-1"], ["all,left"], ["left", "all"]):
        with pytest.raises(UsageError):
            chunks.parse_retention(wrong)


def test_wrong_answers_now_and_then(case: RunCase) -> None:
    answers: list[Callable[[replies.Reply], Any]] = [
        lambda reply: None,
        lambda reply: (b"", *reply[1:]),
        lambda reply: (reply[0][:-1], *reply[1:]),
        lambda reply: (reply[0] + reply[0], *reply[1:]),
        lambda reply: (reply[0].replace(b"1", b"0"), *reply[1:]),
        lambda reply: (reply[0].replace(b"halt", b"stop"), *reply[1:]),
        lambda reply: (*reply[:4], "0" * 64, *reply[5:]),
        lambda reply: (*reply[:7], "0" * 64),
        lambda reply: 1 // 0,
    ]
    for place, answer in enumerate(answers):
        case.out = case.top / str(place)
        executor = Answering(lambda reply, before: answer(reply) if before in (1, 30) else reply)
        case.require_verdicts(executor)
        assert "trying again" in case.progress.kept.getvalue()


@pytest.mark.parametrize("begin", [0, 5, 60])
def test_wrong_answers_each_time(case: RunCase, begin: int) -> None:
    executor = Answering(lambda reply, before: reply if before < begin else (b"x\n", *reply[1:]))
    case.require_error(RunError, "pass [12], lines? .* tried 3 times", executor)
    assert not (case.out / "verdicts.txt").exists()
    case.require_verdicts()


@pytest.mark.parametrize(
    "keep, sentence",
    [
        (chunks.Retention(), "pass 1, line [0-9]*9: '0RB1LD_0RC1RD_0RD---_1LA0RB unknown steps'"),
        (chunks.Retention(True), "pass 2, line [0-9]+ of the holdouts of pass 1: "),
    ],
)
def test_the_line_is_named(case: RunCase, keep: chunks.Retention, sentence: str) -> None:
    if keep.only_holdouts:
        case.run_over(limits=[SMALL], keep=keep)
    wrong = answer_with(b"_0RD---_1LA0RB undecided", b"_0RD---_1LA0RB unknown")
    case.require_error(RunError, sentence, wrong, keep=keep)
    case.run_over(keep=keep)


def test_late_answers_in_another_order(case: RunCase) -> None:
    case.list.write_bytes(b"".join(KINDS.splitlines(keepends=True)[:8]))
    case.require_verdicts(Late(4), most=1, limits=[SMALL])
    assert len(case.records()) == 8


def test_an_executor_that_takes_nothing(case: RunCase) -> None:
    submit = unittest.mock.Mock(side_effect=RuntimeError("it was closed"))
    case.require_error(
        RunError, "nothing can be submitted: RuntimeError: it was closed", unittest.mock.Mock(submit=submit)
    )
    case.require_verdicts()


BAD_LINE = "^line (5|15|25): the checker answers bad: "


def test_a_verdict_that_the_checker_refuses(case: RunCase) -> None:
    executor = answer_with(b"_1RZ0LA undecided steps", b"_1RZ0LA cycler 5 9")
    for limits in ([SMALL], PASSES):
        case.out = case.top / str(len(limits))
        case.require_error(CheckError, BAD_LINE + "1RB1LC_1RC1RB", executor, limits=limits, check=True)
    case.require_verdicts(check=True)


def test_a_lying_worker_is_found_here(case: RunCase) -> None:
    """It says that its wrong verdict is right, and of all others that they are undecided."""

    def lie(reply: replies.Reply, before: int) -> replies.Reply:
        if reply[6].startswith("check "):
            return reseal(reply, b"ok\n" * reply[0].count(b"\n"))
        return reseal(reply, reply[0].replace(b"_1RZ0LA undecided steps", b"_1RZ0LA cycler 5 9"))

    case.run_over(Answering(lie), limits=[SMALL], check=True)
    assert b"cycler 5 9" in case.verdicts()
    for is_begun in (False, True):
        case.out = case.top / str(is_begun)
        if is_begun:
            case.run_over(Answering(lie), limits=[SMALL])
        case.require_error(CheckError, BAD_LINE, Answering(lie), limits=[SMALL], check=True, here=True)
    case.out = case.top / "command"
    backend = PoolBackend(Answering(lie))
    with unittest.mock.patch("budlarem.commands.run.make_backend", return_value=backend):
        status, said = case.call("--pass", "steps=30,cells=16,depth=3,nodes=5", "--check-here")
    assert status == 1
    assert re.search(BAD_LINE.replace("^", "^budlarem: ") + "1RB1LC_1RC1RB", said, re.M)
    case.require_verdicts(Answering(), limits=[SMALL], check=True, here=True)


def test_answers_to_other_verdicts(case: RunCase) -> None:
    before: list[replies.Reply] = []

    def swap(reply: replies.Reply, count: int) -> replies.Reply:
        before.append(reply)
        is_check = reply[6].startswith("check ")
        return next(one for one in before if one[6] == reply[6]) if is_check else reply

    case.require_error(RunError, "answers other lines; tried 3 times", Answering(swap), check=True)
    case.require_verdicts(check=True)


def test_seconds_that_did_not_pass(case: RunCase) -> None:
    for seconds in (1e9, 1e308):
        case.out = case.top / str(seconds)
        case.require_verdicts(Answering(lambda reply, before: (reply[0], seconds, *reply[2:])), most=1_000)
        assert len(case.records()) < 20
        summary = json.loads((case.out / "summary.json").read_text())
        assert summary["passes"][0]["work_seconds"] < 600


def test_refusals_and_statuses(case: RunCase) -> None:
    limits = ("steps=1,steps=2", "step=1", "", "steps=-1", "cells=0", "depth=300,cells=10")
    for words in (*(["--pass", value] for value in limits), ["--threads", "0"], ["--chunk", "0"]):
        status, said = case.call(*words)
        assert (status, case.out.exists()) == (2, False), words
        assert said.startswith("budlarem: ")
    small = "steps=30,cells=16,depth=3,nodes=5"
    assert case.call("--pass", small)[0] == 1
    assert case.verdicts() == expected_verdicts(LIST, [SMALL])
    status, said = case.call("--pass", small, "--pass", "steps=1000,cells=128,depth=20,nodes=100", "--check")
    assert (status, case.verdicts()) == (1, expected_verdicts(LIST))
    assert "370 lines: " in said
    case.list.write_bytes(b"1RZ---\n")
    status, said = case.call("--pass", small)
    assert status == 2
    case.out = case.top / "other"
    assert case.call()[0] == 0
    case.list.unlink()
    assert case.call()[0] == 3


def test_progress_of_a_pass() -> None:
    shown = KeptProgress()
    shown.is_shown, shown._next = True, 0.0
    shown.start(1, 2, lambda: 88_664_064)
    shown.add_decided(20_000)
    shown.tick("3 workers")
    text = shown.kept.getvalue()
    figures = r"20k lines, 0%, \d+[kM]? lines/s, [0-9.]+ \w+ left, 3 work"
    assert re.match(r"\rpass 1 of 2, 1 chunks, " + figures, text) and len(text) < 81
    shown.print_line("a sentence")
    assert shown.kept.getvalue().endswith("\rbudlarem: a sentence\n")
    shown = KeptProgress()
    shown.start(2, 2, lambda: 10**9)
    shown._started -= 10
    shown.add_decided(5)
    for _ in range(2):
        shown._due = 0.0
        shown.tick()
    assert shown.kept.getvalue().count("budlarem: pass 2 takes about ") == 1
    assert shown.kept.getvalue().count("\n") == 3
