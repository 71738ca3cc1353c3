"""What the programs print to standard error beside the fixed lines: causes of faults, hints, and progress."""

from __future__ import annotations

import gzip
import os
import pathlib
import re
import subprocess
import time
from typing import Any, Callable, Iterator, Optional, Sequence

import pytest
from support.program import kind_of, on_terminal, open_terminal, run_command

LIST = b"1RB1LB_1LA1RZ\n0RB---_0LA---\n1RA1RA\n1rB1LB\n1RB---_1LA---\n"
UNDECIDED = b"1RB0LA_0RC---_1RD0LD_1LA1RZ\n1RB1LC_1RC1RB_1RD0LE_1LA1LD_1RZ0LA\n"
# A list that takes a second, in several reads.
LONG = (LIST + UNDECIDED) * 200
SLOW = ["--steps", "300000", "--cells", "4096"]
# How the line of progress names the kinds of verdicts, and the answers of `check`.
KINDS = {"halt": "halt", "cycler": "cycler", "translated": "transl"}
KINDS.update({"backward": "back", "undecided": "undec", "refused": "ref"})
NAMES = list(KINDS.values())
ANSWERS = ["ok", "bad", "over", "open", "unread"]
# A claim of each answer; the fourth takes 100,000 steps, so fewer than 100,000 of a kind come between two lines.
CLAIMS = b"""%(hard)s halt 47176870 4098
1RZ--- halt 1 1
%(hard)s undecided steps
%(hard)s halt 100000 1
x
""" % {
    b"hard": UNDECIDED.split()[1]
}
# For so many seconds a list is fed until what is waited for shows; then it counts as lost.
PATIENCE = 1_800
# A list is so many times as long as before where it was decided before two lines of progress were shown.
LONGER, LONGEST = 4, 4**6
MOST = 10**12
ABOVE = "%d is not within 0 to %d" % (MOST + 1, MOST)
# Words, and the whole of standard error. FOLDER stands for a folder.
DEEP = "--depth 300 needs --cells 599 or more; with --cells 256 a depth up to 128"
MISSING = ": No such file or directory (os error 2)"
EXPLAINED = [
    ("decide --steps %d" % (MOST + 1), 2, "steps out of range", "--steps " + ABOVE),
    ("decide --cells 0", 2, "cells out of range", "--cells 0 is not within 1 to 67108864"),
    ("decide --depth 10001", 2, "depth out of range", "--depth 10001 is not within 0 to 10000"),
    ("decide --nodes %d" % (MOST + 1), 2, "nodes out of range", "--nodes " + ABOVE),
    ("decide --cells 256", 2, "depth does not fit in cells", DEEP),
    ("trace --upto %d 1RA1RA" % (MOST + 1), 2, "steps out of range", "--upto " + ABOVE),
    ("check FOLDER/missing", 3, "read failed", "FOLDER/missing" + MISSING),
    (
        "decide -",
        3,
        "read failed",
        "-%s; - is no file name here, and without FILE standard input is read" % MISSING,
    ),
    ("decide FOLDER", 3, "read failed", "FOLDER: Is a directory (os error 21)"),
]
# The verdict lines of a complete list of one state.
VERDICTS = b"------ halt 0 0\n0RA--- translated R 1 2 1 1\n1RA--- translated R 1 2 1 1\n"
FULL = "standard output: No space left on device (os error 28)\n"
MACHINE = b"1RB1LB_1LA1RZ"
RETURN = "line 1 ends in a carriage return: remove them all first, by tr -d '\\r'\n"
GZIP = "the input is compressed by gzip: unpack it first, by gzip -dc\n"
UTF_16 = "the input is UTF-16: convert it first, by iconv -f UTF-16 -t UTF-8\n"
HINTS = {
    "gzip": ("decide", gzip.compress(MACHINE, mtime=0), GZIP),
    "UTF-16": ("decide", MACHINE.decode().encode("utf-16"), UTF_16),
    "machine, CR": ("decide", MACHINE + b"\r\n", RETURN),
    "claim, CR": ("check", MACHINE + b" halt 6 4\r\n", RETURN),
    "second line, CR": ("decide", MACHINE + b"\n1RA1RA\r\n", ""),
}
# Words in place of a number, and the number that the hint names; '' for no hint.
SEPARATED = {"1,000,000": "1000000", "1_000": "1000", "1'000": "1000", "1e6": "1000000"}
SEPARATED.update(dict.fromkeys((",1", "1x", "e6", "1e99"), ""))


def run_on_terminal(command: Sequence[str], given: bytes = b"") -> tuple[int, str]:
    """Return the status of a command, and what its terminal shows after the last line of progress."""
    status, shown = on_terminal(command, given, subprocess.DEVNULL)
    return status, shown.rpartition("\x1b[K")[2]


@pytest.mark.parametrize("words, status, fault, more", EXPLAINED)
def test_refused_limits_and_failed_reads_are_explained(
    bb: str, tmp_path: pathlib.Path, words: str, status: int, fault: str, more: str
) -> None:
    named, expected = (text.replace("FOLDER", str(tmp_path)) for text in (words, more))
    assert run_on_terminal([bb, *named.split()]) == (status, "bb: %s\n%s\n" % (fault, expected))


@pytest.mark.parametrize("words", ["bb check", "cover", "cover --lines", "recurrence"])
def test_failed_writes_are_explained(request: pytest.FixtureRequest, words: str) -> None:
    """On a terminal `bb` names the cause too. A closed pipe has none: the command after it knows."""
    name, *more = words.split()
    command = [request.getfixturevalue(name), *more]
    reader, writer = os.pipe()
    os.close(reader)
    with open("/dev/full", "wb") as full, open(writer, "wb") as closed:
        for output, cause in ((full, FULL), (closed, "")):
            done = subprocess.run(command, input=VERDICTS, stdout=output, stderr=subprocess.PIPE)
            sentence = "%s: write failed\n" % name
            assert done.returncode == 3 and done.stderr.decode() == sentence + cause * (name != "bb")
            status, shown = on_terminal(command, VERDICTS, output)
            assert status == 3 and shown.endswith(sentence + cause)


def test_failed_write_of_help_is_not_explained(bb: str) -> None:
    with open("/dev/full", "wb") as full:
        assert on_terminal([bb, "--help"], b"", full) == (3, "bb: write failed\n")


@pytest.mark.parametrize("command, given, hint", HINTS.values(), ids=HINTS)
def test_first_bytes_of_an_input_give_a_hint(bb: str, command: str, given: bytes, hint: str) -> None:
    assert run_on_terminal([bb, command], given) == (1, hint)
    plain = subprocess.run([bb, command], input=given, capture_output=True)
    assert plain.stderr.decode() == hint


@pytest.mark.parametrize("word, number", SEPARATED.items())
def test_number_with_separators_gives_a_hint(bb: str, word: str, number: str) -> None:
    status, shown = run_on_terminal([bb, "decide", "--steps", word])
    hint = "%s: write the number as %s\n" % (word, number)
    assert status == 2 and (shown.endswith(hint) if number else "write the number" not in shown)
    plain = subprocess.run([bb, "decide", "--steps", word], capture_output=True, text=True)
    assert plain.stderr == shown


# The percent of a line, if any, and each count.
Progress = tuple[Optional[int], dict[str, int]]


def progress_lines(shown: str, names: Sequence[str]) -> Iterator[Progress]:
    """Yield the lines of progress that a terminal showed."""
    for line in re.findall(r"\r([^\r\x1b]+)\x1b\[K", shown):
        found = re.fullmatch(r"(?:(\d+)% ?)?((?:[1-9]\d* \w+(?:, (?=.))?)*)", line)
        assert found, line
        counts = {name: int(count) for count, name in re.findall(r"(\d+) (\w+)", found[2])}
        assert set(counts) <= set(names), line
        yield (int(found[1]) if found[1] else None), {**dict.fromkeys(names, 0), **counts}


def require_counts(lines: Sequence[Progress], replies: Sequence[str]) -> None:
    """Require two lines or more, each with the counts of the first replies, by their kinds."""
    totals = [sum(counts.values()) for _, counts in lines]
    assert len(lines) >= 2 and totals == sorted(totals)
    for total, (_, counts) in zip(totals, lines):
        assert counts == {name: replies[:total].count(name) for name in counts}


def test_progress_over_a_file(bb: str, tmp_path: pathlib.Path) -> None:
    """The list is so long that two lines are shown; output and status are as without."""
    listed, lines, times = tmp_path / "list", list[Progress](), 1
    command = [bb, "decide", *SLOW, str(listed)]
    while len(lines) < 2 and times <= LONGEST:
        listed.write_bytes(LONG * times)
        with open(tmp_path / "out", "wb") as output:
            status, shown = on_terminal(command, b"", output)
        lines, times = list(progress_lines(shown, NAMES)), times * LONGER
    plain = run_command(command)
    assert plain == (status, (tmp_path / "out").read_bytes(), b"")
    require_counts(lines, [KINDS[kind_of(reply)] for reply in plain.output.decode().splitlines()])
    sizes = [len(line) for line in listed.read_bytes().splitlines(keepends=True)]
    answered = [100 * sum(sizes[: sum(counts.values())]) // sum(sizes) for _, counts in lines]
    assert all(percent is not None and percent <= most for (percent, _), most in zip(lines, answered))
    assert shown.endswith("\r\x1b[K") and "\n" not in shown
    assert max(map(len, re.split(r"[\r\x1b]", shown))) <= 79


def feed(command: Sequence[str], batch: bytes, is_enough: Callable[[bytes], object]) -> tuple[bytes, int]:
    """Feed a command batches by a pipe until its terminal shows enough; return this and their number."""
    batches, end = 0, time.monotonic() + PATIENCE
    with open_terminal() as (terminal, shown):
        how: dict[str, Any] = {"stdin": subprocess.PIPE, "stdout": subprocess.DEVNULL, "stderr": terminal}
        with subprocess.Popen(command, **how) as process:
            assert process.stdin is not None
            while not is_enough(b"".join(shown)) and time.monotonic() < end:
                process.stdin.write(batch)
                process.stdin.flush()
                batches += 1
    return b"".join(shown), batches


def shows_two_lines(shown: bytes) -> bool:
    """Tell whether two lines with a count of some kind were shown."""
    return len(re.findall(rb"\r\d[^\r\x1b]*\x1b", shown)) >= 2


@pytest.mark.parametrize(
    "words, batch, names",
    [(["decide", *SLOW], LONG, NAMES), (["check", "--steps", "100000"], CLAIMS * 40, ANSWERS)],
)
def test_progress_over_a_pipe_has_no_percent(
    bb: str, words: list[str], batch: bytes, names: Sequence[str]
) -> None:
    shown, batches = feed([bb, *words], batch, shows_two_lines)
    lines = list(progress_lines(shown.decode(), names))
    replies = run_command([bb, *words], batch).output.decode().splitlines()
    require_counts(lines, [KINDS[kind_of(one)] if " " in one else one for one in replies] * batches)
    assert all(percent is None for percent, _ in lines)


def test_large_counts_are_in_thousands_and_millions(bb: str) -> None:
    batch = b"------\n" * 100_000
    shown, batches = feed([bb, "decide", "--steps", "1"], batch, lambda shown: b"M halt" in shown)
    counts = re.findall(rb"\r(\d+)([kM]?) halt\x1b", shown)
    units = {unit: [int(count) for count, other in counts if other == unit] for unit in (b"", b"k", b"M")}
    assert units[b"k"] and 100 <= min(units[b"k"]) and max(units[b"k"]) < 10_000
    assert units[b"M"] and 10 <= min(units[b"M"]) <= batches // 10
    assert max(units[b""], default=0) < 100_000


def test_no_progress_where_standard_output_is_a_pipe_or_a_device(bb: str) -> None:
    command, given = [bb, "decide", *SLOW], LONG[:4000]
    with subprocess.Popen(["cat"], stdin=subprocess.PIPE, stdout=subprocess.DEVNULL) as reader:
        assert reader.stdin
        assert on_terminal(command, given, reader.stdin)[1] == ""
    with open("/dev/full", "wb") as full:
        assert on_terminal(command, given, full)[1].startswith("bb: write failed\n")


def test_no_progress_where_standard_output_is_a_terminal(bb: str) -> None:
    with open_terminal() as (terminal, shown):
        subprocess.run([bb, "decide", "--steps", "9"], input=LIST, stdout=terminal, stderr=terminal)
    assert shown and b"%" not in b"".join(shown) and b"\x1b" not in b"".join(shown)


@pytest.mark.parametrize(
    "name, line", [("cover", r"\d+ lines"), ("recurrence", r"\d+ recur, \d+ quasihalt, \d+ open")]
)
def test_progress_over_verdicts(
    request: pytest.FixtureRequest, tmp_path: pathlib.Path, name: str, line: str
) -> None:
    (tmp_path / "list").write_bytes(VERDICTS)
    command = [request.getfixturevalue(name), str(tmp_path / "list")]
    status, shown = on_terminal(command, b"", subprocess.DEVNULL)
    assert status == 0 and re.match(r"\r0%% %s\x1b\[K(\r\d+%% %s\x1b\[K)*\r\x1b\[K$" % (line, line), shown)
