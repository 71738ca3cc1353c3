"""The recipes of docs/recipes.md, run out of the document itself, on lists that try to break them.

Each block of commands that one computer can run is run by `sh -e` in a folder of its own; what it leaves is
compared with one run of the program. Processes are killed and interrupted by their ids.
"""

from __future__ import annotations

import collections
import os
import pathlib
import re
import signal
import subprocess
import sys
import time
from typing import Any

import pytest
from support import TOP, ListMachines, read_blocks, require, restore_signals
from support.program import GREATEST, CommandResult, as_lines, decide_in_passes, kind_of, options
from support.program import options_of_pass, place_programs, run_command, write_script

# How many blocks of commands stand under each heading.
BLOCKS = {
    1: ["Build the program", "Count undefined entries as a step", "Count verdicts", "Copy the program"]
    + ["Check that no line is missing", "Use all cores without Python", "Resume after an interruption"]
    + ["Call the engine from a program"],
    2: ["Raise the limits for undecided machines", "Find exact starts and periods"]
    + ["Publish a decided list", "Use several cores", "Decide a long list", "Draw a picture"],
    3: ["Prepare a list", "Find wrong claims", "Judge published claims"],
}
# A list in which a line is rewritten, one has a comment alone, and one is refused.
TAKEN = b"1RB1LB_1LA1RH halt 6 4\r\n# a comment\n1rB1LB\n\"1RA1RA\";'$(exit 3)' `exit 4` %s \\n"
DECIDED = b"1RB1LB_1LA1RZ\n0RB---_0LA---\n1RA1RA\n------\n"
UNDECIDED = b"1RB1LC_1RC1RB_1RD0LE_1LA1LD_1RZ0LA\n"
ANYTHING = (
    b"1RA1RA\n\n  \n1rB1LB\n1RB1LB_1LA1RZ\r\n'$HOME' \"\\n\" `exit 3`; %s undecided\n"
    b"undecided steps\nrefused 1\n1RA1RA undecided cells\n\xff\xfe\n------\n1RA1RA\n"
    b"1RB0LA_0RC---_1RD0LD_1LA1RB\n" + UNDECIDED + b"x" * 100_000 + b"\n1RA1RA"
)
LISTS = {"empty": b"", "no newline at its end": b"1RB1LB_1LA1RZ"}
LISTS.update({"decided": DECIDED, "undecided": UNDECIDED * 3, "anything": ANYTHING})
each_list = pytest.mark.parametrize("content", LISTS.values(), ids=list(LISTS))
# It halts after 41,709 steps.
LONG_HALT = b"1RB0LB_1RC1LB_1LD0RE_1LD1LA_---0RD\n"
CLAIMS_ELSEWHERE = b"""1RB1LB_1LA--- halt 6 4
0RB---_0LA--- cycler 2 4
0RB---_0LA--- backward 2 4
------ halt 1 1
1RA1RA translated R 1 2
1RB1LB_1LA--- halt 5 4
"""
# A `bb` that is killed in the middle of the piece with the line `x`.
KILLED = """import os, signal, subprocess, sys

program, words = %r, sys.argv[1:]
source = open(words.pop(), "rb") if os.path.isfile(words[-1]) else sys.stdin.buffer
lines = source.read()
is_killed = b"\\nx\\n" in lines
given = lines[:5000] if is_killed else lines
command = subprocess.run([program, *words], input=given, stdout=subprocess.PIPE)
sys.stdout.buffer.write(command.stdout[:4321] if is_killed else command.stdout)
sys.stdout.flush()
if is_killed:
    os.kill(os.getpid(), signal.SIGKILL)
"""
RECIPES = read_blocks("docs/recipes.md")


class Folder:
    """A folder in which recipes run: what is built and the examples stand in it as in the top."""

    def __init__(self, path: pathlib.Path, bb: str, library: pathlib.Path) -> None:
        self.path, self.bb = place_programs(path, bb), bb
        (path / "crates" / "bb_c").mkdir(parents=True)
        (path / "crates" / "bb_c" / "out").symlink_to(library.parent)
        (path / "examples").symlink_to(TOP / "examples")
        package = {"PYTHONPATH": str(TOP / "python" / "src"), "BB_LIBRARY": str(library)}
        self.environment = {**os.environ, **package, "PATH": "%s:%s" % (path, os.environ["PATH"])}

    def write(self, name: str, content: bytes) -> None:
        (self.path / name).write_bytes(content)

    def read(self, name: str) -> bytes:
        return (self.path / name).read_bytes()

    def run(self, commands: str, *shell: str) -> CommandResult:
        """Run commands by a shell, or by another program."""
        return run_command([*(shell or ("sh", "-e")), "-c", commands], b"", str(self.path), self.environment)

    def decide(self, content: bytes, *words: str) -> bytes:
        """Return what one run of the program writes to a list."""
        return run_command([self.bb, "decide", *words], content).output


@pytest.fixture
def folder(bb: str, library: pathlib.Path, tmp_path: pathlib.Path) -> Folder:
    """A folder whose name has a space."""
    return Folder(tmp_path / "a folder", bb, library)


def test_each_block_has_its_test() -> None:
    counts = {heading: count for count, headings in BLOCKS.items() for heading in headings}
    assert {heading: len(blocks) for heading, blocks in RECIPES.items()} == counts


(IS_WHOLE,) = RECIPES["Check that no line is missing"]


@each_list
def test_lines_of_a_list_are_shown_counted_and_found(folder: Folder, content: bytes) -> None:
    """Those that are refused, those of each kind; none is a wrong claim, and none is missing."""
    lines = folder.decide(content).decode().splitlines()
    folder.write("machines.txt", content)
    folder.write("verdicts.txt", as_lines(lines))
    shown = ["%d: %s" % pair for pair in enumerate(lines, 1) if pair[1].startswith("refused")]
    assert folder.run(RECIPES["Prepare a list"][2]) == (0, as_lines(shown), b"")
    counts = ["%d %s" % (count, kind) for kind, count in collections.Counter(map(kind_of, lines)).items()]
    counted = folder.run(RECIPES["Count verdicts"][0])
    assert (counted.status, sorted(counted.output.decode().splitlines())) == (0, sorted(counts))
    for block in (RECIPES["Find wrong claims"][0], IS_WHOLE):
        assert folder.run(block) == (0, b"", b"")


def test_machines_are_taken_out_of_a_list(folder: Folder) -> None:
    """A sentence names the line that isn't taken; another halting letter is replaced first."""
    take, spell, _ = RECIPES["Prepare a list"]
    rows = [(b"", take, b""), (TAKEN, take, b"1RB1LB_1LA1RZ\n1RA1RA\n")]
    for content, block, machines in [*rows, (b"1RB1LB_1LA1RX\n", spell, b"1RB1LB_1LA1RZ\n")]:
        folder.write("list.txt", content)
        status, output, error = folder.run(block)
        assert (status, output, folder.read("machines.txt")) == (0, b"", machines)
        assert (b"list.txt:3: refused: entry 1 names state B" in error) == (content == TAKEN)


def test_counting_a_step_more(folder: Folder) -> None:
    folder.write("machines.txt", b"1RB1LB_1LA---\n1RB1LB_1LA1RZ\n0RB---_0LA---\n")
    assert folder.run(RECIPES["Count undefined entries as a step"][0]).status == 0
    lines = folder.decide(folder.read("counted.txt")).splitlines()
    assert lines == [b"1RB1LB_1LA1RZ halt 6 4"] * 2 + [b"0RB1RZ_0LA1RZ cycler 2 4"]


@each_list
def test_deciding_again_what_was_left(folder: Folder, content: bytes) -> None:
    folder.write("machines.txt", content)
    for block in RECIPES["Raise the limits for undecided machines"]:
        assert folder.run(block).status == 0
    once, lines = folder.decide(content).splitlines(), folder.read("verdicts.txt").splitlines()
    assert len(once) == len(lines)
    for a, b in zip(once, lines):
        assert a == b or (b" backward " in b and a.split()[1] in (b"cycler", b"translated"))
    assert sorted((folder.read("decided.txt") + folder.read("second.txt")).splitlines()) == sorted(lines)


def test_wrong_claims_are_shown(folder: Folder) -> None:
    """The limits are those of the example's command, under which one claim is over, or the greatest."""
    shown, answered, counted = RECIPES["Find wrong claims"]
    claims = TOP / "examples" / "claims"
    lines, answers = (claims / "lines.txt").read_bytes(), (claims / "expected.txt").read_bytes().splitlines()
    folder.write("verdicts.txt", lines)
    command = "bb " + (claims / "command").read_text().strip()
    status, output, _ = folder.run(shown.replace("bb check", command))
    pairs = zip(range(1, len(answers) + 1), answers, lines.splitlines())
    expected = b"".join(b"%d: %s %s\n" % row for row in pairs if row[1] not in (b"ok", b"open"))
    assert status == 0 and output == expected != b""
    assert folder.run(answered).status == 0
    assert folder.read("answers.txt") == run_command([folder.bb, "check", *options(GREATEST)], lines).output
    folder.write("verdicts.txt", CLAIMS_ELSEWHERE)
    assert [line[:6] for line in folder.run(shown).output.splitlines()] == [b"1: bad", b"4: bad"]
    assert folder.run(counted)[:2] == (0, b"6: bad 1RB1LB_1LA1RZ halt 5 4\n")


def test_judging_what_others_publish(folder: Folder) -> None:
    judge, look, _ = RECIPES["Judge published claims"]
    folder.write("machines.txt", b"1RB1LB_1LA1RZ\n1RA1RA\n0RB---_0LA---\n")
    folder.write("theirs.txt", b"1LB1RB_1RA1LZ halt 6 4\n1RA1RA halt 6 4\nx\n1RZ1RZ halt 1 1\n")
    assert folder.run(judge).status == 0
    words = b"confirmed contradicted unreadable confirmed no-line not-listed".split()
    rows = [tuple(line.split(b"\t")[:2]) for line in folder.read("judged.txt").splitlines()]
    assert rows == list(zip(words, b"1 2 3 4 3 4".split()))
    shown = [row.split(b"\t")[0] for row in folder.run(look).output.splitlines()]
    assert shown == [words[1], words[2], words[4], words[5]]


def test_exact_starts_and_periods(folder: Folder) -> None:
    pairs = b"0RB---_0LA--- cycler 2 4\n1RB---_1LB0RB translated L 7 8 1 1\n"
    folder.write("verdicts.txt", pairs + b"1RA1RA undecided steps\n")
    find, most = RECIPES["Find exact starts and periods"]
    assert folder.run(find).status == 0
    assert folder.read("recurrences.txt").splitlines()[2] == b"open"
    assert folder.run(most) == (0, b"1 1RB---_1LB0RB\n", b"")
    theirs = b"0RB---_0LA---,2,4\n0RB---_0LA---,0,2\n1RB---_1LB0RB,3,1\n"
    folder.write("theirs.txt", b"machine,start,period\n" + theirs)
    judge, _, exact = RECIPES["Judge published claims"]
    folder.run(judge.replace("--list machines.txt ", ""))
    status, output, _ = folder.run(exact)
    assert (status, output.count(b"\n"), output[:11]) == (0, 1, b"confirmed\t2")


def test_publishing_what_was_decided(folder: Folder) -> None:
    publish, look = RECIPES["Publish a decided list"]
    folder.write("machines.txt", b"1RB1LB_1LA1RZ\n1RA1RA\n0RB---_0LA---\n")
    folder.run("budlarem run machines.txt --out decided")
    status, output, _ = folder.run(publish)
    assert status == 0 and output.endswith(b"  decided.tar\n")
    page = folder.run(look).output
    assert page.startswith(b"Verdicts on 3 machines\n") and b"python3 recheck.py" in page


@pytest.fixture(scope="module")
def long_list(bb: str, list_machines: ListMachines) -> bytes:
    """Some two megabytes of machines that halt, and a line that is refused."""
    verdicts = run_command([bb, "decide", "--steps=1000"], as_lines(list_machines(3))).output.splitlines()
    halts = [line.split()[0] for line in verdicts if line.split()[1] == b"halt"]
    return b"".join(line + b"\n" for line in halts * 60 + [b"x"] + halts)


def test_list_that_is_not_whole_is_noticed(folder: Folder) -> None:
    folder.write("machines.txt", ANYTHING)
    lines = folder.decide(ANYTHING, "--steps=1000").splitlines(keepends=True)
    broken: dict[str, list[bytes]] = {
        "nothing": [],
        "a gap": lines[:4] + lines[8:],
        "a line left out": lines[:-1],
        "a line cut": lines[:-1] + [lines[-1][:-1]],
        "a line cut in the middle": lines[:10] + [lines[10][:9]] + lines[11:],
        "a line too many": lines + [lines[-1]],
        "another order": lines[1:] + lines[:1],
    }
    for name, rows in broken.items():
        folder.write("verdicts.txt", b"".join(rows))
        status, output, _ = folder.run(IS_WHOLE)
        assert status == 1 and output.count(b"\n") == 1, name


def limits_of(commands: str) -> list[str]:
    """Return the words for limits in a recipe's commands."""
    return " ".join(re.findall(r"--(?:steps|cells|depth|nodes) \d+", commands)).split()


@pytest.mark.parametrize("way", ["parallel", "split"])
def test_list_in_pieces_is_decided_as_in_one_process(folder: Folder, long_list: bytes, way: str) -> None:
    require(way)
    commands = next(block for block in RECIPES["Use several cores"] if way + " -" in block)
    words = limits_of(commands)
    for k, content in enumerate([*LISTS.values(), long_list]):
        folder.write("machines.txt", content)
        # Fewer pieces than before, each second time.
        assert folder.run(commands.replace("l/4", "l/2") if k % 2 else commands).error == b""
        assert folder.read("verdicts.txt") == folder.decide(content, *words)
        assert folder.run(IS_WHOLE).status == 0
    write_script(folder.path / "bb", KILLED % folder.bb, "#!" + sys.executable)
    folder.run(commands)
    status, output, _ = folder.run(IS_WHOLE)
    assert len(folder.read("verdicts.txt")) < len(folder.decide(long_list, *words))
    assert status == 1 and output


@each_list
def test_runner_decides_lists_of_any_length(folder: Folder, content: bytes) -> None:
    run, keep = RECIPES["Decide a long list"]
    passes = [options_of_pass(limits) for limits in re.findall(r"--pass (\S+)", run)]
    content = DECIDED * 3 + content
    folder.write("machines.txt", content)
    assert folder.run(run).status == 0 and len(passes) == 2
    expected = decide_in_passes(lambda lines, words: folder.decide(lines, *words), content, passes)
    assert folder.read("decided/verdicts.txt") == expected
    content += b"\n" + LONG_HALT
    folder.write("machines.txt", content)
    assert folder.run(keep).status == 0
    words = b" undecided ", b"refused ", LONG_HALT.strip() + b" halt "
    lines = folder.decide(content).splitlines(keepends=True)
    kept = b"".join(line for line in lines if any(word in line for word in words))
    assert folder.read("left/verdicts.txt") == kept and kept.endswith(b" halt 41709 161\n")


def test_runner_refuses_a_list_in_other_forms(folder: Folder) -> None:
    folder.write("machines.txt", ANYTHING)
    status, _, error = folder.run(RECIPES["Decide a long list"][0])
    assert status != 0 and b"budlarem read" in error and not (folder.path / "decided").exists()


@pytest.mark.needs("rustc")
def test_many_cores_without_python(folder: Folder) -> None:
    folder.write("machines.txt", ANYTHING)
    assert folder.run(RECIPES["Use all cores without Python"][0]).status == 0
    assert folder.read("verdicts.txt") == folder.decide(ANYTHING, "--steps", "100000")


@pytest.mark.needs(modules=("PIL",))
@pytest.mark.parametrize("at, name", enumerate(["four_state_champion.png", "five_state_champion.png"]))
def test_pictures_are_those_of_the_documents(folder: Folder, at: int, name: str) -> None:
    from PIL import Image

    assert folder.run(RECIPES["Draw a picture"][at]).status == 0
    found, expected = (Image.open(path) for path in (folder.path / "picture.png", TOP / "docs" / name))
    assert found.size == expected.size
    assert found.convert("RGB").tobytes() == expected.convert("RGB").tobytes()


def test_program_is_copied_from_the_path(folder: Folder) -> None:
    """What needs another computer is printed in place of being run."""
    (command,) = RECIPES["Copy the program"]
    assert folder.run("echo " + command).output.decode() == "scp %s/bb host:bin/\n" % folder.path


(RESUME,) = RECIPES["Resume after an interruption"]


def test_interrupted_run_is_resumed(folder: Folder) -> None:
    """The last lines of the list's pipe are held back, so that the program can't end before."""
    content = DECIDED * 2_000 + UNDECIDED * 30
    folder.write("machines.txt", content)
    verdicts, command = folder.path / "verdicts.txt", [folder.bb, "decide"]
    how: dict[str, Any] = {"stdin": subprocess.PIPE, "preexec_fn": restore_signals}
    with open(verdicts, "wb") as output, subprocess.Popen(command, stdout=output, **how) as process:
        assert process.stdin
        process.stdin.write(content[: -len(content) // 10])
        process.stdin.flush()
        while verdicts.stat().st_size == 0 and process.poll() is None:
            time.sleep(0.01)
        process.send_signal(signal.SIGINT)
    assert process.returncode == -signal.SIGINT
    whole, written = folder.decide(content), folder.read("verdicts.txt")
    assert whole.startswith(written) and 0 < len(written) < len(whole)
    assert folder.run(RESUME).status == 0 and folder.read("verdicts.txt") == whole


@each_list
def test_cut_verdicts_are_completed_twice(folder: Folder, content: bytes) -> None:
    whole = folder.decide(content)
    folder.write("machines.txt", content)
    for begin in {0, 1, len(whole) // 3, len(whole) // 2, len(whole)}:
        for size in (begin, begin + 20):
            folder.write("verdicts.txt", whole[:size])
            assert folder.run(RESUME).status == 0 and folder.read("verdicts.txt") == whole


def test_machines_that_another_program_makes(folder: Folder) -> None:
    (program,) = RECIPES["Call the engine from a program"]
    output = folder.run(program, sys.executable).output
    assert output == folder.decide(b"1RB1LB_1LA1RZ\n1RA1RA\n")
