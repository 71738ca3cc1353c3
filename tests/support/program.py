"""The built program as the checks run it: over lines, with limits and switches, and how long it takes."""

from __future__ import annotations

import contextlib
import itertools
import os
import pathlib
import pty
import random
import re
import resource
import subprocess
import sys
import threading
from typing import IO, Any, Callable, Iterable, Iterator, Mapping, NamedTuple, Sequence, TypeVar

from . import TOP

Limits = TypeVar("Limits")
LIMITS = ("steps", "cells", "depth", "nodes")
SWITCHES = ("cyclers", "translated", "backward")
# The greatest limits: of steps, cells, levels and nodes.
GREATEST = (1_000_000_000_000, 67_108_864, 10_000, 1_000_000_000_000)
MAX_STEPS, MAX_CELLS = GREATEST[:2]
# The words that turn all deciders off.
SIMULATION = ["--no-cyclers", "--no-translated", "--no-backward"]
PLANS: list[list[str]] = [[], ["--no-backward"], ["--no-cyclers", "--no-translated"]]
# Steps, cells, levels and nodes. Where none of the four is smaller than those of an earlier row, what was
# decided there has to stay decided.
ROWS = [(0, 1, 0, 0), (5, 4, 1, 2), (20, 9, 5, 10), (20, 64, 5, 100), (100, 64, 5, 10)]
ROWS += [(100, 64, 20, 100), (1_000, 64, 20, 100), (1_000, 599, 300, 1_000), (10_000, 4_096, 300, 1_000)]
# Limits by name: of the list of all machines of four states, and the greatest.
FOUR = {"steps": 200, "cells": 256, "depth": 20, "nodes": 1_000}
MOST = dict(zip(LIMITS, GREATEST))
# Options of rustc for `benchmarks/limit`: the processor, and the layout of the program's code.
LIMIT_OPTIONS = ["target-cpu=x86-64-v3"]
LIMIT_OPTIONS += ["llvm-args=-x86-branches-within-32B-boundaries", "llvm-args=-align-loops=32"]
# Each machine of complete lists that leads to others halts within so many steps.
LIST_STEPS = 200
LIST_LIMITS = ["--steps=200", "--cells=512", "--depth=40", "--nodes=1000"]
Decide = Callable[[int, int], list[str]]


def all_plans() -> Iterator[dict[str, Any]]:
    """Every plan at every row of limits, by name."""
    for numbers, switches in itertools.product(ROWS, itertools.product([True, False], repeat=3)):
        yield {**dict(zip(LIMITS, numbers)), **dict(zip(SWITCHES, switches))}


def random_plan(source: random.Random) -> dict[str, Any]:
    """Limits that are accepted, small ones more often, and switches, by name."""
    cells = int(2 ** source.uniform(0, 13))
    return {
        "steps": int(10 ** source.uniform(0, 4)),
        "cells": cells,
        "depth": source.randint(0, min(300, (cells + 1) // 2)),
        "nodes": int(10 ** source.uniform(0, 4)),
        **{name: source.random() < 0.7 for name in SWITCHES},
    }


def words_of_plan(plan: Mapping[str, int]) -> list[str]:
    """The program's words for limits and switches by name; a switch that is on has none."""
    limits = ["--%s=%d" % (name, value) for name, value in plan.items() if name not in SWITCHES]
    return limits + ["--no-" + name for name in SWITCHES if not plan.get(name, True)]


def options(limits: Iterable[int]) -> list[str]:
    """The options that ask for limits of steps, cells, levels and nodes, or of the first of these."""
    return ["--%s=%d" % pair for pair in zip(LIMITS, limits)]


def options_of_pass(limits: str) -> list[str]:
    """The options for limits as `budlarem run --pass` takes them, as `steps=5,cells=7`."""
    return ["--" + limit for limit in limits.split(",")]


class CommandResult(NamedTuple):
    """How a command ended, and what it wrote to standard output and standard error."""

    status: int
    output: bytes
    error: bytes


def run_command(
    command: Sequence[str], given: bytes = b"", cwd: str | None = None, env: Mapping[str, str] | None = None
) -> CommandResult:
    """Runs a command over these bytes to its end, in a folder and an environment where they are given."""
    done = subprocess.run(command, input=given, capture_output=True, cwd=cwd, env=env)
    return CommandResult(done.returncode, done.stdout, done.stderr)


def run_package(*words: str, given: bytes = b"") -> CommandResult:
    """Runs the command of the package over these bytes."""
    return run_command([sys.executable, "-m", "budlarem", *words], given)


def write_script(path: pathlib.Path, text: str, first: str = "#!/bin/sh") -> None:
    """Write a script, of the shell by default, in place of the file or link that is there."""
    path.unlink(missing_ok=True)
    path.write_text("%s\n%s\n" % (first, text))
    path.chmod(0o755)


def place_programs(folder: pathlib.Path, *paths: str) -> pathlib.Path:
    """Make a folder with links to programs and the command of the package."""
    folder.mkdir()
    for path in paths:
        (folder / os.path.basename(path)).symlink_to(path)
    write_script(folder / "budlarem", 'exec %s -m budlarem "$@"' % sys.executable)
    return folder


@contextlib.contextmanager
def open_terminal() -> Iterator[tuple[int, list[bytes]]]:
    """Open a terminal; the pieces that it shows come meanwhile, and are whole after the block."""
    reader, terminal = pty.openpty()
    shown: list[bytes] = []

    def collect() -> None:
        with contextlib.suppress(OSError):
            while piece := os.read(reader, 4096):
                shown.append(piece)

    listening = threading.Thread(target=collect)
    listening.start()
    try:
        yield terminal, shown
    finally:
        os.close(terminal)
        listening.join()
        os.close(reader)


def on_terminal(command: Sequence[str], given: bytes, output: int | IO[bytes]) -> tuple[int, str]:
    """The status of a command whose standard error is a terminal, and what that shows."""
    with open_terminal() as (terminal, shown):
        ended = subprocess.run(command, input=given, stdout=output, stderr=terminal)
    return ended.returncode, b"".join(shown).decode().replace("\r\n", "\n")


def as_lines(lines: Iterable[str]) -> bytes:
    """Lines as bytes, each with its newline."""
    return "".join(line + "\n" for line in lines).encode("utf-8", "surrogatepass")


def replies(command: Sequence[str], lines: Iterable[str]) -> list[str]:
    """The program's replies to these lines; it must end with status 0 or 1, without an error message."""
    status, output, error = run_command(command, as_lines(lines))
    assert status in (0, 1) and not error, "%s: status %d, %r" % (" ".join(command[1:]), status, error)
    return output.decode().splitlines()


def decide_in_passes(
    decide: Callable[[bytes, Limits], bytes], given: bytes, passes: Sequence[Limits]
) -> bytes:
    """The verdicts of a list, in its order; each pass decides what those before it left undecided."""
    lines = decide(given, passes[0]).splitlines(keepends=True)
    for limits in passes[1:]:
        left = [place for place, line in enumerate(lines) if b" undecided " in line]
        machines = b"".join(lines[place].split()[0] + b"\n" for place in left)
        for place, line in zip(left, decide(machines, limits).splitlines(keepends=True)):
            lines[place] = line
    return b"".join(lines)


def decide_machines(program: str, machines: Sequence[str], *words: str) -> list[str]:
    """The verdict of each of some machines, without the machine."""
    verdicts = [line.partition(" ")[2] for line in replies([program, "decide", *words], machines)]
    assert len(verdicts) == len(machines) > 0
    return verdicts


def build_peer(folder: pathlib.Path, name: str, *words: str) -> str:
    """Build a plain Rust program of the benchmarks, and return its path. It takes rustc 1.65 or later.

    `limit` has the program's layout of branches and loops, for a processor with AVX2 and BMI2.
    """
    source, built = TOP / "benchmarks" / name / "main.rs", str(folder / name)
    options = ["codegen-units=1", *(LIMIT_OPTIONS if name == "limit" else [])]
    flags = [word for option in options for word in ("-C", option)]
    subprocess.run(["rustc", "-O", "--edition=2021", *flags, *words, "-o", built, str(source)], check=True)
    return built


def kind_of(line: str) -> str:
    """The kind of a verdict line, or `refused`."""
    fields = line.split(" ")
    return fields[0] if fields[0] == "refused" else fields[1]


def processor_time() -> float:
    """The processor time of all commands that have ended so far, in seconds."""
    used = resource.getrusage(resource.RUSAGE_CHILDREN)
    return used.ru_utime + used.ru_stime


def peak_memory(process: subprocess.Popen[Any]) -> int:
    """Wait for a process; return the most memory that it took, in KiB, or 0 if it failed."""
    with process:
        _, status, used = os.wait4(process.pid, 0)
        process.returncode = os.waitstatus_to_exitcode(status)
    return int(used.ru_maxrss) if process.returncode == 0 else 0


def least_time(command: Sequence[str], given: bytes) -> float:
    """The least processor time of three runs of a command over these bytes, in seconds."""
    times = []
    for _ in range(3):
        before = processor_time()
        assert run_command(command, given).status == 0
        times.append(processor_time() - before)
    return min(times)


def unaligned_branches(built: str) -> tuple[int, int]:
    """How many branches of the single-pass run lie across a multiple of 32 bytes or end there, and how many lie
    elsewhere, by `objdump`: some processors are slow at the first."""
    counts = [0, 0]
    for rows in instructions(built, r"single_pass::\w*single_pass::"):
        for (begin, word), (end, _) in zip(rows, rows[1:]):
            if word.startswith("j"):
                counts[int(begin, 16) // 32 == int(end, 16) // 32] += 1
    return counts[0], counts[1]


def conditional_moves(built: str, function: str) -> int:
    """How many instructions of a function choose between two values without a branch."""
    return sum(word.startswith("cmov") for rows in instructions(built, function) for _, word in rows)


def instructions(built: str, function: str) -> list[list[tuple[str, str]]]:
    """The instructions of each function with such a name, by `objdump`: address and word."""
    code = run_command(["objdump", "-d", "--no-show-raw-insn", built]).output.decode("utf-8", "replace")
    bodies = re.findall(r"^\w+ <.*%s(?s:.*?)\n\n" % function, code, re.MULTILINE)
    return [re.findall(r"^ *(\w+):\t(\w+)", body, re.MULTILINE) for body in bodies]


def plan_of(words: list[str]) -> dict[str, Any]:
    """Read limits and switches by name from words such as `--steps 5 --no-cyclers`."""
    text = " ".join(words)
    limits = {name: int(value) for name, value in re.findall(r"--(\w+)[ =](\d+)", text)}
    return {**limits, **dict.fromkeys(re.findall(r"--no-(\w+)", text), False)}
