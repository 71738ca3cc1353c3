#!/usr/bin/python3
"""Show that the comparison of the two builds notices wrong code.

    plain/edits.py [--jobs N] [--tests] [CRATE | CRATE/EDIT]...

It applies the must-fail edits of the crates one at a time to a plain workspace, builds it without optimizing,
and compares the program with the unedited build by a selection of `tests/test_plain.py`, up to the first
difference. At the end it runs the library's test in C and the tests of the crates, for each edit that no
command saw. It prints how each edit is seen, and the counts. `plain/unseen.txt` names the edits that change
nothing visible; the status is 1 where another one isn't seen.
"""

from __future__ import annotations

import argparse
import collections
import concurrent.futures
import pathlib
import queue
import random
import re
import subprocess
import sys
import time
from typing import Callable, Counter, Iterator, List, NamedTuple, Optional, Tuple

TOP = pathlib.Path(__file__).resolve().parents[1]
sys.path[:0] = [str(TOP), str(TOP / "tests"), str(TOP / "python" / "src")]

from plain.erase import PROFILES, Source, plain, write_workspace  # noqa: E402
from support.edge_cases import COMMANDS, EDGES, EDGES_OF_LISTS, FOUR, GIVEN, PLANS, WORDS  # noqa: E402
from support.examples import read_examples  # noqa: E402
from support.machines import random_machines, spoil  # noqa: E402
from support.program import ROWS, as_lines, options  # noqa: E402
from support.second_checker import made_claims, tight_claims  # noqa: E402

CRATES = (
    "bb_machine",
    "bb_sim",
    "bb_registers",
    "bb_tree",
    "bb_cert",
    "bb_decide",
    "bb_lines",
    "bb_run",
    "bb_recurrence",
)
PROGRAMS = ("bb", "cover", "recurrence")
BUILT = ("build", *(word for name in PROGRAMS for word in ("-p", name)))
TESTED = ("tests_of_verdicts", "tests_of_runs", "tests_of_parts", "bb", "bb_c")
# One build for programs and tests.
QUICK = """
[profile.dev]
debug = false
overflow-checks = false
debug-assertions = false
"""
# How long a command may take, and the tests of the crates; a wrong program may not end.
SECONDS, SECONDS_OF_TESTS = 60, 600
Result = Tuple[int, bytes, bytes]


class Probe(NamedTuple):
    """A command of a shell, in which BB and COVER stand for the programs, with its input."""

    name: str
    command: str
    given: bytes


class Edit(NamedTuple):
    """A must-fail edit: the file below `src`, and the texts that it replaces."""

    crate: str
    name: str
    file: str
    pairs: List[Tuple[str, str]]

    def apply(self, text: str) -> str:
        for old, new in self.pairs:
            assert text.count(old) == 1, "%s: %s" % (self.name, old)
            text = text.replace(old, new)
        return text


def read_edits(name: str) -> Iterator[Edit]:
    """Read the edits of a crate, or the one of this name in it."""
    crate, _, edit = name.partition("/")
    pattern = (edit or "*") + ".edit"
    folders = [TOP / "crates" / crate / name for name in ("must-fail", "further-edits")]
    for path in sorted(path for folder in folders for path in folder.glob(pattern)):
        text = path.read_text(encoding="utf-8")
        file = re.search(r"^file: src/(.*)$", text, re.M)
        assert file
        pairs = zip(re.findall(r"^old: (.*)$", text, re.M), re.findall(r"^new: ?(.*)$", text, re.M))
        yield Edit(crate, path.stem, file[1], list(pairs))


def run(probe: Probe, programs: pathlib.Path, cwd: pathlib.Path) -> Result:
    """Run a probe; one that takes too long differs by its status."""
    command = probe.command
    for name in PROGRAMS:
        command = command.replace(name.upper(), str(programs / name))
    timed = ["timeout", str(SECONDS), "sh", "-c", command]
    try:
        done = subprocess.run(timed, input=probe.given, capture_output=True, cwd=cwd)
    except BrokenPipeError:
        return -1, b"", b""
    return done.returncode, done.stdout, done.stderr


def with_errors(source: random.Random, lines: bytes) -> bytes:
    return as_lines(spoil(source, line) for line in lines.decode().splitlines())


def claims(programs: pathlib.Path, source: random.Random, verdicts: List[str]) -> Iterator[Probe]:
    """Claims under their limits."""
    made = made_claims(str(programs / "bb"), source, verdicts, 8_000)
    for limits, lines in (*made, *tight_claims(source, verdicts, 15)):
        words, given = " ".join(options(limits)), "".join(line + "\n" for line in lines)
        yield Probe("claims " + words, "BB check " + words, given.encode("latin-1"))


def probes(programs: pathlib.Path, lists: pathlib.Path) -> Iterator[Probe]:
    """The commands that are compared, in the order in which differences are likely."""
    source, four = random.Random(1), lists / "four.txt"
    chosen = as_lines(four.read_text().splitlines()[::60])
    verdicts = {}
    for limits in (FOUR, *(options(row) for row in ROWS)):
        words = " ".join(limits)
        machines = chosen if limits is FOUR else as_lines(random_machines(400, source))
        decide = Probe("decide " + words, "BB decide " + words, machines)
        yield decide
        verdicts[words] = run(decide, programs, lists)[1]
        forged = re.sub(rb"\d(?=\n)", lambda digit: b"%d" % (source.randrange(10)), verdicts[words])
        yield Probe("check " + words, "BB check " + words, verdicts[words])
        yield Probe("recurrence " + words, "RECURRENCE --entries --steps 900", verdicts[words])
        yield Probe("forged " + words, "BB check " + words, forged)
        yield Probe("errors " + words, "BB decide " + words, with_errors(source, machines))
        yield Probe("errors in verdicts " + words, "BB check " + words, with_errors(source, verdicts[words]))
    for words in PLANS:
        machines = as_lines([*chosen.decode().split()[::5], *random_machines(400, source)])
        yield Probe("decide " + words, "BB decide %s %s" % (words, " ".join(FOUR)), machines)
    yield from claims(programs, source, verdicts[" ".join(FOUR)].decode().splitlines())
    for machine in random_machines(30, source):
        words = "--upto %d --cells %d" % (source.randrange(60), source.randint(1, 40))
        yield Probe("trace " + words, "BB trace %s -- %s" % (words, machine), b"")
    for example in read_examples():
        yield Probe("example " + example.name, "cd %s; BB %s" % (TOP, " ".join(example.words)), example.given)
    three = run(Probe("", "BB decide " + " ".join(FOUR), (lists / "three.txt").read_bytes()), programs, lists)
    yield Probe("cover", "COVER " + " ".join(FOUR), three[1])
    (lists / "verdicts.txt").write_bytes(three[1])
    for command in EDGES_OF_LISTS:
        yield Probe("cover: " + command.strip(), command.replace("PROGRAM", "COVER"), b"")
        yield Probe("recurrence: " + command.strip(), command.replace("PROGRAM", "RECURRENCE"), b"")
    for command in EDGES:
        yield Probe(command.strip(), command.replace("PROGRAM", "BB"), b"")
    for _ in range(300):
        words = " ".join(["'%s'" % word for word in source.choices(WORDS, k=source.randint(0, 5))])
        yield Probe("words " + words, "BB %s %s" % (source.choice(COMMANDS), words), GIVEN)


class Workspace:
    """A plain workspace in which one edit at a time stands."""

    def __init__(
        self, folder: pathlib.Path, expected: List[Tuple[Probe, Result]], lists: pathlib.Path
    ) -> None:
        self.folder, self.lists = folder, lists
        write_workspace(folder)
        path = folder / "Cargo.toml"
        path.write_text(path.read_text().replace(PROFILES, QUICK))
        assert self.cargo(*BUILT) == 0
        alike = []
        for probe, result in expected:
            start = time.monotonic()
            if self.run(probe) == result:
                alike.append((time.monotonic() - start, probe, result))
        # Slow ones come last.
        self.expected = [pair[1:] for pair in sorted(alike, key=lambda one: one[0] > 1)]
        print("%d of them end alike without optimization" % len(alike), flush=True)

    def run(self, probe: Probe) -> Result:
        return run(probe, self.folder / "target" / "debug", self.lists)

    def cargo(self, *words: str) -> int:
        with open(self.folder / "log", "wb") as log:
            command = ["timeout", str(SECONDS_OF_TESTS), "cargo", *words, "--quiet", "--jobs", "1"]
            return subprocess.run(command, cwd=self.folder, stdout=log, stderr=log).returncode

    def seen_by(self, edit: Edit, compare: Callable[[Workspace], Optional[str]]) -> Optional[str]:
        """Return what a comparison says of the workspace with an edit."""
        path = TOP / "crates" / edit.crate / "src" / edit.file
        target = self.folder / edit.crate / "src" / (edit.file[:-3] + ".rs")
        right, text = target.read_text(), path.read_text(encoding="utf-8")
        copy = self.folder / "edited.rt"
        copy.write_text(edit.apply(text), encoding="utf-8")
        try:
            target.write_text(plain(Source(copy, edit.file)))
            return compare(self)
        finally:
            target.write_text(right)

    def commands(self) -> Optional[str]:
        """Return which command differs, or the compiler where it refuses the edit."""
        if self.cargo(*BUILT) != 0:
            return "the compiler"
        return next((probe.name for probe, right in self.expected if self.run(probe) != right), None)

    def tests(self) -> Optional[str]:
        """Return what the library's test in C and the tests of the crates say."""
        self.cargo("build", "-p", "bb_c")
        made, archive = self.folder / "calls", self.folder / "target" / "debug" / "libbb_c.a"
        source = TOP / "tests" / "library" / "calls.c"
        compiler: List[object] = ["cc", "-pthread", "-I", TOP / "include", source, archive, "-lm", "-o", made]
        subprocess.run(list(map(str, compiler)), check=True)
        if subprocess.run(["timeout", "300", str(made)], capture_output=True).returncode:
            return "the library's test"
        is_seen = any(self.cargo("test", "-p", name) for name in TESTED)
        return "the tests of the crates" if is_seen else None


def expected_results(programs: pathlib.Path, lists: pathlib.Path) -> List[Tuple[Probe, Result]]:
    """Run the unedited build twice: what depends on chance isn't compared."""
    found = [(probe, run(probe, programs, lists)) for probe in probes(programs, lists)]
    return [(probe, result) for probe, result in found if run(probe, programs, lists) == result]


def write_lists(lists: pathlib.Path) -> None:
    lists.mkdir(parents=True, exist_ok=True)
    for states, name in ((3, "three.txt"), (4, "four.txt")):
        words = [str(TOP / "tools" / "out" / "tree_normal_form"), "--states", str(states)]
        (lists / name).write_bytes(subprocess.run(words, stdout=subprocess.PIPE, check=True).stdout)
    (lists / "list.txt").write_bytes(b"1RB1LB_1LA1RZ\n1rB1LB\n0RB---_0LA---\n")


def try_all(
    edits: List[Edit], workspaces: List[Workspace], compare: Callable[[Workspace], Optional[str]]
) -> List[Optional[str]]:
    """Try the edits side by side, and print how each is seen."""
    free: "queue.SimpleQueue[Workspace]" = queue.SimpleQueue()
    for workspace in workspaces:
        free.put(workspace)

    def work(edit: Edit) -> Optional[str]:
        workspace, start = free.get(), time.monotonic()
        try:
            seen = workspace.seen_by(edit, compare)
        finally:
            free.put(workspace)
        seconds = time.monotonic() - start
        print("%s/%s: %s, %.0f s" % (edit.crate, edit.name, seen or "not seen", seconds), flush=True)
        return seen

    with concurrent.futures.ThreadPoolExecutor(len(workspaces)) as pool:
        return list(pool.map(work, edits))


def main() -> int:
    words = argparse.ArgumentParser(description=__doc__, formatter_class=argparse.RawDescriptionHelpFormatter)
    words.add_argument("--jobs", type=int, default=2, metavar="N", help="edits at a time (default: 2)")
    words.add_argument("--tests", action="store_true", help="compare no commands, run the tests alone")
    words.add_argument("names", nargs="*", metavar="CRATE | CRATE/EDIT", default=CRATES)
    asked = words.parse_args()
    subprocess.run(["make", "-s", "plain", "lister"], cwd=TOP, check=True)
    folder = TOP / "out" / "edits"
    write_lists(folder / "lists")
    programs = TOP / "out" / "plain" / "target" / "release"
    expected = [] if asked.tests else expected_results(programs, folder / "lists")
    print("%d commands are compared" % len(expected), flush=True)
    edits = [edit for name in asked.names for edit in read_edits(name)]
    with concurrent.futures.ThreadPoolExecutor(asked.jobs) as pool:
        folders = [folder / str(job) for job in range(asked.jobs)]
        workspaces = list(pool.map(lambda one: Workspace(one, expected, folder / "lists"), folders))
    seen: List[Optional[str]] = [None] * len(edits)
    if not asked.tests:
        seen = try_all(edits, workspaces, Workspace.commands)
    found = list(zip(edits, seen))
    unseen = [edit for edit, seen in found if seen is None]
    print("%d edits are left to the tests" % len(unseen), flush=True)
    found = [pair for pair in found if pair[1]]
    found += zip(unseen, try_all(unseen, workspaces, Workspace.tests))
    for name in sorted({edit.crate for edit in edits}):
        counts: Counter[Optional[str]] = collections.Counter(
            by if by is None or by.startswith("the ") else "a command"
            for edit, by in found
            if edit.crate == name
        )
        print(name, dict(counts))
    lines = (TOP / "plain" / "unseen.txt").read_text(encoding="utf-8").splitlines()
    invisible = [line.partition(":")[0] for line in lines if not line.startswith("#")]
    names = ["%s/%s" % (edit.crate, edit.name) for edit, by in found if by is None]
    missed = [name for name in names if name not in invisible]
    print("missed:", ", ".join(missed) or "none")
    return 1 if missed else 0


if __name__ == "__main__":
    sys.exit(main())
