"""Lines that the program's checker and the second one, in Coq, must answer alike, most of them false.

Wrong checkers in Coq are built here too, without their proofs.
"""

import collections
import itertools
import pathlib
import random
import re
import shutil
import subprocess
from typing import Iterator, NamedTuple, Sequence

from . import TOP, ListMachines
from .claims import forge, pairs_of, refusals, tight_limits, trees_of
from .machines import all_machines, machine, random_machines, seldom_halting
from .program import CommandResult, run_command, options, replies

COQ = TOP / "coq"
DEFAULT = (1_000_000, 65_536, 300, 1_000_000)
LIMITS = (1_000, 1_024, 40, 10_000)
SMALL = (40, 9, 5, 12)
LARGE = (20_000, 4_096, 100, 10_000)
# Limits at which the complete list of four states is decided and checked.
WHOLE = ((200, 256, 20, 1_000), LIMITS, LARGE)
# Other lists: the states, and words for the program that lists machines.
LISTS = (("5", "--steps", "1000", "--every", "900"), ("2", "--symbols", "3"), ("2", "--symbols", "4"))
# Limits of steps, cells, levels and nodes, and lines.
Claims = tuple[Sequence[int], list[str]]
# What each program is made of: files of Coq without proofs, and files of OCaml.
OF_LINES = (
    "definitions/Machines definitions/Answers checker/ClaimChecker checker/LineChecker"
    " definitions/ExactRecurrence checker/RecurrenceChecker programs/ExtractLineCheckers"
)
PROGRAMS = {
    "checker": (OF_LINES, "checker.mli checker.ml answering.ml check.ml"),
    "recurrence": (OF_LINES, "checker.mli checker.ml answering.ml recurrence.ml"),
    "cover": (
        "definitions/Machines definitions/Answers definitions/CompleteLists definitions/ShardCounts"
        " checker/ClaimChecker checker/LineChecker checker/ListChecker checker/ListProgram"
        " programs/ExtractListChecker",
        "lists.mli lists.ml cover.ml",
    ),
}


class Edit(NamedTuple):
    """A wrong checker: what is wrong with it, and the change of a text of a file that makes it."""

    name: str
    file: str
    old: str
    new: str


def decide(bb: str, limits: Sequence[int], machines: Sequence[str]) -> list[str]:
    return replies([bb, "decide", *options(limits)], machines)


def answer(checker: Sequence[str], claims: Claims) -> CommandResult:
    """Run a checker over lines under their limits; a character is a byte."""
    limits, lines = claims
    return run_command([*checker, *options(limits)], "".join(line + "\n" for line in lines).encode("latin-1"))


def compare_answers(bb: str, checker: str, what: str, claims: Claims) -> None:
    """Require both checkers to answer each line alike and to end alike; print how many lines there were."""
    ours, theirs = answer([bb, "check"], claims), answer([checker], claims)
    assert (ours.status, ours.error) == (theirs.status, theirs.error), what
    pairs = list(zip(claims[1], ours.output.split(b"\n"), theirs.output.split(b"\n")))
    wrong = [pair for pair in pairs if pair[1] != pair[2]]
    assert not wrong, "%s under %s: %s" % (what, claims[0], wrong[:10])
    assert ours.output == theirs.output and ours.output.count(b"\n") == len(claims[1]) > 0
    print("%s: %d lines compared" % (what, len(claims[1])))


def made_claims(bb: str, source: random.Random, verdicts: Sequence[str], count: int) -> Iterator[Claims]:
    """Yield claims that are made by changes of verdicts and by plain runs."""
    yield LIMITS, list(forge(source, verdicts, count))
    yield SMALL, list(forge(source, verdicts, count // 4))
    yield LIMITS, list(refusals([*range(20), *range(770, 780), 2**64 - 1, 2**64]))
    machines = [machine(source, 1 + k % 4, 2 + k % 3) for k in range(count // 100)]
    yield LIMITS, [line for text in machines for line in pairs_of(text, 30)]
    small = [*all_machines(1, 2), *source.sample(list(all_machines(2, 2)), count // 200)]
    inside = [line.split(" ")[0] for line in decide(bb, SMALL, small) if " halt " in line]
    yield LIMITS, [line for text in inside for line in trees_of(text, 4, 7)]
    outside = [line.split(" ")[0] for line in verdicts if " backward " in line][: count // 1_000]
    yield LIMITS, [line for text in outside for line in trees_of(text, 4, 7)]


def tight_claims(source: random.Random, verdicts: Sequence[str], count: int) -> list[Claims]:
    """Return claims of runs, and as many of halts, with limits that are just enough and just not."""
    short = [line for line in verdicts if len(line) < 80]
    halts = [line for line in short if " halt " in line]
    lines = [line for kind in (short, halts) for line in source.sample(kind, min(count, len(kind)))]
    claims: dict[Sequence[int], list[str]] = collections.defaultdict(list)
    for limits, line in itertools.chain.from_iterable(map(tight_limits, lines)):
        claims[limits].append(line)
    return list(claims.items())


def quick_claims(bb: str, list_machines: ListMachines, source: random.Random) -> Iterator[tuple[str, Claims]]:
    """Yield the lines that are always compared, each batch with its name."""
    rows = (COQ / "proofs" / "WorkedLines.v").read_text(encoding="utf-8")
    yield "worked lines", (DEFAULT, re.findall(r"\"([^\"]*)\"[;\]]", rows))
    verdicts = decide(bb, LIMITS, list_machines(4, "--every", "10"))
    yield "every tenth machine of four states", (LIMITS, verdicts)
    mixture = decide(bb, LIMITS, random_machines(5_000, source))
    yield "random machines", (LIMITS, mixture)
    sample = [*source.sample(verdicts, 20_000), *mixture]
    yield from (("made claims", claims) for claims in made_claims(bb, source, sample, 70_000))
    yield from (("tight limits", claims) for claims in tight_claims(source, sample, 300))


def long_claims(bb: str, list_machines: ListMachines, source: random.Random) -> Iterator[tuple[str, Claims]]:
    """Yield lines of complete lists and samples, and a million made ones."""
    machines = list_machines(4)
    for limits in WHOLE:
        verdicts = decide(bb, limits, machines)
        yield "all machines of four states", (limits, verdicts)
    yield "all machines of four states, where less is allowed", (SMALL, verdicts)
    sample = source.sample(verdicts, 50_000)
    for states, *words in LISTS:
        machines = list_machines(int(states), *words)
        verdicts = decide(bb, LARGE, source.sample(machines, min(200_000, len(machines))))
        yield "machines of %s" % " ".join([states, *words]), (LARGE, verdicts)
        sample += source.sample(verdicts, min(20_000, len(verdicts)))
    mixture = decide(bb, LIMITS, random_machines(50_000, source))
    yield "random machines", (LIMITS, mixture)
    sample += mixture + decide(bb, LIMITS, [seldom_halting(source, 3, 3) for _ in range(20_000)])
    yield from (("made claims", claims) for claims in made_claims(bb, source, sample, 800_000))
    yield from (("tight limits", claims) for claims in tight_claims(source, sample, 3_000))


def copy_folder(to: pathlib.Path, built: bool = False) -> pathlib.Path:
    """Copy `coq/`, with or without what is built; the proofs need nothing else of the repository."""
    skipped = shutil.ignore_patterns("tests", *(() if built else ("out",)))
    return pathlib.Path(shutil.copytree(COQ, to / "coq", ignore=skipped))


def replace_once(path: pathlib.Path, old: str, new: str) -> None:
    """Replace a text that a file must have once."""
    text = path.read_text(encoding="utf-8")
    assert text.count(old) == 1, old
    path.write_text(text.replace(old, new), encoding="utf-8")


def build_wrong(to: pathlib.Path, edit: Edit, program: str) -> str:
    """Change a copy of `coq/`, require a proof to fail, and build a program without its proofs."""
    folder = copy_folder(to, built=True)
    replace_once(folder / edit.file, edit.old, edit.new)
    done = run_command(["make", "-C", str(folder)])
    failed = re.search(r"proofs/\w+\.v", done.error.decode())
    assert done.status != 0 and failed
    print("%s: %s fails" % (edit.name, failed[0]))
    out = folder / "unproved"
    out.mkdir()
    modules, sources = (names.split() for names in PROGRAMS[program])
    for name in modules:
        made = name.rpartition("/")[2] + ".vo"
        command = ["coqc", "-q", "-noglob", "-Q", ".", "Budlarem", "-o", made, "../%s.v" % name]
        subprocess.run(command, cwd=out, check=True, stdout=subprocess.DEVNULL)
    for source in sources:
        if (folder / "programs" / source).exists():
            shutil.copy(folder / "programs" / source, out)
    subprocess.run(["ocamlfind", "ocamlopt", *sources, "-o", program], cwd=out, check=True)
    return str(out / program)
