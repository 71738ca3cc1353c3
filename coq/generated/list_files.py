"""The files of Coq in which it is a theorem that a list of verdict lines settles every machine of a size.

`coq/theorem --cover` writes them. A list is cut into parts. The theorem of a part says that its lines lead
from one place of the walk to the next. Each place is computed here from the lines. Coq checks its use: a
wrong one fails the proof.
"""

from __future__ import annotations

import dataclasses
import functools
import itertools
import re
from dataclasses import dataclass
from typing import Iterator, Sequence

STATES = "ABCDEFGHIJKLMNOPQRSTUVWXY"
UNDECIDED = ("undecided steps", "undecided cells")
Machine = list[list[str]]

HEAD = """(** %(title)s *)
From Coq Require Import NArith List String.
From Budlarem Require Import Machines Answers LineTexts CompleteLists ShardCounts ListChecker TrueLines CoveredSize.
%(imports)sImport ListNotations.

"""
PART = """Definition lines : list string := %(lines)s.
Definition undecided : list string := %(undecided)s.
(** The places of the walk before these lines, and after them. *)
Definition first_place : progress :=
  %(before)s.
Definition place : progress :=
  %(after)s.
Lemma leads : leads %(task)s first_place lines undecided place.
Proof. split; [vm_cast_no_check (eq_refl (On place))|vm_cast_no_check (eq_refl undecided)]. Qed.

"""
JOINED = """Definition lines : list string := %(lines)s.
Definition undecided : list string := %(undecided)s.
Definition place : progress := %(last)s.place.
Lemma leads : leads %(task)s no_progress lines undecided place.
Proof. exact (%(proof)s). Qed.

"""
BOUNDED = """Theorem bounded : forall M,
  is_machine M = true -> states M = %(states)d -> symbols M = %(symbols)d ->
  halts_within %(most_steps)d %(most_score)d M \\/ never_halts M%(or_open)s.
Proof.
  intros M W S K.
  destruct (bounded_by lines undecided place %(states)d %(symbols)d leads eq_refl M W S K) as [H|[H|H]];
    [left; exact H|%(never)s|].
  %(open_case)s
Qed.
"""
WHOLE = """Theorem covered : forall M,
  is_machine M = true -> states M = %(states)d -> symbols M = %(symbols)d ->
  halts_soon lines M \\/ never_halts M \\/ completes_one_of undecided M.
Proof. exact (covered_by lines undecided place %(states)d %(symbols)d leads eq_refl). Qed.
Print Assumptions covered.
%(bounded)sPrint Assumptions bounded.
"""
ASSUMED = """Definition assumed : list machine := [
  %(machines)s].
Definition open : list string := %(open)s.

Lemma are_machines : forallb is_machine assumed = true.
Proof. vm_cast_no_check (eq_refl true). Qed.
Lemma leave_open : without assumed undecided = open.
Proof. vm_cast_no_check (eq_refl open). Qed.

Section Assumed.
%(hypotheses)s
Theorem covered : forall M, is_machine M = true -> states M = %(states)d -> symbols M = %(symbols)d ->
  halts_soon lines M \\/ never_halts M \\/ completes_one_of open M.
Proof.
  intros M W S K. destruct (covered_by lines undecided place %(states)d %(symbols)d leads eq_refl M W S K)
    as [H|[H|H]]; [left; exact H|right; left; exact H|right].
  exact (%(settle)s).
Qed.
%(bounded)sEnd Assumed.
Print Assumptions covered.
Print Assumptions bounded.
"""
SHARD = """Theorem covered : is_walk [first] lines /\\ have_counts lines %(counts)s /\\
  are_undecided lines undecided.
Proof. exact (shard_walks first lines undecided place leads eq_refl). Qed.
Print Assumptions covered.
"""
SHARD_SKELETON = """(** For any lines of the shards that are walks below their machines with these counts. *)
Theorem covered : forall parts, Forall2 (stands_for true) lines parts ->
  is_walk [first] (List.concat parts) /\\ have_counts (List.concat parts) %(counts)s.
Proof. exact (shard_skeleton_walks first lines undecided place leads eq_refl). Qed.
Print Assumptions covered.
"""
SKELETON = """(** For any lines of the shards that are walks below their machines with these counts. *)
Theorem covered : forall parts open, Forall2 (stands_for true) lines parts ->
  are_undecided (List.concat parts) open ->
  forall M, is_machine M = true -> states M = %(states)d -> symbols M = %(symbols)d ->
  halts_soon (List.concat parts) M \\/ never_halts M \\/ completes_one_of open M.
Proof. exact (skeleton_covered_by lines undecided place %(states)d %(symbols)d leads eq_refl). Qed.
Print Assumptions covered.
"""


@dataclass(frozen=True)
class Counts:
    """The counts of a place, in the order of Coq's record; no machine of a theorem's list is assumed there."""

    read: int = 0
    shards: int = 0
    lines: int = 0
    undecided: int = 0
    wide: int = 0
    assumed: int = 0
    most_steps: int = 0
    most_score: int = 0


@dataclass(frozen=True)
class Job:
    """What a theorem is asked of: the lines, the first machine of a shard, and whether there are shards."""

    lines: Sequence[str]
    below: str | None
    is_skeleton: bool
    assumed: Sequence[str]

    @property
    def is_whole(self) -> bool:
        """Whether the lines are those of a size, each with its verdict."""
        return self.below is None and not self.is_skeleton

    @functools.cached_property
    def counts(self) -> Counts:
        """The counts of all lines."""
        return functools.reduce(add_line, self.lines, Counts())

    @property
    def bound(self) -> tuple[int, int]:
        """The most steps of a machine that halts, and its most cells not 0: one above the greatest halt."""
        return self.counts.most_steps + 1, self.counts.most_score + 1

    @property
    def task(self) -> str:
        """The task, as a term of Coq."""
        if self.below is not None:
            return "(shard_skeleton first)" if self.is_skeleton else "(shard first)"
        return "skeleton_of_size" if self.is_skeleton else "whole"


@dataclass(frozen=True)
class Part:
    """A part's lines, the machines left undecided in them, and the places before and after them."""

    lines: Sequence[str]
    undecided: Sequence[str]
    before: str
    after: str


def groups_of(machine: str) -> Machine:
    """The entries of a machine's text, by state."""
    return [re.findall("...", group) for group in machine.split("_")]


def entry_term(entry: str) -> str:
    """An entry as a term of Coq."""
    if entry == "---":
        return "Undefined"
    to = "None" if entry[2] == "Z" else "(Some %d)" % STATES.index(entry[2])
    return "Go %s %s %s" % (entry[0], entry[1], to)


def machine_term(machine: str) -> str:
    """A machine as a term of Coq."""
    groups = ("[%s]" % "; ".join(map(entry_term, group)) for group in groups_of(machine))
    return "[%s]" % "; ".join(groups)


def entries_of(groups: Machine) -> list[str]:
    """The entries that may be put into a machine, in the order of a walk."""
    every = ((q, r, entry) for q, group in enumerate(groups) for r, entry in enumerate(group))
    found = [place for place in every if place[2] != "---"]
    states = max([1] + [1 + max(q, STATES.find(entry[2])) for q, _, entry in found])
    symbols = max([1] + [1 + max(r, int(entry[0])) for _, r, entry in found])
    writes, moves = range(min(len(groups[0]), symbols + 1)), "RL" if found else "R"
    to = STATES[: min(len(groups), states + 1)]
    return ["%d%s%s" % entry for entry in itertools.product(writes, moves, to)]


def count_defined_entries(machine: str) -> int:
    """How many entries of a machine's text aren't undefined."""
    return len(machine.replace("_", "")) // 3 - machine.count("---")


def difference(parent: str, child: str) -> tuple[int, int, str]:
    """The state and symbol at which a child has an entry that its parent hasn't, and this entry."""
    for q, (one, other) in enumerate(zip(groups_of(parent), groups_of(child))):
        for r, (before, after) in enumerate(zip(one, other)):
            if before != after:
                return q, r, after
    raise ValueError("%s isn't below %s" % (child, parent))


def frame_term(parent: str, child: str, is_top: bool) -> str:
    """The frame of a parent whose next child is this one, or comes after it; nothing where none is left."""
    q, r, entry = difference(parent, child)
    ways = entries_of(groups_of(parent))
    ways = ways[ways.index(entry) + (0 if is_top else 1) :]
    if not ways:
        return ""
    return "Frame %s %d %d [%s]" % (machine_term(parent), q, r, "; ".join(map(entry_term, ways)))


def place_term(path: Sequence[str], following: str | None, counts: Counts) -> str:
    """The place before a machine, below the machines that lead to it, or the place at the end."""
    frames = []
    if following is not None:
        whole = [*path, following]
        pairs = list(zip(whole, whole[1:]))
        frames = [frame_term(one, other, at == len(pairs) - 1) for at, (one, other) in enumerate(pairs)]
    stack = ";\n    ".join(frame for frame in reversed(frames) if frame)
    counts_term = "(Counts %s)" % " ".join("%d%%N" % count for count in dataclasses.astuple(counts))
    return "Progress (Some %s) [%s] %s" % (machine_term(path[0]), stack, counts_term)


def add_line(counts: Counts, line: str) -> Counts:
    """The counts with one line more."""
    machine, _, verdict = line.partition(" ")
    numbers = [int(number) for number in re.findall(r"\b\d+\b", verdict)[:3]]
    lines, undecided, wide = (
        1,
        int(verdict in UNDECIDED),
        int(verdict in UNDECIDED and machine.count("---") > 1),
    )
    is_shard, is_halt = verdict.startswith("below "), verdict.startswith("halt ")
    if is_shard:
        lines, undecided, wide = numbers
    steps, score = numbers if is_halt else (0, 0)
    return Counts(
        counts.read + 1,
        counts.shards + int(is_shard),
        counts.lines + lines,
        counts.undecided + undecided,
        counts.wide + wide,
        counts.assumed,
        max(counts.most_steps, steps),
        max(counts.most_score, score),
    )


def cut(job: Job, most: int) -> Iterator[Part]:
    """The parts of a list, of at most so many lines. An incomplete list has some part or a ValueError."""
    counts, before = Counts(), "no_progress"
    path: list[str] = []
    least = count_defined_entries(job.lines[0].split(" ")[0])
    machines = [line.split(" ", 1)[0] for line in job.lines]
    for start in range(0, len(job.lines), most):
        lines = job.lines[start : start + most]
        undecided = []
        for line in lines:
            machine, _, verdict = line.partition(" ")
            path[count_defined_entries(machine) - least :] = [machine]
            counts = add_line(counts, line)
            if verdict in UNDECIDED:
                undecided.append(machine)
        end = start + len(lines)
        following = machines[end] if end < len(machines) else None
        above = path if following is None else path[: count_defined_entries(following) - least]
        after = place_term(above or machines[:1], following, counts)
        yield Part(lines, undecided, before, after)
        before = after


def texts_term(texts: Sequence[str]) -> str:
    """Texts, as a list of Coq."""
    if not texts:
        return "[]"
    return "lines_of [\n  %s\n]%%bytes" % ";\n  ".join('"%s"' % text for text in texts)


def part_text(job: Job, part: Part) -> str:
    """The definitions and the lemma of a part."""
    first = "" if job.below is None else "Definition first : machine := %s.\n" % machine_term(job.below)
    fields = {"lines": texts_term(part.lines), "undecided": texts_term(part.undecided), "task": job.task}
    return first + PART % {**fields, "before": part.before, "after": part.after}


def joined_text(job: Job, names: Sequence[str]) -> str:
    """The lines of all parts, and the lemma that they lead from the beginning of the walk to its end."""
    proof = names[-1] + ".leads"
    for name in reversed(names[:-1]):
        proof = "leads_on _ _ _ _ _ _ _ _ %s.leads (%s)" % (name, proof)
    fields = {"lines": " ++ ".join(name + ".lines" for name in names), "last": names[-1], "proof": proof}
    fields["undecided"] = " ++ ".join(name + ".undecided" for name in names)
    first = "" if job.below is None else "Definition first : machine := %s.first.\n" % names[0]
    return first + JOINED % {**fields, "task": job.task}


def bounded_text(job: Job, size: dict[str, object], left: Sequence[str], settle: str) -> str:
    """The theorem that bounds all halts of a size; `settle` is the proof for undecided machines, if assumed."""
    steps, score = job.bound
    fields = dict(size, most_steps=steps, most_score=score, never="right; exact H", or_open="")
    fields["open_case"] = "destruct (none_left M H)."
    if left:
        fields["never"] = "right; left; exact H"
        fields["or_open"] = " \\/ completes_one_of %s M" % ("open" if job.assumed else "undecided")
        fields["open_case"] = "right. exact (%s)." % settle if job.assumed else "right; right; exact H."
    elif job.assumed:
        fields["open_case"] = "destruct (%s) as [N|N]; [right; exact N|destruct (none_left M N)]." % settle
    return BOUNDED % fields


def settle_term(job: Job) -> str:
    """The proof that completions of undecided machines never halt, or complete one that isn't assumed."""
    proof = "(Forall_nil _)"
    for number in range(len(job.assumed), 0, -1):
        proof = "(Forall_cons _ nonhalt_%d %s)" % (number, proof)
    return "assumed_by assumed undecided open M are_machines %s leave_open H" % proof


def end_text(job: Job, undecided: Sequence[str]) -> str:
    """The theorem of the complete list, in which these machines are undecided."""
    groups = groups_of(job.lines[0].split(" ")[0])
    fields: dict[str, object] = {"states": len(groups), "symbols": len(groups[0])}
    fields["counts"] = "%d %d %d" % (job.counts.lines, job.counts.undecided, job.counts.wide)
    if job.below is not None:
        return (SHARD_SKELETON if job.is_skeleton else SHARD) % fields
    if job.is_skeleton:
        return SKELETON % fields
    left = [machine for machine in undecided if machine not in set(job.assumed)]
    fields["settle"] = settle_term(job)
    fields["bounded"] = bounded_text(job, fields, left, settle_term(job))
    if not job.assumed:
        return WHOLE % fields
    fields["hypotheses"] = "\n".join(
        "Hypothesis nonhalt_%d : never_halts %s." % (number, machine_term(machine))
        for number, machine in enumerate(job.assumed, 1)
    )
    fields["machines"] = ";\n  ".join(map(machine_term, job.assumed))
    fields["open"] = texts_term(left)
    return ASSUMED % fields


def files_of(job: Job, stem: str, most: int) -> dict[str, str]:
    """The files of a list by name, `List_1`, `List_2` and so on; the last one has its theorem."""
    parts = list(cut(job, most))
    undecided = [machine for part in parts for machine in part.undecided]
    title = "A list of verdict lines, as one theorem."
    if len(parts) == 1:
        text = part_text(job, parts[0]) + end_text(job, undecided)
        return {stem: HEAD % {"title": title, "imports": ""} + text}
    names = ["%s_%d" % (stem, number) for number in range(1, len(parts) + 1)]
    files = {}
    for number, (name, part) in enumerate(zip(names, parts), 1):
        head = HEAD % {"title": "Part %d of %d of a list." % (number, len(parts)), "imports": ""}
        files[name] = head + part_text(job, part)
    head = HEAD % {"title": title, "imports": "Require %s.\n" % " ".join(names)}
    files[stem] = head + joined_text(job, names) + end_text(job, undecided)
    return files
