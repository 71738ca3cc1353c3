"""Complete lists in shards: the plan, the job of one shard, and the skeleton of the results.

The folder of a sharded list has

- `plan.json`: size, entries, limits, with a seal
- `machines.txt`: the machines of the skeleton, in walk order; one that ends in `below` stands for its shard
- `shards/MACHINE`: the result of each finished shard: its line and counts, sealed, and its undecided lines
- `skeleton.txt`: the machines decided, and the lines of the shards in their places
- `holdouts.txt`: the undecided lines, in walk order
- `summary.json`: the plan, the line of `cover`, the counts, the sha256 of both files, with a seal

Shards are done by a backend, or by processes that share this folder, as array jobs. Three programs in a pipe do
the work, found in the PATH: `tree_normal_form` lists, `bb` decides, `cover` checks.
"""

from __future__ import annotations

import collections
import contextlib
import dataclasses
import functools
import hashlib
import json
import os
import random
import re
import shutil
import subprocess
import threading
import time
from typing import IO, Any, Callable, Iterable, Iterator, NamedTuple, Sequence

from ._files import Directory, FileTarget, hash_blocks, read_json
from ._fork import forbid_fork
from .counts import RecurrenceCounts, VerdictCounts
from .engine import recurrence_call
from .limits import Limits
from .runner.backends import Backend
from .runner.dispatch import Assignment, Dispatcher
from .runner.errors import CheckError, FolderError, ReplyError, RunError
from .runner.folder import LOCK, remove_leftovers
from .runner.progress import TerminalLine
from .runner.replies import Output, Request, do_here, identity
from .runner.store import OriginError, Result, SealError, Store, hash_of, locked_folder, read_sealed, seal
from .walk_order import WalkOrder

LISTER, DECIDER, CHECKER = PROGRAMS = ("tree_normal_form", "bb", "cover")
FILES = ("plan.json", "machines.txt", "skeleton.txt", "holdouts.txt", "summary.json")
PLAN, MACHINES, SKELETON, HOLDOUTS, SUMMARY = FILES
SHARDS = "shards"
_BLOCK = 1 << 16
_COVERS = re.compile(r"covers below \S+: (\d+) lines?, (\d+) undecided, (\d+) of them ")
_UNDECIDED = re.compile(rb"(\S+) undecided (?:steps|cells)")


@dataclasses.dataclass(frozen=True)
class Plan:
    """How a list is sharded.

    `states`, `symbols`: its size. `entries`: a machine with so many entries that leads to others is a shard.
    `list_steps`: the steps of the list's runs. `limits`: those of deciding and checking. `recurrence`: the exact
    recurrence behind each pair is found and counted too.
    """

    states: int
    symbols: int
    entries: int
    list_steps: int
    limits: Limits
    recurrence: bool = False

    def list_command(self, *words: str) -> list[str]:
        size = ["--states", str(self.states), "--symbols", str(self.symbols)]
        return [LISTER, *size, "--steps", str(self.list_steps), *words]

    def shards_options(self) -> list[str]:
        size = ["--states", str(self.states), "--symbols", str(self.symbols), "--entries", str(self.entries)]
        size += ["--recurrence"] if self.recurrence else []
        return [*size, "--list-steps", str(self.list_steps), *self.options()]

    def options(self) -> list[str]:
        """The options of `bb` and `cover` for the limits."""
        return [word for name in Limits.RANGES for word in ("--" + name, str(getattr(self.limits, name)))]

    def list_machines(self) -> bytes:
        """The lines of `machines.txt`. Raises RunError."""
        return b"".join(pipe_blocks([self.list_command("--shards", str(self.entries))]))

    def origin(self) -> dict[str, str]:
        """What shards that are done here belong to: the plan, the library, the sha256 of each program. Raises
        RunError."""
        programs = {name: _program_sha256(_find(name)) for name in PROGRAMS}
        plan = hash_of(json.dumps(dataclasses.asdict(self)).encode())
        return {"plan": plan, **dataclasses.asdict(identity()), **programs}


class RecurrenceReader:
    """Finds the recurrences behind verdict lines within these limits: their `counts`."""

    def __init__(self, limits: Limits) -> None:
        self.counts = RecurrenceCounts()
        self._call = recurrence_call(limits)

    def read(self, lines: bytes) -> None:
        """Reads whole lines. Raises CheckError for a pair that isn't confirmed, LibraryError, MemoryError."""
        forbid_fork()
        self.counts.add_block(self._call(lines).text)
        require_confirmed(self.counts)


def require_confirmed(counts: RecurrenceCounts) -> None:
    """Raises CheckError if a reply is none to a confirmed pair, or to another verdict."""
    wrong = {kind: counts.kinds[kind] for kind in ("bad", "over", "unread") if counts.kinds[kind]}
    if wrong:
        raise CheckError("recurrences aren't found: %s" % wrong)


class VerdictReader:
    """Reads verdict lines in blocks, or shards: their `sha256`, `size` in bytes, `counts`, and undecided lines,
    `holdouts`; for a plan with recurrences, the counts of these; the number of shards and the sum of their seconds.
    """

    def __init__(self, plan: Plan) -> None:
        self.sha256, self.size, self.counts = hashlib.sha256(), 0, VerdictCounts()
        self.shards, self.seconds = 0, 0.0
        self.recurrences = RecurrenceReader(plan.limits) if plan.recurrence else None
        self.holdouts: list[bytes] = []
        self._rest = b""

    def read(self, block: bytes) -> None:
        """Reads a block, which may end within a line."""
        self.sha256.update(block)
        self.size += len(block)
        lines, newline, self._rest = (self._rest + block).rpartition(b"\n")
        self.holdouts.append(self.counts.add_block(lines + newline))
        if self.recurrences is not None:
            self.recurrences.read(lines + newline)

    def add(self, shard: Shard) -> None:
        """Counts the lines of a shard."""
        self.shards, self.seconds = self.shards + 1, self.seconds + shard.seconds
        self.counts.merge(shard.counts)
        if self.recurrences is not None:
            self.recurrences.counts.merge(shard.recurrences)

    def fields(self) -> dict[str, Any]:
        """The counts of verdicts, and of recurrences if found."""
        found = self.recurrences
        return {**self.counts.fields(), **({} if found is None else {"recurrences": found.counts.fields()})}


class Shard(NamedTuple):
    """A finished shard: its line in the skeleton, its counts, the bytes of all its lines, its undecided lines, the
    seconds of its job, and the counts of its recurrences; none without them."""

    line: str
    counts: VerdictCounts
    size: int
    holdouts: bytes
    seconds: float
    recurrences: RecurrenceCounts

    @classmethod
    def of_result(cls, machine: str, plan: Plan, result: Result) -> Shard:
        """The shard of a result, which is checked beside its line. Raises ReplyError."""
        fields, holdouts = result.fields, result.content
        try:
            numbers = int(fields["verdict_bytes"]), holdouts, float(fields["seconds"])
            recurrences = RecurrenceCounts.of_fields(
                fields.get("recurrences", {"counts": {}, "greatest": {}})
            )
            shard = cls(str(fields["line"]), VerdictCounts.of_fields(fields), *numbers, recurrences)
        except (AttributeError, KeyError, TypeError, ValueError) as error:
            raise ReplyError("it is no finished shard: %s" % error) from None
        found = re.fullmatch(re.escape(machine) + r" below (\d+) (\d+) (\d+) [0-9a-f]{64}\n", shard.line)
        if found is None:
            raise ReplyError("its line is %.200r" % shard.line)
        wide, undecided = _check_holdouts(machine, plan, holdouts)
        counts = sum(shard.counts.kinds.values()), shard.counts.count_undecided()
        if (*counts, undecided, wide) != (*map(int, found.groups()[:2]), int(found[2]), int(found[3])):
            raise ReplyError("its line is %r, and it counts %d lines, %d undecided" % (shard.line, *counts))
        pairs = sum(shard.counts.kinds[kind] for kind in ("cycler", "translated"))
        if plan.recurrence and recurrences.kinds["recurs"] != pairs:
            words = (pairs, recurrences.kinds["recurs"])
            raise ReplyError("it counts %d pairs and %d recurrences" % words)
        return shard


def _check_holdouts(machine: str, plan: Plan, lines: bytes) -> tuple[int, int]:
    """How many of the undecided lines of a shard have several `---`, and how many there are. Raises ReplyError
    for a line that isn't one of a machine below the shard's, in walk order."""
    order, wide, count = WalkOrder(machine, plan.symbols, plan.list_steps), 0, 0
    for line in lines.splitlines():
        found = _UNDECIDED.fullmatch(line)
        if found is None or not order.accept(found[1].decode("latin-1")):
            raise ReplyError("its line %d isn't the next undecided one: %.200r" % (count + 1, line))
        count, wide = count + 1, wide + (line.count(b"---") > 1)
    if lines and not lines.endswith(b"\n"):
        raise ReplyError("its last line has no newline")
    return wide, count


def walk_shard(machine: str, plan: Plan, reader: VerdictReader, see: Callable[[bytes], object]) -> str:
    """Lists, decides and checks the shard of a machine; the reader reads its lines, and `see` gets them in blocks.
    Returns the shard's line in the skeleton. Raises CheckError, RunError."""

    def read(block: bytes) -> None:
        reader.read(block)
        see(block)

    lister = [LISTER, "--below", machine, "--steps", str(plan.list_steps)]
    blocks = pipe_blocks([lister, [DECIDER, "decide", *plan.options()]])
    found = run_cover(["--below", machine, *plan.options()], blocks, read)
    if (counts := _COVERS.match(found)) is None:
        raise CheckError("cover refuses the shard of %s: %s" % (machine, found.rstrip("\n")))
    return "%s below %s %s\n" % (machine, " ".join(counts.groups()), reader.sha256.hexdigest())


def decide_shard(line: bytes, plan: Plan) -> bytes:
    """Does the shard of a machine: a line of fields, and the undecided lines. Raises CheckError, RunError."""
    machine, origin = line.decode("ascii").rstrip("\n"), plan.origin()
    began, reader = time.monotonic(), VerdictReader(plan)
    stated = walk_shard(machine, plan, reader, lambda block: None)
    seconds = time.monotonic() - began
    fields = {"line": stated, **reader.fields(), "verdict_bytes": reader.size, "seconds": round(seconds, 3)}
    header = json.dumps({"of": origin, **fields}).encode("ascii") + b"\n"
    return b"".join([header, *reader.holdouts])


class DamagedError(Exception):
    """The result of a shard is cut or changed. `machine` is the shard's."""

    def __init__(self, machine: str, reason: object) -> None:
        super().__init__("the shard of %s is done again: %s" % (machine, reason))
        self.machine = machine


class ShardFolder:
    """A folder with a plan, by the handle of the opened directory. `report` prints a sentence. Raises FolderError,
    RunError, OSError."""

    def __init__(self, path: str, report: Callable[[str], None]) -> None:
        self.path, self._report = path, report
        with contextlib.ExitStack() as stack:
            self._top = stack.enter_context(contextlib.closing(Directory.open(path)))
            self.plan, self._machines = read_plan(self._top)
            self.store = Store(self._top.subdirectory(SHARDS), self.plan.origin())
            stack.callback(self.store.close)
            # Locks of shards under way; shards whose results are damaged, and those that ever were.
            self._locks: dict[str, contextlib.ExitStack] = {}
            stack.callback(self._release_all)
            self._damaged: set[str] = set()
            self._again: set[str] = set()
            # It guards the locks while a run ends.
            self._guard, self._is_ended = threading.Lock(), False
            self.close = stack.pop_all().close

    def require_name(self) -> None:
        """Raises MovedError if the folder was moved, removed or replaced."""
        self._top.require_name()
        self.store.folder.require_name()

    def _read_machines(self) -> bytes:
        """The lines of the machines. Raises FolderError if they aren't those of the plan, OSError."""
        with open(self._top.open_file(MACHINES, os.O_RDONLY), "rb") as file:
            lines = file.read()
        if hashlib.sha256(lines).hexdigest() != self._machines:
            how = "remove it, and resume, which lists them again"
            raise FolderError("%s was cut or changed; %s" % (self._top.at(MACHINES), how))
        return lines

    def machines(self) -> Iterator[tuple[str, bool]]:
        """The machines of the skeleton, in walk order, each with whether it is a shard. Raises FolderError, OSError."""
        for line in self._read_machines().decode("ascii").splitlines():
            machine, *below = line.split()
            yield machine, bool(below)

    def has_shard(self, machine: str) -> bool:
        """Whether a machine is that of a shard, in a fraction of the time that reading all of them takes."""
        line = os.fsencode("\n%s below\n" % machine)
        return machine.split() == [machine] and line in b"\n" + self._read_machines()

    def shards(self) -> list[str]:
        return [machine for machine, is_shard in self.machines() if is_shard]

    def pending(self) -> list[str]:
        """The machines of the shards that aren't finished, in walk order. Raises FolderError."""
        return [machine for machine in self.shards() if self.line(machine) is None]

    def line(self, machine: str) -> str | None:
        """The line of a finished shard; None if it isn't. Raises FolderError for one of another plan or program."""
        if machine in self._damaged:
            return None
        try:
            fields = self.store.read_fields(machine)
        except OriginError as error:
            how = "use what it was done with, or choose another folder, or remove it to do it again"
            raise FolderError("%s: %s; %s" % (self.store.folder.at(machine), error, how)) from None
        except SealError as error:
            self.note_damage(DamagedError(machine, error))
            return None
        return None if fields is None else str(fields["line"])

    def note_damage(self, error: DamagedError) -> None:
        """Has a damaged shard done again. Raises RunError if it was done again already."""
        if error.machine in self._again:
            raise RunError("%s, for the second time" % error)
        self._damaged.add(error.machine)
        self._again.add(error.machine)
        self._report(str(error))

    def read(self, machine: str) -> Shard:
        """A finished shard. Raises DamagedError, OSError."""
        try:
            if (result := self.store.read(machine)) is None:
                raise SealError("it was removed")
            return Shard.of_result(machine, self.plan, result)
        except (SealError, ReplyError) as error:
            raise DamagedError(machine, error) from None

    def write(self, machine: str, result: Result) -> None:
        """Stores the result of a shard. Raises RunError, MovedError, OSError."""
        self.store.write(machine, result.fields, result.content, machine in self._damaged)
        self.store.sync()
        self.require_name()
        self._damaged.discard(machine)

    def claim(self, machine: str, waits: bool = True) -> bool:
        """Has the lock of a shard; or not, if another process has it and this one doesn't wait."""
        lock = contextlib.ExitStack()
        if not lock.enter_context(self.store.claim(machine, waits)):
            return False
        self._locks[machine] = lock
        return True

    def release(self, machine: str) -> None:
        self._locks.pop(machine).close()

    def _release_all(self) -> None:
        for machine in list(self._locks):
            self.release(machine)

    def do(
        self,
        machines: Iterable[str],
        backend: Backend,
        progress: TerminalLine,
        finish: Callable[[ShardTask], None],
    ) -> None:
        """Does shards. Raises CheckError, FolderError, RunError, OSError."""
        self._is_ended = False
        try:
            Dispatcher(backend, progress, "shards", finish).run(self._tasks(machines))
        finally:
            with self._guard:
                self._is_ended = True
                self._release_all()

    def _tasks(self, machines: Iterable[str]) -> Iterator[ShardTask]:
        """A task for each shard, with its lock; those that other processes have come last."""
        taken = []
        for machine in machines:
            # A run that ends meanwhile leaves no lock.
            with self._guard:
                if self._is_ended:
                    return
                is_free = self.claim(machine, waits=False)
            if is_free:
                yield ShardTask(self, machine)
            else:
                taken.append(machine)
        if taken:
            self._report("waiting for %d shards that other processes do" % len(taken))
        for machine in taken:
            self.claim(machine)
            yield ShardTask(self, machine)

    def do_shard(self, machine: str) -> str:
        """The line of a shard, which is done unless it is finished. Raises FolderError, CheckError, RunError."""
        self.claim(machine)
        task = ShardTask(self, machine)
        request = task.request()
        task.accept(None if request is None else do_here(request))
        return self.line(machine) or ""

    def verify(self, machines: Sequence[str], backend: Backend, progress: TerminalLine) -> None:
        """Does shards again, and compares them with their results. Raises CheckError for another one."""
        Dispatcher(backend, progress, "shards").run(VerifyTask(self, machine) for machine in machines)

    def join(self, verified: dict[str, int] | None = None) -> str:
        """Writes skeleton, holdouts, summary; returns the line of `cover`. `verified` is what was done again. Raises
        DamagedError, FolderError, CheckError, RunError, OSError."""
        with locked_folder(self._top, LOCK):
            return self._join(verified)

    def _join(self, verified: dict[str, int] | None) -> str:
        if left := self.pending():
            raise FolderError("%d shards aren't finished; the first is %s" % (len(left), left[0]))
        remove_leftovers(self._top, FILES)
        self.store.remove_leftovers()
        total, sha256 = VerdictReader(self.plan), {}
        sha256[SKELETON] = write_file(self._top, SKELETON, self._skeleton())
        with open(self._top.open_file(SKELETON, os.O_RDONLY), "rb") as file:
            blocks = iter(functools.partial(file.read, _BLOCK), b"")
            found = cover_skeleton(blocks, self._top.at(SKELETON), self.plan)
        sha256[HOLDOUTS] = write_file(self._top, HOLDOUTS, self._holdouts(total))
        fields = {
            "plan": dataclasses.asdict(self.plan),
            "cover": found.rstrip("\n"),
            "shards": total.shards,
            "seconds": round(total.seconds, 3),
            **total.fields(),
            "sha256": sha256,
            "verified": verified or self._verified(sha256),
        }
        write_file(self._top, SUMMARY, [seal(fields).encode("ascii")])
        return found

    def _verified(self, sha256: dict[str, str]) -> dict[str, int] | None:
        """What was done again before these files were written, by an earlier summary."""
        with contextlib.suppress(SealError, KeyError, OSError):
            fields = read_sealed(self._top, SUMMARY) or {}
            if fields["sha256"] == sha256:
                found: dict[str, int] | None = fields["verified"]
                return found
        return None

    def _skeleton(self) -> Iterator[bytes]:
        decided = "".join(machine + "\n" for machine, is_shard in self.machines() if not is_shard)
        command = [_find(DECIDER), "decide", *self.plan.options()]
        done = subprocess.run(command, input=decided.encode("ascii"), stdout=subprocess.PIPE)
        _require_success(DECIDER, done.returncode)
        verdicts = iter(done.stdout.splitlines(keepends=True))
        for machine, is_shard in self.machines():
            yield (self.line(machine) or "").encode("ascii") if is_shard else next(verdicts)

    def _holdouts(self, total: VerdictReader) -> Iterator[bytes]:
        """The undecided lines in walk order; adds up the counts of all lines."""
        with open(self._top.open_file(SKELETON, os.O_RDONLY), "rb") as file:
            for line in file:
                machine, word = line.split(b" ", 2)[:2]
                if word != b"below":
                    total.read(line)
                    yield total.holdouts.pop()
                    continue
                shard = self.read(machine.decode("ascii"))
                total.add(shard)
                yield shard.holdouts


class ShardTask(Assignment):
    """A shard that is to be done and stored, whose lock this process has."""

    def __init__(self, folder: ShardFolder, machine: str) -> None:
        self.folder, self.machine = folder, machine

    def request(self) -> Request | None:
        """Nothing if another process has done it meanwhile."""
        if self.folder.line(self.machine) is not None:
            return None
        return Request(decide_shard, self.machine.encode("ascii") + b"\n", self.folder.plan)

    def accept(self, output: Output | None) -> bool:
        if output is not None:
            self.folder.write(self.machine, self._result_of(output))
        self.folder.release(self.machine)
        return True

    def _result_of(self, output: Output) -> Result:
        """The result of an output. Raises ReplyError unless it is a shard of the same plan and programs."""
        header, _, holdouts = output.written.partition(b"\n")
        try:
            fields = read_json(header.decode("ascii"))
        except ValueError as error:
            raise ReplyError("it is no shard: %s" % error) from None
        origin = fields.pop("of", None)
        for name, ours in self.folder.store.origin.items():
            if not isinstance(origin, dict) or origin.get(name) != ours:
                theirs = origin.get(name) if isinstance(origin, dict) else None
                raise ReplyError("its %s is %.80s, and here it is %s" % (name, theirs, ours))
        result = Result(fields, holdouts)
        Shard.of_result(self.machine, self.folder.plan, result)
        return result

    def describe(self, error: BaseException) -> str:
        return "the shard of %s" % self.machine


class VerifyTask(ShardTask):
    """A shard that is done again, and compared with its result."""

    def request(self) -> Request:
        return Request(decide_shard, self.machine.encode("ascii") + b"\n", self.folder.plan)

    def accept(self, output: Output | None) -> bool:
        assert output is not None
        again = Shard.of_result(self.machine, self.folder.plan, self._result_of(output))
        stored = self.folder.read(self.machine)
        for name in ("line", "size", "holdouts"):
            if getattr(again, name) != getattr(stored, name):
                self._raise_other(name)
        for name in ("counts", "recurrences"):
            if getattr(again, name).fields() != getattr(stored, name).fields():
                self._raise_other(name)
        return True

    def _raise_other(self, name: str) -> None:
        path = self.folder.store.folder.at(self.machine)
        raise CheckError("%s: done again, the shard has other %s; remove it, and resume" % (path, name))


def draw(machines: Sequence[str], share: float, seed: int) -> list[str]:
    """A share of some machines, at least one, drawn by a seed, in their order."""
    count = min(max(round(share * len(machines)), 1), len(machines))
    return [machines[place] for place in sorted(random.Random(seed).sample(range(len(machines)), count))]


def write_file(top: Directory, name: str, blocks: Iterable[bytes]) -> str:
    """Writes or replaces a file of the folder, whole or not at all; returns its sha256. Raises RunError, OSError."""
    sha256 = hashlib.sha256()
    with contextlib.closing(FileTarget(top, name)) as target:
        target.write(hash_blocks(blocks, sha256))
    return sha256.hexdigest()


def create(path: str, plan: Plan | None) -> None:
    """Creates a folder for a plan, unless it has it; None for that of the folder. Lists its machines. Raises
    FolderError if it has another plan, or other files of these names; RunError, OSError."""
    if plan is not None:
        os.makedirs(path, exist_ok=True)
    with contextlib.closing(Directory.open(path)) as top, locked_folder(top, LOCK):
        if plan is not None and top.status(PLAN) is None:
            for name in (*FILES, SHARDS):
                if top.status(name) is not None:
                    raise FolderError("%s is there, without a plan; choose another folder" % top.at(name))
            machines = hashlib.sha256(plan.list_machines()).hexdigest()
            write_file(top, PLAN, [seal({**dataclasses.asdict(plan), "machines": machines}).encode()])
        known, machines = read_plan(top)
        if plan not in (None, known):
            raise FolderError("%s has another plan; choose another folder, or remove it" % top.at(PLAN))
        if top.status(MACHINES) is None:
            lines = known.list_machines()
            if hashlib.sha256(lines).hexdigest() != machines:
                raise FolderError("tree_normal_form lists other machines than those of %s" % top.at(PLAN))
            write_file(top, MACHINES, [lines])


def read_plan(top: Directory) -> tuple[Plan, str]:
    """The plan in a folder, and the sha256 of its machines. Raises FolderError if it was changed, OSError if there
    is none."""
    try:
        if top.status(PLAN) is None:
            os.close(top.open_file(PLAN, os.O_RDONLY))
        if (fields := read_sealed(top, PLAN)) is None:
            raise SealError("it was cut; restore it, or choose another folder")
        machines = str(fields.pop("machines"))
        fields["limits"] = Limits(**fields["limits"])
        return Plan(**fields), machines
    except SealError as error:
        with open(top.open_file(PLAN, os.O_RDONLY), "rb") as file:
            if file.read(4) == b'{\n "':
                how = "an earlier version of this package made it; finish it by that version, or choose another folder"
                raise FolderError("%s: it has no seal: %s" % (top.at(PLAN), how)) from None
        raise FolderError("%s: %s" % (top.at(PLAN), error)) from None


def _program_sha256(path: str) -> str:
    """The sha256 of a program."""
    status = os.stat(path)
    return _sha256_at(path, (status.st_ino, status.st_size, status.st_mtime_ns))


@functools.lru_cache(maxsize=None)
def _sha256_at(path: str, state: tuple[int, int, int]) -> str:
    return sha256_of(path)


def cover_skeleton(blocks: Iterator[bytes], path: str, plan: Plan) -> str:
    """The line that `cover` prints of the skeleton of a path. Raises CheckError if it refuses it, RunError."""
    found = run_cover(["--skeleton", *plan.options()], blocks, lambda _: None)
    if not found.startswith("covers "):
        raise CheckError("cover refuses %s: %s" % (path, found.rstrip("\n")))
    return found


def digests(plan: Plan) -> dict[str, str]:
    """The sha256 of the list in one piece, and of its verdicts. Raises RunError."""
    pipe, found = [plan.list_command()], {}
    for name in ("list", "verdicts"):
        sha256 = hashlib.sha256()
        collections.deque(hash_blocks(pipe_blocks(pipe), sha256), maxlen=0)
        found[name] = sha256.hexdigest()
        pipe.append([DECIDER, "decide", *plan.options()])
    return found


def sha256_of(path: str) -> str:
    sha256 = hashlib.sha256()
    with open(path, "rb") as file:
        for block in iter(lambda: file.read(_BLOCK), b""):
            sha256.update(block)
    return sha256.hexdigest()


def _find(program: str) -> str:
    """The path of a program. Raises RunError if it isn't in the PATH."""
    path = shutil.which(program)
    if path is None:
        raise RunError("%s isn't in the PATH; it is in the release's folder, or `make` builds it" % program)
    return path


def _require_success(program: str, status: int) -> None:
    if status != 0:
        cause = "by signal %d" % -status if status < 0 else "with status %d" % status
        raise RunError("%s ended %s" % (program, cause))


def pipe_blocks(commands: Sequence[Sequence[str]]) -> Iterator[bytes]:
    """The output of programs in a pipe, in blocks. Raises RunError if one fails or can't be found."""
    paths = [_find(command[0]) for command in commands]
    running: list[subprocess.Popen[bytes]] = []
    given: int | IO[bytes] | None = subprocess.DEVNULL
    try:
        for path, command in zip(paths, commands):
            running.append(subprocess.Popen([path, *command[1:]], stdin=given, stdout=subprocess.PIPE))
            if not isinstance(given, int) and given is not None:
                given.close()
            given = running[-1].stdout
        assert given is not None and not isinstance(given, int)
        yield from iter(functools.partial(given.read, _BLOCK), b"")
        # If one fails, those before it may fail too.
        for command, process in reversed([*zip(commands, running)]):
            _require_success(command[0], process.wait())
    finally:
        for process in running:
            if process.stdout is not None:
                process.stdout.close()
            if process.poll() is None:
                process.kill()
            process.wait()


def run_cover(options: Sequence[str], blocks: Iterator[bytes], see: Callable[[bytes], object]) -> str:
    """Gives blocks to `cover`, and each to `see`; returns what it prints. Raises RunError."""
    command = [_find(CHECKER), *options]
    with subprocess.Popen(command, stdin=subprocess.PIPE, stdout=subprocess.PIPE) as checker:
        assert checker.stdin is not None and checker.stdout is not None
        try:
            # A checker that fails closes its input; its status says why.
            with contextlib.suppress(BrokenPipeError):
                for block in blocks:
                    see(block)
                    checker.stdin.write(block)
                checker.stdin.close()
            found = checker.stdout.read().decode("ascii")
        except BaseException:
            checker.kill()
            raise
        status = checker.wait()
    if status not in (0, 1):
        _require_success(CHECKER, status)
    return found
