"""A run and its passes: cutting the list into chunks, deciding and storing them, and the summary."""

from __future__ import annotations

import contextlib
import dataclasses
import datetime
import functools
import time
from typing import Any, Callable, Iterator, NoReturn, Sequence

from .._files import Checksum
from ..counts import KINDS, UNDECIDED
from ..limits import Limits, words_of
from .backends import Backend
from .chunks import Counts, Retention, check, decide, validate_answers, validate_verdicts
from .dispatch import Assignment, Dispatcher
from .errors import CheckError, FolderError, ReplyError
from .folder import CHECK_HERE, CHECKS, README, RUN, SUMMARY, Folder, RunConfig
from .input import ListFile, StreamLines
from .pass_folder import Outcome, PassFolder, PassResult, Record, holdouts_of, list_line_number
from .progress import Progress
from .replies import Identity, Output, Request
from .store import OriginError, SealError, hash_of, seal

# A chunk that was cut before is cut so again, whatever its size.
_ANY_SIZE = 1 << 62


class ChunkPace:
    """The lines of the next chunk, so that it takes about SECONDS: one at first, and at most GROWTH times
    those of any earlier chunk. It takes longer if with `width` chunks in flight, half of which wait, more than
    RATE would be done in a second."""

    SECONDS, GROWTH, MEMORY, RATE = 2.0, 8, 0.7, 50

    def __init__(self, most: int) -> None:
        self.now, self._most, self._largest = 1, most, 0
        self._lines, self.seconds = 0.0, 0.0

    def update(self, lines: int, seconds: float, width: int) -> None:
        self._lines = self.MEMORY * self._lines + lines
        self.seconds = self.MEMORY * self.seconds + seconds
        self._largest = max(self._largest, lines)
        target = max(self.SECONDS, width / 2 / self.RATE)
        fitting = self._lines * target / max(self.seconds, 1e-9)
        self.now = max(int(min(fitting, self._most, self.GROWTH * self._largest)), 1)


@dataclasses.dataclass(frozen=True)
class RunOptions:
    """How the passes of a run are decided. `list_name` is for messages; `require_list` raises if the list has
    changed, and is called before chunks are stored; `most_lines` bounds a chunk; `check` is one of CHECKS."""

    backend: Backend
    identity: Identity
    progress: Progress
    list_name: str
    most_lines: int | None = None
    check: str = ""
    keep: Retention = Retention()
    require_list: Callable[[], None] = lambda: None


# The seconds between two syncs.
_SYNC = 1.0


class PassRun:
    """Runs the pass of a folder, after the passes `before`. `known` is the number of its lines, if known."""

    def __init__(
        self,
        folder: PassFolder,
        limits: Limits,
        options: RunOptions,
        before: Sequence[PassFolder],
        known: int | None,
    ) -> None:
        self.folder, self.limits, self.options, self._before = folder, limits, options, before
        self._known = known
        size = options.backend.chunk_size
        self._most = size._replace(lines=options.most_lines or size.lines)
        self.pace = ChunkPace(self._most.lines)
        self._result = PassResult(limits)
        self._next = 0.0

    def run(self, lines: StreamLines) -> PassResult:
        """Decides the lines of all chunks but stored ones. Raises FolderError if stored ones have other lines,
        CheckError, RunError, OSError."""
        options = self.options
        tasks = Dispatcher(options.backend, options.progress, "chunks", self._finish, self._sync_if_due)
        try:
            tasks.run(self._chunks(lines))
        finally:
            self._sync()
        self.folder.remove_stale()
        self._result.checksum = self.folder.checksum()
        return self._result

    def _chunks(self, lines: StreamLines) -> Iterator[ChunkTask]:
        """The chunks, cut as the stored ones are, else by the pace. Raises FolderError, RunError, OSError."""
        while True:
            first = lines.lines_taken
            if stored := self.folder.count_lines(first):
                given = lines.take(stored, _ANY_SIZE)
            else:
                free = self.folder.lines_free(first)
                given = lines.take(min(self.pace.now, free or _ANY_SIZE), self._most.bytes)
            count = lines.lines_taken - first
            if count < stored or not given:
                self._require_end(first, lines.lines_taken)
            known = self._known
            if known is not None and (first + count > known or (not given and first < known)):
                self._raise_other_list(f"that one had {known} lines")
            if not given:
                return
            yield ChunkTask(self, first, given, count, stored == count)

    def _require_end(self, first: int, end: int) -> None:
        """Raises FolderError for a valid chunk at these lines or behind them: the list had more."""
        if (record := self.folder.find_chunk(first)) is not None:
            self.raise_mismatch(record.first, record.lines, max(end - record.first, 0))

    def _raise_other_list(self, why: str) -> NoReturn:
        text = "%s isn't the list that this folder was started with; give that list, or another folder: %s"
        raise FolderError(text % (self.options.list_name, why))

    def raise_mismatch(self, first: int, count: int, found: int) -> NoReturn:
        """Raises FolderError for a stored chunk of `count` lines; the list has `found` of them."""
        if self.folder.number > 1:
            text = "was decided from other lines than the holdouts of the pass before"
            raise FolderError(f"{self.folder.path} {text}; remove it and run again")
        is_short = found < count
        lines = f"lines {first + 1} to {first + count} differ"
        self._raise_other_list(f"it ends after line {first + found}" if is_short else lines)

    def describe_lines(self, first: int, last: int | None = None) -> str:
        """The numbers in the list of some lines of the pass, in words; both ends are included."""
        ends, suffix = [first, first if last is None else last], ""
        if self._before and self.options.keep.only_holdouts:
            ends, suffix = [end + 1 for end in ends], " of the holdouts of pass %d" % len(self._before)
        else:
            ends = [list_line_number(self._before, end) for end in ends]
        return ("line %d" % ends[0] if ends[0] == ends[1] else "lines %d to %d" % (ends[0], ends[1])) + suffix

    def _finish(self, chunk: ChunkTask) -> None:
        """Notes that a chunk is stored."""
        assert chunk.record is not None
        self.folder.add(chunk.record)
        self._result.add(chunk.record)
        progress = self.options.progress
        if chunk.is_resumed:
            progress.add_resumed(chunk.lines)
        else:
            progress.add_decided(chunk.lines)
            self.pace.update(chunk.lines, chunk.seconds, self.options.backend.width())

    def _sync_if_due(self) -> None:
        if time.monotonic() >= self._next:
            self._sync()
            self._next = time.monotonic() + _SYNC

    def _sync(self) -> None:
        """Has the stored chunks on the disk. Raises MovedError if the folder was moved, OSError."""
        self.folder.store.sync()
        self.folder.require_name()


class ChunkTask(Assignment):
    """Lines of a pass, behind `first` others; then the verdicts `written`, and the `record` of the stored chunk."""

    def __init__(self, run: PassRun, first: int, given: bytes, lines: int, is_stored: bool) -> None:
        self.first, self.given, self.lines = first, given, lines
        self._run, self._is_stored = run, is_stored
        self.record: Record | None = None
        self.written: bytes | None = None
        self.is_resumed, self._is_confirmed, self.seconds = False, False, 0.0
        self._counts: Counts = {}

    def request(self) -> Request | None:
        """Nothing to load a stored chunk, or to check one in `accept`."""
        limits = self._run.limits.numbers()
        if self._is_stored:
            return None
        if self.written is None:
            return Request(decide, self.given, limits)
        return None if self._checks_here() else Request(check, self.written, limits)

    def accept(self, output: Output | None) -> bool:
        """Loads a stored chunk, or validates verdicts or answers; stores a finished chunk."""
        if self._is_stored:
            self._is_stored, self.is_resumed = False, self._load()
            if not self.is_resumed:
                return False
        elif output is not None:
            if self.written is None:
                self._counts, self.written = validate_verdicts(self.given, output.written), output.written
            else:
                self._validate_answers(output.written)
            self.seconds += min(output.seconds, time.monotonic() - self.submitted)
        if self._run.options.check and not self._is_confirmed:
            if self.written is None or not self._checks_here():
                return False
            self._validate_answers(check(self.written, self._run.limits.numbers()))
        self._store()
        return True

    def _checks_here(self) -> bool:
        options = self._run.options
        return options.check == CHECK_HERE and not options.backend.is_here

    def _load(self) -> bool:
        """Whether the chunk is stored and valid. Raises FolderError if the stored one has other lines."""
        options, folder = self._run.options, self._run.folder
        try:
            if (found := folder.read(self.first)) is None:
                return False
            record, kept = found
            if not record.fits(self.given, kept):
                self._run.raise_mismatch(self.first, self.lines, self.lines)
        except OriginError:
            return False
        except SealError as error:
            where = "chunk %s of pass %d" % (folder.name_of(self.first), folder.number)
            options.progress.print_line("%s is decided again: %s" % (where, error))
            return False
        self.record, self._is_confirmed = record, record.is_checked
        if options.check and not self._is_confirmed:
            self.written, self._counts = kept, record.counts
            self.seconds = record.milliseconds / 1_000
        return True

    def _validate_answers(self, answers: bytes) -> None:
        """Validates the checker's answers. Raises ReplyError, CheckError."""
        assert self.written is not None
        try:
            validate_answers(self.lines, answers)
        except ReplyError as error:
            if error.line is None:
                raise
            line = self.written.split(b"\n")[error.line].decode()
            where = self._run.describe_lines(self.first + error.line)
            raise CheckError("%s: the checker answers %s: %s" % (where, error, line)) from None
        self._is_confirmed = True

    def _store(self) -> None:
        """Stores the output of a chunk, unless that is stored. Raises RunError if the list has changed."""
        if self.written is not None:
            kept = self._run.options.keep.select(self.written)
            given = hash_of(self.given) if self._run.options.keep.only_holdouts else ""
            took = int(min(self.seconds, 1e9) * 1_000)
            record = Record(self.first, self.lines, given, took, self._is_confirmed, self._counts)
            self._run.options.require_list()
            self.record = self._run.folder.write(record, kept)
        self.given, self.written = b"", None

    def halves(self) -> Sequence[ChunkTask]:
        """They are decided, and stored as two chunks."""
        if self.lines < 2:
            return ()
        lines, middle = StreamLines.of_blocks([self.given]), self.lines // 2
        counts = {0: middle, middle: self.lines - middle}
        return [
            ChunkTask(self._run, self.first + start, lines.take(count, _ANY_SIZE), count, False)
            for start, count in counts.items()
        ]

    def describe(self, error: BaseException) -> str:
        first, last = self.first, self.first + self.lines - 1
        if isinstance(error, ReplyError) and error.line is not None:
            first = last = self.first + error.line
        return "pass %d, %s" % (self._run.folder.number, self._run.describe_lines(first, last))


def run(folder: Folder, source: ListFile, passes: Sequence[Limits], options: RunOptions) -> Outcome:
    """Decides a list, and writes verdicts and summary into a folder. Raises the errors of `PassRun.run`."""
    try:
        return _run_passes(folder, source, passes, options)
    except OSError:
        # Nothing can be made in a folder that was removed.
        folder.require_name()
        raise
    finally:
        options.backend.close()


def _run_passes(folder: Folder, source: ListFile, passes: Sequence[Limits], options: RunOptions) -> Outcome:
    started = time.time(), time.monotonic()
    config = start_or_resume(folder, source, passes, options)
    folder.write(README, config.readme(folder.path))
    results: list[PassResult] = []
    folders: list[PassFolder] = []
    with contextlib.ExitStack() as stack:
        for number, limits in enumerate(passes, 1):
            folder.require_name()
            found = folder.open_pass(config, number)
            stack.callback(found.close)
            lines = StreamLines.of_blocks(holdouts_of(folders[-1])) if results else source.lines()
            known = sum(results[-1].counts[kind] for kind in UNDECIDED) if results else config.list_lines
            total = functools.partial(_estimate_total, source, lines, known)
            options.progress.start(number, len(passes), total)
            results.append(PassRun(found, limits, options, tuple(folders), known).run(lines))
            folders.append(found)
            if config.list_lines is None:
                config.list_lines = results[0].lines
                folder.write(RUN, config.text())
        folder.require_name()
        checksum = folder.write_verdicts(folders)
    outcome = Outcome.of(results)
    fields = summary_of(config, results, outcome, options, started, checksum)
    folder.write(SUMMARY, seal(fields))
    folder.require_name()
    options.progress.clear()
    return outcome


def _estimate_total(source: ListFile, lines: StreamLines, known: int | None) -> float | None:
    if known is not None:
        return known
    fraction = source.fraction(lines.bytes_taken)
    return lines.lines_taken / fraction if fraction else None


def start_or_resume(
    folder: Folder, source: ListFile, passes: Sequence[Limits], options: RunOptions
) -> RunConfig:
    """The configuration of a folder, maybe with more passes. Raises FolderError if it has another one."""
    size = None if source.is_compressed else source.size
    if (config := folder.read_config()) is None:
        config = RunConfig(
            list(passes), options.keep, options.identity, source.name, size, check=options.check
        )
        folder.write(RUN, config.text())
        return config
    _require_same(folder, config, passes, options)
    if size is not None and config.list_bytes not in (None, size):
        text = f"{source.name} isn't the list that {folder.path} was started with; give that list, or another"
        raise FolderError(f"{text} folder: it has {size} bytes, and that one had {config.list_bytes}")
    folder.require_free(range(len(config.passes) + 1, len(passes) + 1))
    resumed = dataclasses.replace(config, passes=list(passes), check=config.check or options.check)
    if resumed != config:
        folder.write(RUN, resumed.text())
    return resumed


def _require_same(folder: Folder, config: RunConfig, passes: Sequence[Limits], options: RunOptions) -> None:
    """Raises FolderError if the folder was started with another library, other passes or another --keep, or with
    --check if it isn't given; if it is, and verdicts were dropped without it."""

    def text_of(passes: Sequence[Limits]) -> str:
        return " ".join("--pass " + words_of(limits) for limits in passes)

    sentence, ours = "", options.identity
    if config.identity.library != ours.library:
        advice = "install that one, or give another folder"
        sentence = f"another library: {config.identity}; here is {ours}; {advice}"
    elif list(passes[: len(config.passes)]) != config.passes:
        advice = "give the same ones, and more behind them, or another folder"
        sentence = f"other passes: {text_of(config.passes)}; here are {text_of(passes)}; {advice}"
    elif config.keep != options.keep:
        sentence = f"--keep {config.keep}; here is --keep {options.keep}; give the same, or another folder"
    elif CHECKS.index(options.check) < CHECKS.index(config.check):
        sentence = f"{config.check}; give it too, or another folder"
    if sentence:
        raise FolderError(f"{folder.path} was started with {sentence}")
    if options.check and options.keep.only_holdouts and not config.check:
        text = "verdicts were dropped before they were checked; resume without --check"
        raise FolderError(f"{folder.path}: {text}, or start again with it in another folder")


def summary_of(
    config: RunConfig,
    results: Sequence[PassResult],
    outcome: Outcome,
    options: RunOptions,
    started: tuple[float, float],
    checksum: Checksum,
) -> dict[str, Any]:
    """The fields of the summary. `started` is a time of the wall clock and of the monotonic clock."""
    seconds = time.monotonic() - started[1]
    utc = datetime.timezone.utc
    times = [datetime.datetime.fromtimestamp(started[0] + after, utc) for after in (0, seconds)]
    return {
        "run": config.hash(),
        "list": config.list_name,
        "lines": outcome.lines,
        "counts": {kind: outcome.counts[kind] for kind in KINDS},
        "kept": str(options.keep),
        "verdicts": checksum.fields(),
        "passes": [result.fields() for result in results],
        "began": times[0].isoformat(timespec="seconds"),
        "ended": times[1].isoformat(timespec="seconds"),
        "seconds": round(seconds, 3),
        **dataclasses.asdict(options.identity),
    }
