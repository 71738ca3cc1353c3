"""Publishes a decided list as one archive, which others can check in five ways; or the holdouts of a list whose
other verdicts weren't kept, with digests to make them again. The same contents are the same bytes."""

from __future__ import annotations

import collections
import contextlib
import dataclasses
import errno
import hashlib
import json
import os
import pathlib
import string
import tarfile
import textwrap
from typing import Any, Callable, Iterable, Iterator, NoReturn, Sequence, Union

from ._calls import BatchPace, map_in_order
from ._files import Checksum, Directory, hash_blocks, open_target
from ._library import is_plain, validate_replies
from ._text import LONGEST_SHOWN
from .counts import UNDECIDED, VerdictCounts
from .engine import check_call
from .limits import GREATEST, Limits, in_range, words_of
from .runner.errors import CheckError, FolderError
from .runner.folder import FinishedRun
from .runner.input import ListFile, StreamLines
from .runner.pass_folder import Outcome
from .runner.replies import Identity, identity
from .runner.store import SealError, read_sealed
from .shards import PLAN, SUMMARY, Plan, cover_skeleton, read_plan
from .verification import find_unconfirmed

Path = Union[str, "os.PathLike[str]"]
_FILES = {
    "README.txt": "this page",
    "list.txt": "the machines, in the order of the verdicts",
    "verdicts.txt": "the verdicts, one a line",
    "skeleton.txt": "the walk through all machines, with a line for each shard",
    "holdouts.txt": "the lines that were kept, undecided ones above all",
    "about.json": "counts, limits, versions and sha256 of the input",
    "recheck.py": "a checker of verdicts, in 150 lines of Python",
    "SHA256SUMS": "the sha256 of each other file",
}
README, LIST, VERDICTS, SKELETON, HOLDOUTS, ABOUT, RECHECK, SUMS = _FILES
FORMAT = 1
KINDS = ("halt", "cycler", "translated", "backward", "undecided", "refused")
# The time of each file in an archive.
_TIME = 315_532_800  # 1 January 1980
# The lines and bytes of a batch.
LINES, _BYTES, _ANY_BYTES = 100_000, 1 << 22, 1 << 62
# The width of the page, and the digits of its sha256 in the name of the archive's folder.
_WIDE, _DIGITS = 79, 16
_CHANGED = "%s changed while it was read; publish it when it no longer does"
_PROVED = "The checker is proved to confirm no false claim, whatever its origin."
_PLAIN = "This build of the checker, by cargo, isn't proved."
_HERE = pathlib.Path(__file__).parent
# The page of an archive of all verdicts.
_FULL_PAGE = "archive.txt"


class PublishError(ValueError):
    """Something can't be published. The text has the file, the line and advice."""


class ArchivedFile:
    """A file for the archive, plain or gzip; once it was read, the sha256 and checksum of its content."""

    def __init__(self, path: str, name: str) -> None:
        self.path, self.name = path, name
        self.sha256, self.checksum = "", Checksum()

    def blocks(self) -> Iterator[bytes]:
        """Its content in blocks. Raises RunError, OSError, and PublishError if it changed meanwhile."""
        checksum, digest = Checksum(), hashlib.sha256()
        with contextlib.closing(ListFile(self.path)) as source:
            if not source.is_regular:
                raise PublishError("%s is read more than once, so it has to be a file" % source.name)
            for block in hash_blocks(source.blocks(), digest):
                checksum = checksum.add_bytes(block)
                yield block
        if self.sha256 not in ("", digest.hexdigest()):
            raise PublishError(_CHANGED % self.path)
        self.sha256, self.checksum = digest.hexdigest(), checksum

    def batches(self) -> Iterator[bytes]:
        """Its lines in batches, with their newlines."""
        lines = StreamLines.of_blocks(self.blocks())
        return iter(lambda: lines.take(LINES, _BYTES), b"")

    def lines(self) -> Iterator[bytes]:
        """Its lines, without their newlines."""
        for batch in self.batches():
            yield from batch.split(b"\n")[:-1]


@dataclasses.dataclass(frozen=True)
class Archive:
    """An archive of the files `inputs`. `counts` are of all lines, of which the checker confirmed `confirmed`.
    `passes` and `decider` are the limits and the package by which they were decided, if known. `about` has more
    fields of `about.json`; `page`, `title` and `parts` make `README.txt`."""

    counts: VerdictCounts
    confirmed: int
    passes: tuple[Limits, ...]
    decider: Identity | None
    inputs: Sequence[ArchivedFile]
    about: dict[str, Any]
    page: str
    title: str
    parts: dict[str, str]

    def _small(self) -> dict[str, bytes]:
        """The files that aren't copied into it, by name."""
        own, kinds = identity(), {**self.counts.kinds, "undecided": self.counts.count_undecided()}
        counts = {kind: kinds.get(kind, 0) for kind in KINDS}
        about = {
            "format": FORMAT,
            "lines": sum(self.counts.kinds.values()),
            "counts": counts,
            **self.about,
            "passes": [words_of(limits) for limits in self.passes],
            "decided_by": None if self.decider is None else dataclasses.asdict(self.decider),
            "checked_by": dataclasses.asdict(own),
            "sha256": {given.name: given.sha256 for given in self.inputs},
        }
        small = {ABOUT: (json.dumps(about, indent=2) + "\n").encode()}
        if self.page == _FULL_PAGE:
            small[RECHECK] = (_HERE / RECHECK).read_bytes()
        names = [README, *(given.name for given in self.inputs), *small, SUMS]
        texts = [f"{count:,} {kind}" for kind, count in counts.items() if count]
        page = string.Template((_HERE / self.page).read_text(encoding="utf-8")).substitute(
            title=self.title,
            underline="=" * len(self.title),
            counts=textwrap.fill("%s." % ", ".join(texts), _WIDE),
            version=own.version,
            commit=own.commit,
            files="\n".join("  %-13s %s" % (name, _FILES[name]) for name in names),
            **self.parts,
        )
        return {README: page.encode(), **small}

    def blocks(self) -> Iterator[bytes]:
        """The bytes of the archive. Raises PublishError if a file has changed, RunError, OSError."""
        small, inputs, size = self._small(), {given.name: given for given in self.inputs}, 0
        sums = {name: hashlib.sha256(data).hexdigest() for name, data in small.items()}
        sums.update({name: given.sha256 for name, given in inputs.items()})
        names = [name for name in _FILES if name in sums]
        small[SUMS] = "".join("%s  %s\n" % (sums[name], name) for name in names).encode()
        folder = "verdicts-" + hashlib.sha256(small[SUMS]).hexdigest()[:_DIGITS]
        for name in [*names, SUMS]:
            # The entry has no traces of this computer.
            member = tarfile.TarInfo("%s/%s" % (folder, name))
            member.size = inputs[name].checksum.size if name in inputs else len(small[name])
            member.mtime, member.mode = _TIME, 0o644
            yield (header := member.tobuf(tarfile.PAX_FORMAT))
            yield from inputs[name].blocks() if name in inputs else [small[name]]
            yield bytes(-member.size % tarfile.BLOCKSIZE)
            size += len(header) + member.size + -member.size % tarfile.BLOCKSIZE
        end = 2 * tarfile.BLOCKSIZE
        yield bytes(end + -(size + end) % tarfile.RECORDSIZE)


def _full_archive(
    counts: VerdictCounts,
    confirmed: int,
    passes: Iterable[Limits],
    decider: Identity | None,
    *files: ArchivedFile,
) -> Archive:
    """The archive of all verdicts, behind the list, if given."""
    limits, total, most = tuple(passes), sum(counts.kinds.values()), counts.most
    steps = most("halt steps", "cycler second", "translated second")
    levels, nodes = most("backward levels"), most("backward nodes")
    first = "When this archive was made, Budlarem's checker confirmed each line that claims something"
    sentences = [f"{first}: {confirmed:,} of {total:,}."]
    sentences.append(_PLAIN if is_plain() else _PROVED)
    if len(files) > 1:
        sentences.append("Each line of list.txt has its verdict on the same line of verdicts.txt.")
    if limits:
        sentences.append("Undecided machines were tried with these limits, one pass after another:")
    elif counts.count_undecided():
        sentences.append("The limits with which undecided machines were tried aren't known.")
    lines = [line for text in sentences for line in textwrap.wrap(text, _WIDE - 2)]
    parts = {
        "checked": textwrap.indent("\n".join([*lines, *("    " + words_of(one) for one in limits)]), "  "),
        "bb_limits": f"--steps {steps} --cells {GREATEST.cells} --depth {levels} --nodes {nodes}",
        "recheck_limits": f"--steps {steps} --nodes {nodes}",
    }
    about = {"greatest": {"steps": steps, "levels": levels, "nodes": nodes}}
    title = f"Verdicts on {total - counts.kinds['refused']:,} machines"
    return Archive(counts, confirmed, limits, decider, files, about, _FULL_PAGE, title, parts)


def _holdout_parts(
    counts: VerdictCounts, checked: str, again: Sequence[str]
) -> tuple[str, str, dict[str, str]]:
    """Template, title and parts of the page for lines that were kept; `again` makes the rest again."""
    parts = {
        "checked": textwrap.indent(textwrap.fill(checked, _WIDE - 2), "  "),
        "again": textwrap.indent("\n".join(again), "      "),
    }
    return "holdouts.txt", f"The holdouts of {sum(counts.kinds.values()):,} machines", parts


def _write_new(path: str, archive: Archive) -> Published:
    """Writes an archive whole or not at all. Raises FileExistsError, OSError, what `Archive.blocks` does."""
    digest = hashlib.sha256()
    with open_target(path) as target:
        if target.over is not None:
            raise FileExistsError(errno.EEXIST, "is there", path)
        target.write(hash_blocks(archive.blocks(), digest))
    confirmed = archive.confirmed
    return Published(path, digest.hexdigest(), confirmed, sum(archive.counts.kinds.values()) - confirmed)


class UnconfirmedError(PublishError):
    """The checker doesn't confirm a verdict. The text says which."""


@dataclasses.dataclass(frozen=True)
class Published:
    """An archive: its path, its sha256, the number of lines with a claim, which the checker confirmed, and of
    lines without. Its text is a line for `sha256sum --check`."""

    path: str
    sha256: str
    confirmed: int
    open: int

    def __str__(self) -> str:
        return "%s  %s" % (self.sha256, self.path)


def _confirm_all(
    verdicts: ArchivedFile, limits: Limits, threads: int, progress: Callable[[int], None]
) -> tuple[int, int]:
    """The number of lines with a claim, which the checker confirms, and without. Raises UnconfirmedError."""
    confirmed, free = 0, 0
    # Each call makes its tapes, which takes a tenth of a second for large ones; so the batches are large.
    for lines, reply in map_in_order(check_call(limits), verdicts.batches(), threads, BatchPace(1)):
        unconfirmed = find_unconfirmed(lines, reply.text, confirmed + free)
        if unconfirmed is not None:
            raise UnconfirmedError(unconfirmed.sentence(verdicts.path, limits))
        confirmed, free = confirmed + reply.text.count(b"ok\n"), free + reply.text.count(b"open\n")
        progress(confirmed + free)
    return confirmed, free


def _count_beside(machines: ArchivedFile, verdicts: ArchivedFile) -> VerdictCounts:
    """The counts of verdicts. Raises PublishError unless each belongs to the line of the list at its place."""
    counts, before, replies = VerdictCounts(), 0, StreamLines.of_blocks(verdicts.blocks())
    for lines in machines.batches():
        found = replies.take(lines.count(b"\n"), _ANY_BYTES)
        if found.count(b"\n") < lines.count(b"\n"):
            _raise_shorter(verdicts, before + found.count(b"\n"), machines)
        if not (check := validate_replies(lines, found)).fits:
            line = lines.split(b"\n")[check.lines][:LONGEST_SHOWN].decode("utf-8", "backslashreplace")
            advice = "the list has one machine a line, as `budlarem read` writes them, in the order of the verdicts"
            number = before + check.lines + 1
            what = f"line {number} of {verdicts.path} isn't the verdict on {line!r}"
            raise PublishError(f"{machines.path}:{number}: {what}; {advice}")
        for verdict in found.decode().splitlines():
            counts.add(verdict)
        before += lines.count(b"\n")
    if replies.peek():
        _raise_shorter(machines, before, verdicts)
    return counts


def _raise_shorter(short: ArchivedFile, lines: int, other: ArchivedFile) -> NoReturn:
    raise PublishError("%s has %d lines, and %s has more" % (short.path, lines, other.path))


def publish(
    path: Path,
    verdicts: Path,
    machines: Path | None = None,
    *,
    passes: Sequence[Limits] = (),
    limits: Limits = GREATEST,
    threads: int = 1,
    progress: Callable[[int], None] = lambda lines: None,
) -> Published:
    """Writes one archive, which others can check, of verdict lines or a folder of `budlarem run`, and of the
    list `machines`, if given. The files may be gzips; the archive has them uncompressed.

    The checker has to confirm each claim within `limits`, on `threads` cores, and each line of the list has to
    have its verdict at its place. `passes` are the limits by which the verdicts were decided; a run's folder
    has them. `progress` is called with the number of checked lines. The same contents are the same bytes.

    The archive of a run with `--keep left`, or of a folder of `budlarem shards`, has the lines that were kept, and
    digests and commands to make the others again. That run must have checked them, and its list must be given.

    Raises PublishError, a ValueError, if `path` exists or doesn't end in `.tar`, list and verdicts don't match,
    or a file changes meanwhile. Raises UnconfirmedError, a PublishError, for a verdict that isn't confirmed.
    Raises OSError if a file can't be read or written, RunError if `cover` isn't found for a folder of shards.
    Nothing is left at `path` then.
    """
    out, given = os.fspath(path), os.fspath(verdicts)
    in_range("threads", threads, 1, 1_024)
    if not out.endswith(".tar"):
        raise PublishError("%s: the output is a tar archive, so give a name that ends in .tar" % out)
    if os.path.lexists(out):
        raise PublishError("%s exists already; give another name, or take it away first" % out)
    if os.path.isdir(given) and passes:
        raise PublishError("%s has the limits by which it was decided" % given)
    listed = None if machines is None else ArchivedFile(os.fspath(machines), LIST)

    def archive_of(verdicts: str, passes: Iterable[Limits], decider: Identity | None = None) -> Archive:
        lines = ArchivedFile(verdicts, VERDICTS)
        confirmed, free = _confirm_all(lines, limits, threads, progress)
        if confirmed + free == 0:
            raise PublishError("%s has no line" % lines.path)
        counts = VerdictCounts() if listed is None else _count_beside(listed, lines)
        for line in lines.lines() if listed is None else ():
            counts.add(line.decode())
        return _full_archive(counts, confirmed, passes, decider, *filter(None, (listed, lines)))

    try:
        if not os.path.isdir(given):
            return _write_new(out, archive_of(given, passes))
        if os.path.exists(os.path.join(given, PLAN)):
            return _write_new(out, _archive_of_shards(given, listed))
        with contextlib.closing(FinishedRun(given)) as run:
            if run.keep.only_holdouts:
                lines = ArchivedFile(run.verdicts, HOLDOUTS)
                _confirm_all(lines, limits, threads, progress)
                return _write_new(out, _archive_of_holdouts(run, lines, listed))
            archive = archive_of(run.verdicts, run.passes, run.identity)
            run.require_verdicts(archive.inputs[-1].checksum, archive.counts.kinds)
            return _write_new(out, archive)
    except FolderError as error:
        raise PublishError(str(error)) from None
    except CheckError as error:
        raise UnconfirmedError(str(error)) from None
    except FileExistsError:
        raise PublishError("%s was made by another process meanwhile, and stays as it is" % out) from None


def _archive_of_holdouts(run: FinishedRun, lines: ArchivedFile, listed: ArchivedFile | None) -> Archive:
    """The archive of a run that kept its holdouts. Raises PublishError, FolderError, OSError."""
    folder = os.path.dirname(run.verdicts)
    if listed is None:
        advice = "give the list by --list, so that the rest can be made again"
        raise PublishError(f"{folder} has only the verdicts that --keep {run.keep} kept; {advice}")
    if not all(one.is_checked for one in run.results):
        advice = "decide the list with --check, in another folder"
        raise PublishError(f"{folder} dropped verdicts that no checker confirmed; {advice}")
    if (count := _count_around(listed, lines)) != run.lines:
        raise PublishError(f"{listed.path} has {count} lines, and the run in {folder} had {run.lines}")
    counts = VerdictCounts()
    counts.kinds.update(Outcome.of(run.results).counts)
    run.require_verdicts(lines.checksum, counts.kinds)
    _require_kept(lines, counts)
    passes = tuple(run.passes)
    words = " ".join("--pass " + words_of(limits) for limits in passes)
    again = [
        "sha256sum LIST            # prints the sha256 of `list` in about.json",
        f"budlarem run LIST --out FOLDER --check --keep {run.keep} {words}",
        "cmp FOLDER/verdicts.txt holdouts.txt",
        "budlarem publish ARCHIVE.tar --verdicts FOLDER --list LIST",
    ]
    checked = (
        "The checker confirmed each verdict before it was dropped. It confirmed the kept lines again when"
    )
    checked += " this archive was made, and each is on a machine of the list, in its order."
    confirmed = run.lines - counts.count_undecided() - counts.kinds["refused"]
    about, page = {"kept": str(run.keep), "list": listed.sha256}, _holdout_parts(counts, checked, again)
    return Archive(counts, confirmed, passes, run.identity, [lines], about, *page)


def _require_kept(lines: ArchivedFile, counts: VerdictCounts) -> None:
    """Raises PublishError unless the kept lines have all undecided and refused ones of the run."""
    kept = VerdictCounts()
    for line in lines.lines():
        kept.add(line.decode())
    for kind in (*UNDECIDED, "refused"):
        if kept.kinds[kind] != counts.kinds[kind]:
            why = f"has {kept.kinds[kind]} lines of {kind}, and the summary has {counts.kinds[kind]}"
            raise PublishError(f"{lines.path} {why}; run that folder's command again")


def _count_around(listed: ArchivedFile, lines: ArchivedFile) -> int:
    """The lines of a list. Raises PublishError unless it has the machines of `lines` in their order."""
    machines, count = enumerate(listed.lines(), 1), 0
    for number, line in enumerate(lines.lines(), 1):
        machine = line.partition(b" ")[0]
        if machine == b"refused":
            continue
        place = next((place for place, one in machines if one == machine), None)
        if place is None:
            where = f"line {number} of {lines.path} is on {machine.decode()}"
            raise PublishError(f"{where}, which {listed.path} doesn't have behind the machine before")
        count = place
    return count + sum(1 for _ in machines)


def _archive_of_shards(folder: str, listed: ArchivedFile | None) -> Archive:
    """The archive of a finished folder of shards. Raises PublishError, FolderError, CheckError, RunError."""
    if listed is not None:
        raise PublishError("%s has shards, which have their own list; leave --list out" % folder)
    with contextlib.closing(Directory.open(folder)) as top:
        (plan, _), path = read_plan(top), top.at(SUMMARY)
        try:
            summary = read_sealed(top, SUMMARY)
        except SealError as error:
            raise PublishError(
                "%s: %s; `budlarem shards %s` writes it again" % (path, error, folder)
            ) from None
    if summary is None:
        raise PublishError("%s isn't finished; `budlarem shards %s` resumes" % (folder, folder))
    if summary["plan"] != json.loads(json.dumps(dataclasses.asdict(plan))):
        raise PublishError("%s is of another plan than plan.json; `budlarem shards %s`" % (path, folder))
    counts, cover = VerdictCounts.of_fields(summary), str(summary["cover"])
    files = tuple(ArchivedFile(os.path.join(folder, name), name) for name in (SKELETON, HOLDOUTS))
    for given in files:
        collections.deque(given.blocks(), maxlen=0)
        if given.sha256 != summary["sha256"][given.name]:
            raise PublishError(f"{given.path} isn't that of the summary; run `budlarem shards {folder}`")
    found = cover_skeleton(files[0].blocks(), files[0].path, plan).rstrip("\n")
    if found != cover:
        raise PublishError("%s has %r, and cover prints %r" % (path, cover, found))
    checked = (
        "Each shard was checked by cover --below when it was done: every claim, and that it is the whole walk"
        " below its machine. %s cover --skeleton confirmed the skeleton when this archive was made: it %s"
    ) % (_verified_text(summary["verified"]), found)
    confirmed = sum(counts.kinds.values()) - counts.count_undecided()
    about = {"greatest": counts.greatest, "plan": summary["plan"], "cover": cover}
    about["verified"] = summary["verified"]
    page = _holdout_parts(counts, checked, _shards_again(plan))
    return Archive(counts, confirmed, (plan.limits,), None, files, about, *page)


def _verified_text(verified: dict[str, int] | None) -> str:
    if verified is None:
        return "No shard was done again to compare it."
    count, total, seed = (verified[name] for name in ("shards", "of", "seed"))
    if count == total:
        return "Each shard was done again, with the same result."
    return "%d of %d shards, drawn by the seed %d, were done again, with the same result." % (
        count,
        total,
        seed,
    )


def _shards_again(plan: Plan) -> list[str]:
    options = " ".join(plan.options())
    return [
        "cover --skeleton %s skeleton.txt" % options,
        "tree_normal_form --below MACHINE --steps %d | bb decide %s > shard.txt" % (plan.list_steps, options),
        "sha256sum shard.txt       # prints the sha256 on MACHINE's line of skeleton.txt",
        "cover --below MACHINE %s shard.txt" % options,
        "budlarem shards FOLDER " + " ".join(plan.shards_options()),
        "cmp FOLDER/skeleton.txt skeleton.txt",
        "cmp FOLDER/holdouts.txt holdouts.txt",
    ]
