"""The folder of a run: its lock, its configuration, its results, and which files in it belong to the run. A run
never changes foreign files."""

from __future__ import annotations

import contextlib
import dataclasses
import os
import pathlib
import re
import shlex
import stat
import string
from typing import Any, Iterable, Iterator, Mapping, Sequence

from .._files import Checksum, Directory, FileId, FileTarget, KindError, id_of, kind_of
from .._text import escape_hidden
from ..limits import Limits, limits_of, words_of
from .chunks import Counts, Retention, parse_retention
from .errors import FolderError, RunError
from .input import STANDARD_INPUT
from .pass_folder import CHUNK, PASS_PREFIX, PassFolder, PassResult, merge_passes, pass_name
from .replies import Identity
from .store import SealError, begins_sealed, hash_of, locked_folder, part_of, read_sealed, seal

LOCK, RUN, README, VERDICTS, SUMMARY = "lock", "run.json", "README.txt", "verdicts.txt", "summary.json"
FILES = (RUN, README, VERDICTS, SUMMARY)
# How these files start in each version that writes this format, as folder.txt does.
PAGE_BEGIN = "Verdicts on the machines of "
_STARTS = {README: PAGE_BEGIN, LOCK: ""}
PASS = re.compile(PASS_PREFIX + "[0-9]+")
# Files of a pass as earlier versions of this package wrote them.
_OLD = ("journal", "pieces", "000000001.txt")
# Bytes of a file that are examined: more than a verdict line has.
_EXAMINED = 1_024
_LINE = re.compile(
    rb"(?:refused [0-9]+|[0-9A-Z_-]+ (?:halt|cycler|translated|backward|undecided|below) [^\n]*"
    rb"|(?:[0-9][LR][A-Z]|---|_)+(?: below)?)\n"
    rb"|[0-9A-Za-z_ -]*\Z"
)


def _has_start(directory: Directory, name: str, kind: str) -> bool:
    """Whether a name leads to a regular file that starts like the run's file `kind`, or like a chunk."""
    status = directory.status(name)
    if status is None or not stat.S_ISREG(status.st_mode):
        return False
    if CHUNK.fullmatch(kind) or kind.endswith(".json"):
        return begins_sealed(directory, name)
    with open(directory.open_file(name, os.O_RDONLY), "rb") as file:
        found = file.read(_EXAMINED)
    if kind not in _STARTS:
        return _LINE.match(found) is not None
    if kind == LOCK:
        return not found
    start = _STARTS[kind].encode()
    return found[: len(start)] == start[: len(found)]


def _is_leftover(directory: Directory, name: str) -> bool:
    """Whether a file was being written here when a run was ended."""
    of = part_of(name)
    return of is not None and (of in FILES or bool(CHUNK.fullmatch(of))) and _has_start(directory, name, of)


def remove_leftovers(directory: Directory, names: Sequence[str]) -> None:
    """Removes unfinished files with these names of a run that was ended. Raises OSError."""
    for name in directory.names():
        if (of := part_of(name)) in names and of is not None and _has_start(directory, name, of):
            directory.remove(name)


def _require_kind(directory: Directory, name: str, kind: int) -> None:
    """Raises FolderError for a name that leads to something else than `kind`, a regular file or a folder."""
    status = directory.status(name)
    if status is not None and stat.S_IFMT(status.st_mode) != kind:
        found, wanted = kind_of(status), "folder" if kind == stat.S_IFDIR else "file"
        why = f"is {found}, and a run has a {wanted} there; take it away, or give another folder"
        raise FolderError(f"{directory.at(name)} {why}")


def require_regular(directory: Directory, names: Sequence[str]) -> None:
    for name in names:
        _require_kind(directory, name, stat.S_IFREG)


@contextlib.contextmanager
def _open_pass(top: Directory, name: str) -> Iterator[Directory]:
    """The folder of a pass. Raises FolderError for a link or a file."""
    _require_kind(top, name, stat.S_IFDIR)
    with contextlib.closing(top.subdirectory(name)) as inside:
        yield inside


def require_own(top: Directory, known_passes: int | None) -> None:
    """Raises FolderError for foreign files; without `known_passes` each has to prove to be a run's."""
    names = top.names()
    passes = [name for name in names if PASS.fullmatch(name)]
    checked = (README, VERDICTS, SUMMARY, LOCK) if passes else (LOCK,)
    for name in names if known_passes is None else ():
        is_own = name == RUN or name in passes or (name in checked and _has_start(top, name, name))
        if not (is_own or _is_leftover(top, name)):
            raise _foreign_error(top, name)
    require_regular(top, (*FILES, LOCK))
    for name in passes:
        if known_passes is None:
            require_own_pass(top, name)
        elif int(name[len(PASS_PREFIX) :]) <= known_passes:
            with _open_pass(top, name) as inside, os.scandir(inside.handle) as entries:
                found = [entry for entry in entries if not entry.is_file(follow_symlinks=False)]
                require_regular(inside, [entry.name for entry in found if CHUNK.fullmatch(entry.name)])
                _require_new(top, inside.names())


def _foreign_error(directory: Directory, name: str) -> FolderError:
    return FolderError(f"{directory.path} has other files in it, as {name}; give an empty folder")


def _require_new(top: Directory, names: Sequence[str]) -> None:
    """Raises FolderError for the files of a pass that an earlier version of this package wrote."""
    old = next((name for name in _OLD if name in names), None)
    if old is not None:
        why = f"has a pass with {old}, which another version of this package wrote"
        raise FolderError(f"{top.path} {why}; finish it by that version, or give another folder")


def require_own_pass(top: Directory, name: str) -> None:
    with _open_pass(top, name) as inside:
        names = inside.names()
        _require_new(top, names)
        for one in names:
            if not (CHUNK.fullmatch(one) and _has_start(inside, one, one)) and not _is_leftover(inside, one):
                raise _foreign_error(inside, one)


def require_other_list(top: Directory, listed: FileId | None) -> None:
    """Raises FolderError if the list is one of the run's files here, by a link too."""
    if listed is None:
        return
    own = [name for name in top.names() if name in (*FILES, LOCK) or part_of(name) in FILES]
    for name in filter(PASS.fullmatch, top.names()):
        status = top.status(name)
        if status is not None and stat.S_ISDIR(status.st_mode):
            with _open_pass(top, name) as inside, os.scandir(inside.handle) as entries:
                own += [os.path.join(name, entry.name) for entry in entries if entry.inode() == listed[1]]
    for name in own:
        with contextlib.suppress(OSError):
            if id_of(os.stat(name, dir_fd=top.handle)) == listed:
                what = "which a run in that folder writes; give another"
                raise FolderError(f"the list is {top.at(name)}, {what}")


def require_separate_list(path: str, list_id: FileId | None) -> None:
    if os.path.isdir(path):
        with contextlib.closing(Directory.open(path)) as top:
            require_other_list(top, list_id)


_PAGE = pathlib.Path(__file__).parents[1] / "folder.txt"
_UNPUBLISHED = "They can't be published: to publish them, start with --check, in another folder."


def as_argument(path: str) -> str:
    """A path for a command line: one that begins with `-` gets `./`."""
    return os.path.join(os.curdir, path) if path.startswith("-") else path


# The options of `budlarem run` that have verdicts checked, the stronger ones behind.
CHECK, CHECK_HERE = "--check", "--check-here"
CHECKS = ("", CHECK, CHECK_HERE)


@dataclasses.dataclass
class RunConfig:
    """The configuration of a run. `list_lines` is known once the first pass has seen the end. `check` is one of
    CHECKS."""

    passes: list[Limits]
    keep: Retention
    identity: Identity
    list_name: str
    list_bytes: int | None = None
    list_lines: int | None = None
    check: str = ""

    def text(self) -> str:
        fields = {
            "passes": [words_of(limits) for limits in self.passes],
            "keep": str(self.keep),
            **({"check": self.check} if self.check else {}),
            "list": {"name": self.list_name, "bytes": self.list_bytes, "lines": self.list_lines},
            **dataclasses.asdict(self.identity),
        }
        return seal(fields)

    def hash(self) -> str:
        return hash_of(self.text().encode())

    def readme(self, folder: str) -> str:
        """The text of `README.txt`: the files of the folder and the commands for it."""
        is_piped = self.list_name == STANDARD_INPUT
        listed = "-" if is_piped else as_argument(self.list_name)
        words = ["budlarem", "run", listed, "--out", as_argument(folder)]
        for limits in self.passes:
            words += ["--pass", words_of(limits)]
        words += [self.check] if self.check else []
        verdicts = "a verdict for each line of the list, in its order"
        if self.keep.only_holdouts:
            words += ["--keep", str(self.keep)]
            verdicts = "the verdicts that are kept (%s), in order" % self.keep
        return string.Template(_PAGE.read_text(encoding="utf-8")).substitute(
            list=escape_hidden(self.list_name),
            same=",\nwith the same list on standard input" if is_piped else "",
            verdicts=verdicts,
            resume=shlex.join(words),
            check=self._check_commands(as_argument(folder), [] if is_piped else ["--list", listed]),
            version=self.identity.version,
            commit=self.identity.commit,
        )

    def _check_commands(self, folder: str, listed: Sequence[str]) -> str:
        """The commands that check the verdicts again, and publish them."""
        check = shlex.join(["budlarem", "check", os.path.join(folder, VERDICTS)])
        archive = as_argument(os.path.basename(os.path.abspath(folder)) + ".tar")
        what = "the verdicts again, and to publish them"
        if self.keep.only_holdouts and not self.check:
            return f"To check the kept verdicts again:\n\n    {check}\n\n{_UNPUBLISHED}"
        if self.keep.only_holdouts:
            what = "the kept verdicts again, and to publish them with digests of the\nrest"
            # Without all verdicts the list is needed.
            listed = listed or ["--list", "LIST"]
        publish = shlex.join(["budlarem", "publish", archive, "--verdicts", folder, *listed])
        return "To check %s:\n\n    %s\n    %s" % (what, check, publish)

    @classmethod
    def of_fields(cls, fields: dict[str, Any] | None) -> RunConfig | None:
        """The configuration with these sealed fields, if there are any."""
        if fields is None:
            return None
        passes, keep = list(map(limits_of, fields["passes"])), parse_retention([fields["keep"]])
        name, size, lines = (fields["list"][role] for role in ("name", "bytes", "lines"))
        return cls(passes, keep, Identity.of_fields(fields), name, size, lines, fields.get("check", ""))

    @classmethod
    def load(cls, top: Directory) -> RunConfig | None:
        """The configuration in a folder; None if missing or truncated. Raises FolderError if it was changed."""
        require_regular(top, (RUN,))
        try:
            return cls.of_fields(read_sealed(top, RUN))
        except SealError as error:
            raise FolderError("%s: %s" % (top.at(RUN), error)) from None

    def origin(self, passes: int) -> dict[str, str]:
        """What the chunks of the last of so many passes belong to."""
        words = " ".join(map(words_of, self.passes[:passes]))
        return {"passes": words, "keep": str(self.keep), "library": self.identity.library}


class Folder:
    """The folder of a run, locked for this process, by the handle of the opened directory. `list_id` is the
    list's file, if it is one. Raises FolderError if another process has the lock, the folder has foreign
    files, or the run would write the list; OSError."""

    def __init__(self, path: str, list_id: FileId | None = None) -> None:
        self.path = path
        if os.path.exists(path) and not os.path.isdir(path):
            raise FolderError("%s is a file; give a folder, which need not exist yet" % path)
        os.makedirs(path, exist_ok=True)
        with contextlib.ExitStack() as stack:
            self._top = stack.enter_context(contextlib.closing(Directory.open(path)))
            try:
                self._locked = stack.enter_context(locked_folder(self._top, LOCK, waits=False))
            except BlockingIOError:
                raise FolderError("another run works in %s; wait for its end, or end it" % path) from None
            require_other_list(self._top, list_id)
            config = self.read_config()
            require_own(self._top, None if config is None else len(config.passes))
            self._targets: dict[str, FileTarget] = {}
            for name in FILES:
                self._targets[name] = stack.enter_context(contextlib.closing(FileTarget(self._top, name)))
            self.close = stack.pop_all().close

    def require_name(self) -> None:
        """Raises MovedError if its path leads elsewhere, RunError if its lock is lost."""
        self._top.require_name()
        if self._locked is not None and self._top.id_at(LOCK) != id_of(os.fstat(self._locked)):
            raise RunError("%s was removed or replaced while the run worked" % self._top.at(LOCK))

    def read_config(self) -> RunConfig | None:
        """Its configuration; None if missing or truncated. Raises FolderError if it was changed."""
        return RunConfig.load(self._top)

    def require_free(self, numbers: Iterable[int]) -> None:
        """Raises FolderError if the folder of a new pass has foreign files."""
        for name in map(pass_name, numbers):
            if self._top.status(name) is not None:
                require_own_pass(self._top, name)

    def write(self, name: str, text: str) -> None:
        remove_leftovers(self._top, FILES)
        data = text.encode("utf-8", "surrogateescape")
        self._targets[name].write([data])

    def write_verdicts(self, passes: Sequence[PassFolder]) -> Checksum:
        """Writes the verdicts of all passes, and returns their checksum. Raises RunError, OSError."""
        total = Checksum()

        def blocks() -> Iterator[bytes]:
            nonlocal total
            for block in merge_passes(passes):
                total = total.add_bytes(block) if len(passes) > 1 else total
                yield block

        self._targets[VERDICTS].write(blocks())
        return total if len(passes) > 1 else passes[0].checksum()

    def open_pass(self, config: RunConfig, number: int) -> PassFolder:
        found = PassFolder(self._top, number, config.origin(number))
        self._top.sync()
        found.store.remove_leftovers()
        return found


class FinishedRun:
    """The folder of a finished run. `verdicts` is the path of its verdicts; `passes`, `keep`, `identity` and `lines`
    come from `run.json`, `results` of each pass from `summary.json`, which are sealed. Raises FolderError, OSError.
    """

    def __init__(self, path: str) -> None:
        with contextlib.ExitStack() as stack:
            self._top = stack.enter_context(contextlib.closing(Directory.open(path)))
            self.verdicts = self._top.at(VERDICTS)
            config, fields = self._read()
            self.passes, self.keep, self.identity = config.passes, config.keep, config.identity
            self.lines: int = config.list_lines or 0
            self.results = list(map(PassResult.of_fields, fields["passes"]))
            self._counts: Counts = fields["counts"]
            self.checksum = Checksum.of_fields(fields["verdicts"])
            self.close = stack.pop_all().close

    def _read(self) -> tuple[RunConfig, dict[str, Any]]:
        """The configuration and the summary."""
        path = self._top.path
        if self._top.status(RUN) is None:
            raise FolderError(f"{path} is a folder, but not of `budlarem run`; give a file of verdict lines")
        config = RunConfig.load(self._top)
        if config is None or config.list_lines is None:
            raise FolderError("%s has no whole %s: that run isn't finished; resume it" % (path, RUN))
        for name in (SUMMARY, VERDICTS):
            if self._top.status(name) is None:
                raise FolderError("%s has no %s: that run isn't finished; resume it" % (path, name))
        try:
            os.close(self._top.open_file(VERDICTS, os.O_RDONLY))
            fields = read_sealed(self._top, SUMMARY)
        except (KindError, SealError) as error:
            raise FolderError("%s: %s" % (self._top.at(SUMMARY), error)) from None
        if fields is None or fields["run"] != config.hash():
            raise self._mismatch_error(RUN, "it is of another run, or of fewer passes")
        return config, fields

    def _mismatch_error(self, other: str, why: str) -> FolderError:
        text = "%s doesn't match %s: %s; run that folder's command again, which writes both"
        return FolderError(text % (self._top.at(SUMMARY), other, why))

    def require_verdicts(self, checksum: Checksum, counts: Mapping[str, int]) -> None:
        """Raises FolderError unless verdicts with this checksum and these counts are those of the summary."""
        for kind, known in self._counts.items():
            if known != counts[kind]:
                why = "it counts %d %s, and there are %d" % (known, kind, counts[kind])
                raise self._mismatch_error(VERDICTS, why)
        if self.checksum != checksum:
            raise self._mismatch_error(VERDICTS, "the bytes differ")
        self._top.require_name()
