"""The runner over dask, with a double of dask: what is lost, and how it is handed over again."""

from __future__ import annotations

import io
import unittest.mock
from concurrent.futures import CancelledError, Future
from typing import Any, Callable

import pytest
from budlarem.commands import build_parser, run as command
from budlarem.runner import chunks, dask, progress, replies
from budlarem.runner.errors import DeadWorkersError, RunError
from python.tests.runner import SMALL, call_command

LINES = b"1RZ---\n1RA1RA\n0RZ---\n1LA1LA\n1LZ---\n"


class KilledWorker(Exception):
    """As dask's."""


class DoubleFuture:
    """dask's future, which a test ends."""

    def __init__(self, work: tuple[Any, ...]) -> None:
        self.work, self.status, self.found = work, "pending", None
        self.callbacks: list[Callable[[DoubleFuture], None]] = []

    def add_done_callback(self, function: Callable[[DoubleFuture], None]) -> None:
        self.callbacks.append(function)

    def end(self, status: str = "finished", found: Any = None) -> None:
        """Ends it with a reply or an error, or with that of its work."""
        function, *given = self.work
        self.status, self.found = status, function(*given) if found is None else found
        for callback in self.callbacks:
            callback(self)

    def exception(self, seconds: float) -> Any:
        return self.found

    def result(self, seconds: float) -> Any:
        if isinstance(self.found, BaseException):
            raise self.found
        return self.found


class DoubleClient:
    """A client that does what a test says. `given` has the futures of what was handed over."""

    def __init__(self, *address: str, **how: Any) -> None:
        self.status, self.scheduler_comm, self.loop = "running", object(), object()
        self.how = how
        self.dashboard_link = "http://page"
        self.workers: dict[str, int] = {"one": 1}
        self.given: list[DoubleFuture] = []

    def nthreads(self, callback_timeout: float) -> dict[str, int]:
        return self.workers

    def submit(self, *work: Any, key: str, pure: bool) -> DoubleFuture:
        if self.status == "closed":
            raise Exception("Tried sending message after closing")
        assert not pure
        self.given.append(DoubleFuture(work))
        return self.given[-1]


class Dask:
    """The package `distributed`; `refuses` is what is raised where a client is made."""

    KilledWorker = KilledWorker

    def __init__(self) -> None:
        self.clients: list[DoubleClient] = []
        self.refuses: Exception | None = None

    def Client(self, *address: str, **how: Any) -> DoubleClient:
        if self.refuses is not None:
            raise self.refuses
        self.clients.append(DoubleClient(*address, **how))
        return self.clients[-1]

    def Security(self, **files: Any) -> dict[str, Any]:
        return files


class ClusterCase:
    """The place that the workers of a scheduler are, over a double of dask."""

    def __init__(self, double: Dask) -> None:
        self.dask, self.sentences = double, [""]
        self.place = dask.DaskBackend("tcp://there:8786", {}, self.sentences.append)

    @property
    def client(self) -> DoubleClient:
        return self.dask.clients[-1]

    def submit(self) -> Future[Any]:
        return self.place.submit(replies.Request(chunks.decide, LINES, SMALL.numbers()))

    def maintain(self) -> None:
        """A look at the scheduler that is due."""
        self.place._next = 0.0
        self.place.maintain()

    def answer_all(self, *futures: Future[Any]) -> None:
        """Ends all tasks well, and requires the replies of these futures."""
        written, _, *rest = replies.reply_to(chunks.decide, LINES, SMALL.numbers())
        while self.client.given:
            self.client.given.pop().end()
        for future in futures:
            assert future.result(0)[0] == written and list(future.result(0)[2:]) == rest


@pytest.fixture
def double(monkeypatch: pytest.MonkeyPatch) -> ClusterCase:
    package = Dask()
    monkeypatch.setattr(dask, "import_distributed", lambda: package)
    return ClusterCase(package)


def test_replies_and_errors_come_back(double: ClusterCase) -> None:
    future = double.submit()
    double.answer_all(future)
    assert double.sentences[1:] == ["dask's page is at http://page"]
    assert double.place._submitted == set()
    errors = (ModuleNotFoundError("No module named 'budlarem'"), KilledWorker("it was tried on 4 workers"))
    for error, kind in zip(
        (*errors, OSError("no library")), (ModuleNotFoundError, DeadWorkersError, OSError)
    ):
        future = double.submit()
        double.client.given.pop().end("error", error)
        assert isinstance(future.exception(0), kind)
    double.dask.refuses = OSError("nobody there")
    with pytest.raises(RunError, match="no scheduler answers at tcp://there:1: nobody there"):
        dask.DaskBackend("tcp://there:1", {}, double.sentences.append)


@pytest.mark.parametrize(
    "status, error",
    [
        ("cancelled", CancelledError()),
        ("lost", TimeoutError()),
        ("finished", OSError("the connection broke")),
    ],
)
def test_lost_work_is_handed_over_again(double: ClusterCase, status: str, error: Exception) -> None:
    """All futures are cancelled once the scheduler leaves; a reply may be forgotten, or out of reach."""
    futures = [double.submit(), double.submit()]
    while double.client.given:
        double.client.given.pop().end(status, error)
    double.maintain()
    assert len(double.client.given) == 2
    assert not any(future.done() for future in futures)
    double.answer_all(*futures)


def test_a_reply_that_cannot_be_read(double: ClusterCase) -> None:
    unread, other = double.submit(), double.submit()
    double.client.given.pop(0).end("finished", ImportError("no such class"))
    with pytest.raises(ImportError, match="no such class"):
        unread.result(0)
    double.answer_all(other)


def test_a_broken_connection(double: ClusterCase) -> None:
    """Of what went by it nothing may ever come; what comes nevertheless is passed over."""
    future = double.submit()
    before = double.client.given.pop()
    double.maintain()
    assert double.client.given == []
    double.client.status, double.client.scheduler_comm = "connecting", None
    double.maintain()
    assert "doesn't answer" in double.sentences[-1]
    waiting = double.submit()
    assert double.client.given == []
    double.client.status, double.client.scheduler_comm = "running", object()
    double.maintain()
    assert len(double.client.given) == 2
    for status, found in (("finished", "of the connection before"), ("cancelled", CancelledError())):
        before.end(status, found)
        assert not future.done()
    double.maintain()
    assert len(double.client.given) == 2
    double.answer_all(future, waiting)


def test_a_closed_client_is_made_anew(double: ClusterCase) -> None:
    future = double.submit()
    first = double.client
    first.status = "closed"
    double.dask.refuses = OSError("nobody there")
    for _ in range(3):
        double.maintain()
    waiting = double.submit()
    assert [text for text in double.sentences if "no scheduler" in text] == double.sentences[-1:]
    double.dask.refuses = None
    double.maintain()
    assert double.client is not first
    assert double.client.how["loop"] is first.loop
    assert len(double.client.given) == 2
    double.answer_all(future, waiting)
    assert "has 1 workers" in double.sentences[-1]


def test_workers_that_go_and_come(double: ClusterCase) -> None:
    double.client.workers = {}
    for _ in range(3):
        double.maintain()
    assert (double.sentences[2:], double.place.width()) == ([double.sentences[-1]], 4)
    assert "no workers" in double.sentences[-1]
    double.client.workers = {"one": 4, "two": 3}
    double.maintain()
    assert "has 2 workers" in double.sentences[-1]
    assert (double.place.width(), double.place.status()) == (14, "2 workers")


def place(*words: str) -> Any:
    asked = build_parser().parse_args(["run", "list", "--out", "folder", *words])
    return command.make_backend(asked, progress.Progress(io.StringIO()).print_line)


def test_options_and_a_missing_dask() -> None:
    with pytest.raises(ValueError, match="give one of them"):
        place("--scheduler", "there", "--threads", "2")
    for name in command.TLS:
        with pytest.raises(ValueError, match="which isn't given"):
            place("--" + name, "file")
    double = Dask()
    words = [word for name in command.TLS for word in ("--" + name, __file__)]
    with unittest.mock.patch.object(dask, "import_distributed", lambda: double):
        place("--scheduler", "tls://there:8786", *words)
        with pytest.raises(ValueError, match="--tls-key missing/key.pem can't be read: No such file"):
            place("--scheduler", "tls://there:8786", *words, "--tls-key", "missing/key.pem")
    files: dict[str, Any] = {name: __file__ for name in ("tls_ca_file", "tls_client_cert", "tls_client_key")}
    assert double.clients[0].how["security"] == {**files, "require_encryption": True}
    assert len(double.clients) == 1
    with unittest.mock.patch.dict("sys.modules", {"distributed": None}):
        status, printed = call_command("run", "list", "--out", "folder", "--scheduler", "there:8786")
    assert status == 3 and "dask isn't installed" in printed
