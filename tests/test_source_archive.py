"""The archive of the plain workspace: the same bytes twice, built with a bare PATH, without home and network."""

import os
import pathlib
import subprocess
import tarfile

import pytest
from support import TOP, ListMachines, require
from support.examples import require_examples
from support.program import as_lines, run_command

DOCUMENTS = {"README.md", "plain.md", "bb.1", "bb.h", "Cargo.lock"}
LICENCES = ("LICENSE*", "COPYING*", "UNLICENSE*")

pytestmark = pytest.mark.slow


@pytest.fixture(scope="module")
def archives(plain: pathlib.Path, tmp_path_factory: pytest.TempPathFactory) -> list[pathlib.Path]:
    """The archive, made twice."""
    assert plain.exists()
    require("git", "cc")
    folders = [tmp_path_factory.mktemp(name) for name in ("one", "another")]
    for folder in folders:
        subprocess.run([str(TOP / "plain" / "archive.py"), str(folder)], check=True)
    return [path for folder in folders for path in folder.iterdir()]


@pytest.fixture(scope="module")
def workspace(archives: list[pathlib.Path], tmp_path_factory: pytest.TempPathFactory) -> pathlib.Path:
    """The folder that the archive holds."""
    top = tmp_path_factory.mktemp("unpacked")
    with tarfile.open(archives[0]) as archive:
        archive.extractall(top)
    (folder,) = top.iterdir()
    return folder


@pytest.fixture(scope="module")
def bare() -> dict[str, str]:
    """An environment without a home and a network; Debian's cargo is used, or else the one of `rustc`."""
    bare_path = "/usr/bin:/bin"
    if not os.access("/usr/bin/cargo", os.X_OK):
        root = subprocess.run(["rustc", "--print", "sysroot"], stdout=subprocess.PIPE, check=True, text=True)
        bare_path = root.stdout.strip() + "/bin:" + bare_path
    return {"PATH": bare_path, "HOME": "/nonexistent", "CARGO_NET_OFFLINE": "true"}


@pytest.fixture(scope="module")
def built(workspace: pathlib.Path, bare: dict[str, str]) -> pathlib.Path:
    """The folder of the programs that are built there, by the command of its README."""
    assert "`cargo build --release`" in (workspace / "README.md").read_text()
    subprocess.run(["cargo", "build", "--release", "--quiet"], cwd=workspace, env=bare, check=True)
    return workspace / "target" / "release"


def test_two_archives_have_the_same_bytes(archives: list[pathlib.Path]) -> None:
    one, another = archives
    assert one.name == another.name and one.read_bytes() == another.read_bytes()


def test_dependencies_have_licences(workspace: pathlib.Path) -> None:
    assert DOCUMENTS <= {path.name for path in workspace.iterdir()}
    dependencies = list((workspace / "vendor").iterdir())
    assert {"arrayvec", "clap", "itoa", "memchr"} <= {path.name.rpartition("-")[0] for path in dependencies}
    without = [path.name for path in dependencies if not any(list(path.glob(name)) for name in LICENCES)]
    assert without == []


def test_programs(built: pathlib.Path, list_machines: ListMachines) -> None:
    require_examples(str(built / "bb"))
    assert run_command([str(built / "bb"), "--version"]).output.endswith(b" (plain)\n")
    decided = run_command([str(built / "bb"), "decide"], as_lines(list_machines(3)))
    covered = run_command([str(built / "cover")], decided.output)
    assert covered.status == 0 and covered.output.startswith(b"covers 3 states 2 symbols: ")


def test_library(built: pathlib.Path, workspace: pathlib.Path, tmp_path: pathlib.Path) -> None:
    source, made = str(TOP / "examples" / "c" / "decide.c"), str(tmp_path / "decide")
    command = ["cc", "-I", str(workspace), source, str(built / "libbb_c.a"), "-lm", "-o", made]
    subprocess.run(command, check=True)
    assert run_command([made, "1RB1LB_1LA1RZ"]).output == b"1RB1LB_1LA1RZ halt 6 4\n"


@pytest.mark.usefixtures("built")
def test_tests_of_the_crates(workspace: pathlib.Path, bare: dict[str, str]) -> None:
    command = ["cargo", "test", "--quiet"]
    done = subprocess.run(command, cwd=workspace, env=bare, capture_output=True, text=True)
    assert done.returncode == 0, done.stdout + done.stderr
    assert done.stdout.count("test result: ok") > 10
