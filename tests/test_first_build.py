"""The first command without the kit: which programs it builds, shows and runs, and how it ends where it can't.

Each test runs the scripts over a small repository, whose programs print one word.
"""

import os
import pathlib
import re
import shutil

import pytest
from support import TOP
from support.repository import Done, Repository, repository_without_kit

FILES = "Makefile bb cover recurrence tools/run_built tools/build_info.py include/bb.h plain/erase.py plain/build.py"
CRATES = "bb: arrayvec\ncover: bb_machine\nrecurrence:\nbb_machine:\nbb_c staticlib:\n"
PROGRAM = """//! Prints a word.
use std::process::ExitCode;

fn main(rt: HostRuntime) -> ExitCode {
    let _ = println!(rt; "%s");
    ExitCode::SUCCESS
}
"""
# The programs are small, and needn't be fast.
QUICK = {"CARGO_PROFILE_RELEASE_LTO": "off", "CARGO_PROFILE_RELEASE_OPT_LEVEL": "0"}
# Targets that need the kit, each with the command that the sentence names.
TARGETS = dict.fromkeys(("bb", "cover", "recurrence"), "`make plain`")
TARGETS.update({"library": "`make plain-library`", "web": "", "npm": ""})
# A script in the place of cargo and rustc, and words of the sentence.
OLD = 'case ${0##*/} in cargo) echo "cargo 1.65.0";; *) echo "rustc 1.63.0";; esac'
TOOLS = {OLD: ["cargo 1.65.0 is too old", "1.88", "rustc-web", "cargo-web"]}
TOOLS["echo 'no default is configured' >&2; exit 1"] = ["`cargo --version` prints no version", "rustup"]
pytestmark = pytest.mark.needs("cargo", "rustc", "make", "cc")


@pytest.fixture
def repository(tmp_path: pathlib.Path) -> Repository:
    """A small repository whose commands don't find the kit."""
    made = repository_without_kit(tmp_path, FILES)
    made.environment.update(QUICK)
    shutil.copytree(TOP / "plain" / "shim", made.top / "plain" / "shim")
    made.write("crates.txt", CRATES)
    for name in ("bb", "cover", "recurrence"):
        made.write("crates/%s/src/main.rt" % name, PROGRAM % name)
    for name in ("bb_machine", "bb_c"):
        made.write("crates/%s/src/lib.rt" % name, "//! Nothing.\n")
    return made


def require_sentence(done: Done, *words: str, status: int = 3) -> None:
    """Check that a command ended with one sentence, which has these words."""
    assert (done.returncode, done.stdout) == (status, "")
    assert done.stderr.count("\n") == 1 and all(word in done.stderr for word in words), done.stderr


@pytest.mark.usefixtures("registry")
def test_edited_sources_are_built(repository: Repository, tmp_path: pathlib.Path) -> None:
    """Also where cargo is told to build elsewhere, and where the edited file is as old as before."""
    assert repository.run("./bb").stdout == "bb\n"
    assert repository.run("./bb").stderr == ""
    source = repository.top / "crates" / "bb" / "src" / "main.rt"
    times = source.stat()
    repository.replace("crates/bb/src/main.rt", '"bb"', '"second"')
    os.utime(source, ns=(times.st_atime_ns, times.st_mtime_ns))
    assert repository.run("./bb", CARGO_TARGET_DIR=str(tmp_path / "elsewhere")).stdout == "second\n"
    repository.write(".cargo/config.toml", '[build]\ntarget-dir = "elsewhere"\n')
    repository.replace("crates/bb/src/main.rt", '"second"', '"third"')
    assert repository.run("./bb").stdout == "third\n"
    (repository.top / "out/plain/target/release/bb").unlink()
    assert repository.run("./bb").stdout == "third\n"
    host = re.search("host: (.*)", repository.run("rustc -vV").stdout)
    assert host
    repository.write(".cargo/config.toml", '[build]\ntarget = "%s"\n' % host[1])
    repository.replace("crates/bb/src/main.rt", '"third"', '"fourth"')
    done = repository.run("./bb")
    assert (done.returncode, done.stdout) == (3, "") and "remove `build.target`" in done.stderr
    assert not (tmp_path / "elsewhere").exists() and not (repository.top / "elsewhere").exists()


@pytest.mark.usefixtures("registry")
def test_only_changed_crates_are_compiled(repository: Repository) -> None:
    """And each is named, with its number."""
    named = re.findall(r"building (\w+) by cargo, crate (\d+) of (\d+)\n", repository.run("./bb").stderr)
    assert {"bb", "cover", "recurrence", "bb_machine", "rattle_std", "arrayvec"} == {row[0] for row in named}
    assert [row[1:] for row in named] == [(str(place), "6") for place in range(1, 7)]
    repository.replace("crates/cover/src/main.rt", '"cover"', '"other"')
    done = repository.run("./cover")
    assert done.stdout == "other\n" and re.findall(r"building (\w+)", done.stderr) == ["cover"]


@pytest.mark.usefixtures("registry")
def test_two_at_once(repository: Repository) -> None:
    done = repository.run("./bb | (./cover; cat)")
    assert (done.returncode, done.stdout) == (0, "cover\nbb\n"), done.stderr
    assert done.stderr.count("waiting for another process that builds out/plain\n") == 1
    assert done.stderr.count("building rattle_std by cargo") == 1 and "Traceback" not in done.stderr


@pytest.mark.usefixtures("registry")
def test_links_to_the_programs(repository: Repository, tmp_path: pathlib.Path) -> None:
    (tmp_path / "any").symlink_to(repository.top / "recurrence")
    (tmp_path / "folder").mkdir()
    (tmp_path / "folder" / "other").symlink_to("../any")
    assert repository.run("cd / && %s" % (tmp_path / "folder" / "other")).stdout == "recurrence\n"


def test_no_cargo(repository: Repository) -> None:
    (repository.bin / "cargo").unlink()
    if shutil.which("cargo", path="/usr/bin:/bin"):
        pytest.skip("cargo is in /usr/bin")
    require_sentence(repository.run("./bb"), "cargo isn't installed", "rustc-web", "cargo-web", "rustup")


@pytest.mark.parametrize("script, words", TOOLS.items())
def test_cargo_that_cannot_build(repository: Repository, script: str, words: list[str]) -> None:
    for name in ("cargo", "rustc"):
        repository.add_program(name, script)
    require_sentence(repository.run("./cover"), *words)


@pytest.mark.parametrize("present", [[], ["clap-4.0.32"], ["arrayvec-0.7.2", "clap-4.0.32", "itoa-1.0.1"]])
def test_no_registry(repository: Repository, tmp_path: pathlib.Path, present: list[str]) -> None:
    """Debian's registry takes the place of the other only if it has all four crates."""
    for name in present:
        (tmp_path / "debian" / name).mkdir(parents=True)
    repository.replace("plain/erase.py", "/usr/share/cargo/registry", str(tmp_path / "debian"))
    offline = {"CARGO_HOME": str(tmp_path / "home"), "CARGO_HTTP_PROXY": "http://127.0.0.1:9"}
    done = repository.run("./bb decide", **offline)
    absent = {"arrayvec", "clap", "itoa", "memchr"} - {name.partition("-")[0] for name in present}
    require_sentence(done, "can't download", *("librust-%s-dev" % name for name in absent))
    assert done.stderr.count("librust-") == len(absent)


@pytest.mark.parametrize("target", TARGETS)
def test_targets_that_need_the_kit(repository: Repository, target: str) -> None:
    done = repository.run("make " + target)
    require_sentence(done, "`make %s` needs the Rattle kit" % target, TARGETS[target], status=2)
    assert bool(TARGETS[target]) == (" by cargo" in done.stderr)


def test_errors_of_the_compiler(repository: Repository) -> None:
    repository.replace("crates/bb/src/main.rt", "ExitCode::SUCCESS", "missing")
    done = repository.run("./bb")
    assert done.returncode == 3 and "cannot find value `missing`" in done.stderr
    assert "Running" not in done.stderr and done.stderr.endswith("build: cargo ended with status 101\n")


def test_rustc_gets_no_job_server(repository: Repository) -> None:
    shutil.copy(TOP / "tools" / "tree_normal_form.rs", repository.top / "tools")
    (repository.top / "Makefile").open("a").write('flags:\n\t@echo "flags $$MAKEFLAGS"\n')
    done = repository.run("make -j3 flags lister && tools/out/tree_normal_form --states 1 --symbols 2")
    assert done.stdout.startswith("flags \n") and (done.returncode, done.stderr) == (0, "")
