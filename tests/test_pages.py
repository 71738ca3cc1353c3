"""Each block of the first pages, in a clone without the kit: it does as the page says, or one sentence tells what would.

`test_recipes.py` runs those of the recipes.

With Debian's crates the clone has the programs and the library that cargo built. Without them, and without a
network, each block ends with the sentence that names them.
"""

import pathlib
import re
import shutil
from typing import Iterator

import pytest
from support import TOP, list_files, read_blocks
from support.repository import Done, Repository, repository_without_kit

PAGES = ("README.md", "docs/plain.md", "docs/limits.md", "docs/cover.md", "docs/recurrence.md")
# The usage of a program, and lines that are shown alone.
NO_COMMANDS = re.compile(r"\w+ (?:\w+ )?\[--|[0-9A-Z-]{3,}_")
GIVEN = {
    "list.txt": "1RB1LB_1LB1LA\n",
    "machines.txt": "1RB1LB_1LA1RZ\n1RA1RA\n0RB---_0LA---\n1RB1LC_1RC1RB_1RD0LE_1LA1LD_1RZ0LA\n",
}
SENTENCE = re.compile(r"build: cargo can't download its crates \(.*\); without a network install Debian's .*")
WAITS = "waiting for another process that builds out/plain"

pytestmark = pytest.mark.needs("cargo", "rustc", "make", "cc")


def clone(folder: pathlib.Path) -> Repository:
    """Copy the files of this repository, with their times, to where commands don't find the kit."""
    files = " ".join(list_files("--cached", "--others", "--exclude-standard"))
    return repository_without_kit(folder, files)


@pytest.fixture(scope="module")
def built(tmp_path_factory: pytest.TempPathFactory, plain_library: pathlib.Path) -> Repository:
    """A clone with what cargo built, at the times of its build."""
    made = clone(tmp_path_factory.mktemp("built"))
    workspace = plain_library.parents[2]
    shutil.copytree(workspace, made.top / workspace.relative_to(TOP))
    return made


@pytest.fixture(scope="module")
def unbuilt(tmp_path_factory: pytest.TempPathFactory) -> Repository:
    """A clone that finds neither Debian's crates nor a network."""
    folder = tmp_path_factory.mktemp("unbuilt")
    made = clone(folder)
    made.replace("plain/erase.py", "/usr/share/cargo/registry", str(folder / "none"))
    made.environment.update(CARGO_HOME=str(folder / "home"), CARGO_HTTP_PROXY="http://127.0.0.1:9")
    return made


def commands(page: str) -> Iterator[tuple[str, str, str]]:
    """Yield the blocks of commands of a page: the heading, the commands, and what the page shows of their output."""
    for heading, blocks in read_blocks(page).items():
        for block in blocks:
            lines = block.split("\n")
            prompts = [line[2:] for line in lines if line.startswith("$ ")]
            shown = [line for line in lines if prompts and not line.startswith("$ ")]
            if not NO_COMMANDS.match(block):
                yield heading, "\n".join(prompts) or block, "".join(line + "\n" for line in shown)


def begin_section(repository: Repository) -> None:
    """Leave only the files that a section needs."""
    kept = {name.split("/")[0] for name in list_files("--cached", "--others")} | {"out"}
    for path in repository.top.iterdir():
        if path.name not in kept:
            shutil.rmtree(path) if path.is_dir() else path.unlink()
    for name, text in GIVEN.items():
        repository.write(name, text)
    repository.run("./bb decide machines.txt > verdicts.txt")


def run(repository: Repository, script: str) -> Done:
    return repository.run("set -e\n" + script)


def test_pages_have_blocks() -> None:
    counts = {page: len(list(commands(page))) for page in PAGES}
    assert counts["docs/plain.md"] == 0 and all(counts[page] for page in PAGES if page != "docs/plain.md")


@pytest.mark.parametrize("page", PAGES)
def test_blocks_do_as_the_page_says(built: Repository, page: str) -> None:
    last = ""
    for heading, script, shown in commands(page):
        if heading != last:
            begin_section(built)
        last = heading
        if "skeleton.txt" in script:
            write_skeleton(built)
        done = run(built, script)
        assert done.returncode == 0, (script, done.stderr)
        assert not re.search("not found|Traceback|No such file", done.stderr), (script, done.stderr)
        assert shown in done.stdout, script


def write_skeleton(repository: Repository) -> None:
    """Write the skeleton of four states, by the package's command."""
    library = repository.top / "out/plain/target/release/libbb.so"
    words = 'PATH="$PWD:$PWD/tools:$PATH" /usr/bin/python3 -m budlarem shards shards --states 4 --steps 200'
    done = repository.run(
        words + " && cp shards/skeleton.txt .", PYTHONPATH="python/src", BB_LIBRARY=str(library)
    )
    assert done.returncode == 0, done.stderr


def test_blocks_name_what_is_missing(unbuilt: Repository) -> None:
    for script in [script for page in PAGES for _, script, _ in commands(page)]:
        done = run(unbuilt, script)
        # Two processes of a block may wait for the network for different times.
        lines = {re.sub(r"\d+ ms", "some ms", line) for line in done.stderr.splitlines()} - {WAITS}
        assert done.returncode == 3 and len(lines) == 1, (script, done.stderr)
        assert SENTENCE.fullmatch(lines.pop()), (script, done.stderr)
