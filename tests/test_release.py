"""The folder of the release, built twice from nothing in two clones of different names: the same bytes.

With the kit it has what is proved, else what cargo builds.
"""

import hashlib
import pathlib
import re
import subprocess

import pytest
from support import TOP, has_kit, require

# The files that only the kit builds.
OF_PAGE = {"bb.wasm", "bb.html", "bb.mjs"}
PROGRAMS = ["bb", "cover", "recurrence", "many_cores", "tree_normal_form"]
ALWAYS = {
    *PROGRAMS,
    *"CONTENTS README.txt bb.1 budlarem.1 cover.1 recurrence.1 bb.h decide.c libbb.a libbb.so".split(),
}
ALWAYS |= {
    "%s.%s" % (name, shell) for name in (*PROGRAMS[:3], "budlarem") for shell in ("bash", "zsh", "fish")
}

# The words of a compiler that have a program load the library from its folder.
LOADED = '-L. -lbb -Wl,-rpath,"$PWD"'

pytestmark = pytest.mark.slow


@pytest.fixture(scope="module")
def releases(request: pytest.FixtureRequest, tmp_path_factory: pytest.TempPathFactory) -> list[pathlib.Path]:
    """Two folders, each built at this commit in a clone of its own, which may prove all crates."""
    require("rustc", "pip3", modules=("setuptools", "wheel"))
    if has_kit():
        require("esbuild", "tsc", "npm")
    else:
        request.getfixturevalue("plain_library")
    top = tmp_path_factory.mktemp("release")
    commit = subprocess.check_output(["git", "rev-parse", "HEAD"], cwd=TOP, text=True).strip()
    folders = [top / "one", top / "another folder"]
    for folder in folders:
        subprocess.run(["git", "clone", "--quiet", str(TOP), str(folder)], check=True)
        command = ["git", "checkout", "--quiet", "--detach", commit]
        subprocess.run(command, cwd=folder, check=True)
        made = subprocess.run(["make", "-s", "release"], cwd=folder, stderr=subprocess.PIPE, text=True)
        assert made.returncode == 0 and "warning" not in made.stderr, made.stderr
    return [folder / "dist" for folder in folders]


@pytest.fixture(scope="module")
def release(releases: list[pathlib.Path]) -> pathlib.Path:
    """The first of the two."""
    return releases[0]


def test_contents_has_each_file_with_its_sha256(release: pathlib.Path) -> None:
    text = (release / "CONTENTS").read_text(encoding="utf-8")
    digests = {name: digest for digest, name in re.findall(r"^(\S+)  (\S+)$", text, flags=re.M)}
    files = {path.name: path for path in release.iterdir() if path.name != "CONTENTS"}
    assert digests == {name: hashlib.sha256(path.read_bytes()).hexdigest() for name, path in files.items()}
    assert ("\nkit " if has_kit() else "\nrustc ") in text and text.startswith("commit ")
    assert ALWAYS <= {*files, "CONTENTS"} and (OF_PAGE <= set(files)) == has_kit()
    assert len(list(release.glob("budlarem-*.tgz"))) == has_kit()
    (wheel,) = release.glob("budlarem-*.whl")
    assert ("+plain." not in wheel.name) == has_kit()
    assert len(list(release.glob("budlarem-*-src.tar.gz"))) == 1


def test_readme_has_each_file_and_the_command_that_checks_them(release: pathlib.Path) -> None:
    page = (release / "README.txt").read_text(encoding="utf-8").splitlines()
    assert {path.name for path in release.iterdir()} - {"README.txt"} <= set(page)
    assert any("`grep '  ' CONTENTS | sha256sum" in line for line in page)
    assert "`cc program.c %s`" % LOADED in " ".join(" ".join(page).split())
    assert ("no theorem covers that build" not in " ".join(page)) == has_kit()
    subprocess.run("grep '  ' CONTENTS | sha256sum --check --quiet", shell=True, cwd=release, check=True)


@pytest.mark.parametrize("name", PROGRAMS)
def test_program_prints_its_help(release: pathlib.Path, name: str) -> None:
    done = subprocess.run([str(release / name), "--help"], capture_output=True, text=True)
    assert done.returncode == 0 and name in done.stdout


@pytest.mark.parametrize(
    "command, output",
    [
        ("cc -I. decide.c libbb.a -o ../decide && ../decide 1RB1LB_1LA1RZ", "1RB1LB_1LA1RZ halt 6 4\n"),
        (
            'cc -I. decide.c %s -o ../loaded && cd / && "$OLDPWD"/../loaded 1RA1RA' % LOADED,
            "1RA1RA translated R 1 2 1 1\n",
        ),
        ("./tree_normal_form --states 2 | ./bb decide | ./cover", "covers 2 states 2 symbols: "),
    ],
)
def test_files_work_together(release: pathlib.Path, command: str, output: str) -> None:
    done = subprocess.run(command, shell=True, cwd=release, stdout=subprocess.PIPE, text=True)
    assert done.stdout.startswith(output)


def content_of(path: pathlib.Path) -> bytes:
    """Read a file, without the date in CONTENTS."""
    content = path.read_bytes()
    return re.sub(rb"(?m)^date .*\n", b"", content) if path.name == "CONTENTS" else content


def test_both_folders_have_the_same_bytes_but_for_the_date(releases: list[pathlib.Path]) -> None:
    one, another = ({path.name: content_of(path) for path in folder.iterdir()} for folder in releases)
    assert one.keys() == another.keys()
    assert [name for name in one if one[name] != another[name]] == []
