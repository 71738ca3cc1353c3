"""The eraser of contracts: what it writes, what stops it, and how clean the workspace is."""

import pathlib
import re
import subprocess
import sys

import pytest
from support import TOP, require
from support.examples import require_examples

sys.path.insert(0, str(TOP))
from plain.erase import Source, plain as erase, write_workspace  # noqa: E402

CONTRACT = """/// The number after this one.
pub fn next(n: u8) -> u8
    requires { n < 255 }
    ensures after { result ≡ n + 1 }
{
    n + 1
}
"""
ERASED = """/// The number after this one.
// requires: n < 255
// ensures after: result ≡ n + 1
pub fn next(n: u8) -> u8

{
    n + 1
}
"""
# A text, and the line and the token that have no rule.
UNKNOWN = [
    ("fn f() { let requires = 1; }\n", "1: `requires`"),
    ("fn f()\n    ensures 1\n{}\n", "2: `ensures`"),
    ("fn f() -> u8 {\n    ghost\n}\n", "2: `ghost`"),
    ("fn f<ghost T>() {}\n", "1: `ghost`"),
    ("#![other]\n", "1: `other`"),
    ("\n\n#[other]\nfn f() {}\n", "3: `other`"),
    ("fn f() {\n    other!(1);\n}\n", "2: `other!`"),
]
# The conditions of code for Unix and for other systems, and what makes this system one of the others.
CONDITIONS = {
    "cfg(unix)": "cfg(any())",
    "cfg(not(unix))": "cfg(all())",
    "cfg(all(unix, not(test)))": "cfg(any())",
    "cfg(any(not(unix), test))": "cfg(all())",
    "cfg_attr(all(unix, not(test)), no_main)": "cfg_attr(any(), no_main)",
}


@pytest.fixture
def source(tmp_path: pathlib.Path) -> Source:
    """A source whose text a test writes."""
    return Source(tmp_path / "part.rt", "part.rt")


def test_clauses_become_comments(source: Source) -> None:
    source.path.write_text(CONTRACT, encoding="utf-8")
    assert erase(source).endswith(ERASED)


@pytest.mark.parametrize("text, place", UNKNOWN)
def test_unknown_words_stop_it(source: Source, text: str, place: str) -> None:
    source.path.write_text(text, encoding="utf-8")
    with pytest.raises(SystemExit) as stopped:
        erase(source)
    assert str(stopped.value).endswith("part.rt:%s has no rule" % place)


@pytest.mark.slow
def test_no_warnings_by_rustc_and_clippy(plain: pathlib.Path, tmp_path: pathlib.Path) -> None:
    """All crates but the shims, with their tests; `erase.py` lists the lints that are off."""
    require("cargo-clippy")
    workspace = plain.parents[1]
    command = ["cargo", "clippy", "--quiet", "--workspace", "--all-targets", "--target-dir", str(tmp_path)]
    done = subprocess.run([*command, "--", "-D", "warnings"], cwd=workspace, capture_output=True, text=True)
    assert (workspace / "bb_decide" / "Cargo.toml").exists()
    assert (done.returncode, done.stdout, done.stderr) == (0, "", "")


@pytest.mark.slow
@pytest.mark.usefixtures("plain")
def test_code_for_other_systems_than_unix(tmp_path: pathlib.Path) -> None:
    """Compiled here, it decides the examples as they are printed."""
    write_workspace(tmp_path)
    for path in tmp_path.glob("*/src/**/*.rs"):
        text = path.read_text(encoding="utf-8")
        for condition, other in CONDITIONS.items():
            text = text.replace(condition, other)
        assert not re.search(r"cfg\w*\(.*\bunix\b", text), path
        path.write_text(text, encoding="utf-8")
    subprocess.run("cargo build --quiet -p bb -p cover -p recurrence".split(), cwd=tmp_path, check=True)
    require_examples(str(tmp_path / "target" / "debug" / "bb"))
