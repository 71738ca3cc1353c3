"""The examples write what stands beside them, or what has the sha256 that does."""

import hashlib
import subprocess

import pytest
from support import TOP
from support.examples import require_examples

# Of each line a sha256, and the commands whose output has it.
PIPELINES = [line.split("  ", 1) for line in (TOP / "examples/three_states/sha256").read_text().splitlines()]


@pytest.mark.parametrize("build", ["bb", "plain"])
def test_examples_write_their_expected_output(request: pytest.FixtureRequest, build: str) -> None:
    """By the program, and by the one that cargo builds."""
    built = request.getfixturevalue(build)
    require_examples(str(built / "bb") if build == "plain" else built)


@pytest.mark.usefixtures("bb", "list_machines")
@pytest.mark.parametrize("digest, commands", PIPELINES)
def test_pipeline_writes_what_has_its_sha256(digest: str, commands: str) -> None:
    words: list[str] = ["bash", "-o", "pipefail", "-c", commands]
    output = subprocess.run(words, cwd=TOP, stdout=subprocess.PIPE, check=True).stdout
    assert output.count(b"\n") == 5_417
    assert hashlib.sha256(output).hexdigest() == digest
