"""A small repository, with files of this one, and the commands that run in it."""

import os
import pathlib
import shutil
import subprocess

import pytest

from . import TOP
from .program import write_script

Done = subprocess.CompletedProcess[str]


class Repository:
    """A folder with copies of files of this repository; its commands find the programs of `bin` first."""

    def __init__(self, folder: pathlib.Path, files: str) -> None:
        self.top, self.bin = folder / "repository", folder / "bin"
        self.bin.mkdir()
        self.environment: dict[str, str] = {**os.environ, "PATH": "%s:/usr/bin:/bin" % self.bin}
        for name in files.split():
            (self.top / name).parent.mkdir(parents=True, exist_ok=True)
            shutil.copy2(TOP / name, self.top / name)

    def write(self, name: str, text: str) -> pathlib.Path:
        path = self.top / name
        path.parent.mkdir(parents=True, exist_ok=True)
        path.write_text(text)
        return path

    def replace(self, name: str, old: str, new: str) -> None:
        path = self.top / name
        assert old in path.read_text()
        path.write_text(path.read_text().replace(old, new))

    def add_program(self, name: str, script: str) -> None:
        """Put a script of the shell among the programs, in the place of one that is there."""
        write_script(self.bin / name, script)

    def start(self, command: str, **environment: str) -> "subprocess.Popen[str]":
        """Start a command of a shell at the top."""
        given = {**self.environment, **environment}
        words = ["sh", "-c", command]
        pipe = subprocess.PIPE
        return subprocess.Popen(words, cwd=self.top, env=given, stdout=pipe, stderr=pipe, text=True)

    def run(self, command: str, **environment: str) -> Done:
        """Run a command of a shell at the top."""
        with self.start(command, **environment) as process:
            output, error = process.communicate(timeout=300)
        return Done(command, process.returncode, output, error)


def repository_without_kit(folder: pathlib.Path, files: str) -> Repository:
    """Make a repository whose commands find cargo, but not the kit."""
    if shutil.which("rt", path="/usr/bin:/bin"):
        pytest.skip("the kit is in /usr/bin")
    made = Repository(folder, files)
    for name in ("cargo", "rustc", "rustfmt"):
        found = shutil.which(name)
        if found:
            (made.bin / name).symlink_to(found)
    return made
