"""The engine as WebAssembly in a process of Node."""

import contextlib
import json
import pathlib
import subprocess
from typing import Any, NamedTuple

from support import TOP, read_blocks
from support.program import run_command, words_of_plan

MODULE = TOP / "web" / "out" / "bb.wasm"


def documented_script(heading: str) -> str:
    """Return the script, which is the last block of code, below a heading of docs/web.md."""
    return read_blocks("docs/web.md")[heading][-1] + "\n"


class CallResult(NamedTuple):
    """A call's result: the program's status and bytes, or the error."""

    status: int
    reply: bytes
    answer: dict[str, Any]


class Engine(contextlib.ExitStack):
    """A Node process that answers calls until its `with` block ends; bytes pass through files in a folder."""

    def __init__(self, folder: object, module: object = MODULE, program: str = "") -> None:
        super().__init__()
        self.program = program
        command = ["node", str(TOP / "web" / "tests" / "engine.mjs"), str(module)]
        pipe = subprocess.PIPE
        process = self.enter_context(subprocess.Popen(command, stdin=pipe, stdout=pipe, text=True))
        assert process.stdin and process.stdout
        self.jobs, self.replies = process.stdin, process.stdout
        self.given, self.out = (pathlib.Path(str(folder)) / name for name in ("given", "out"))
        self.about = self.read_reply()

    def read_reply(self) -> dict[str, Any]:
        """Return the process's next line; empty at its end."""
        answer: dict[str, Any] = json.loads(self.replies.readline() or "{}")
        return answer

    def call(self, name: str, plan: dict[str, Any], given: bytes, **more: Any) -> CallResult:
        """Make a call, with limits and switches by name."""
        self.given.write_bytes(given)
        files = {"given": str(self.given), "out": str(self.out)}
        job: dict[str, Any] = {"call": name, "plan": plan, **files, **more}
        print(json.dumps(job), file=self.jobs, flush=True)
        answer = self.read_reply()
        if "clean" not in answer:
            return CallResult(2, b"", answer)
        return CallResult(0 if answer["clean"] else 1, self.out.read_bytes(), answer)

    def program_output(self, name: str, plan: dict[str, Any], given: bytes) -> bytes:
        """Return the program's output."""
        return run_command([self.program, name, *words_of_plan(plan)], given).output

    def require_same(self, name: str, plan: dict[str, Any], given: bytes) -> bytes:
        """Require a call's reply to be the program's, and return it."""
        found = self.call(name, plan, given)
        wanted = run_command([self.program, name, *words_of_plan(plan)], given)
        assert (found.status, found.reply) == (wanted.status, wanted.output), (name, plan, found.answer)
        return found.reply
