"""The npm package, installed by npm into an empty folder without a network."""

import pathlib
import subprocess

import pytest
from support import TOP
from web.tests.node import documented_script
from support.program import as_lines, run_command

pytestmark = pytest.mark.needs("node", "npm", "tsc")

MACHINES = ["1RB1LB_1LA1RZ", "1RA1RA", "1rB1LB"]
TYPED = """import { load, LimitsError, type Plan } from "budlarem";
const engine = await load(new Uint8Array());
const plan: Plan = { steps: 1_000, cyclers: false };
const lines: string[] = engine.decide(["1RB1LB_1LA1RZ"], plan);
const { clean }: { clean: boolean } = engine.trace("1RA1RA", { steps: 10n });
export default [lines, clean, LimitsError];
"""
TSC = "tsc --strict --noEmit --target es2022 --lib es2022 --module node16".split()
INSTALL = "npm install --offline --no-audit --no-fund --cache cache".split()


def package(folder: pathlib.Path) -> pathlib.Path:
    """Build the package in a folder."""
    done = run_command(["python3", str(TOP / "web" / "package.py"), "--out", str(folder)])
    assert done.status == 0, done.error
    return pathlib.Path(done.output.decode().strip())


@pytest.fixture(scope="module")
def installation(module: object, tmp_path_factory: pytest.TempPathFactory) -> pathlib.Path:
    """A folder with only the installed package."""
    folder = tmp_path_factory.mktemp("installation")
    made = package(tmp_path_factory.mktemp("package"))
    status, output, error = run_command([*INSTALL, str(made)], cwd=str(folder))
    assert status == 0, (output, error)
    return folder


def run(folder: pathlib.Path, script: str, given: list[str]) -> str:
    """Run a script in the folder, and return its output."""
    (folder / "script.mjs").write_text(script, encoding="utf-8")
    done = run_command(["node", "script.mjs"], as_lines(given), cwd=str(folder))
    assert done.status == 0, done.error
    return done.output.decode()


def test_same_bytes_again(module: object, tmp_path: pathlib.Path) -> None:
    one, other = package(tmp_path / "one"), package(tmp_path / "other")
    assert one.name == other.name and one.read_bytes() == other.read_bytes()


def test_examples_of_the_pages(bb: str, installation: pathlib.Path) -> None:
    limits = ["--steps", "100000", "--cells", "4096"]
    verdicts = run_command([bb, "decide", *limits], as_lines(MACHINES)).output
    wanted = (verdicts + run_command([bb, "check", *limits], verdicts).output).decode()
    assert run(installation, documented_script("From npm's package"), MACHINES) == wanted
    page = (installation / "node_modules" / "budlarem" / "README.md").read_text(encoding="utf-8")
    script = "".join(line[4:] + "\n" for line in page.splitlines() if line.startswith("    "))
    wanted = run_command([bb, "decide"], as_lines(MACHINES[:1])).output.decode()
    assert run(installation, script, []) == wanted


@pytest.mark.parametrize("name, is_right", [("steps", True), ("stepps", False)])
def test_types(installation: pathlib.Path, name: str, is_right: bool) -> None:
    """Types accept right calls, and reject a misspelled name. They need no types of a browser."""
    text = TYPED.replace("steps: 1_000", name + ": 1_000")
    (installation / "typed.mts").write_text(text, encoding="utf-8")
    done = subprocess.run([*TSC, "typed.mts"], cwd=installation, capture_output=True, text=True)
    assert (done.returncode == 0) == is_right, done.stdout
    assert is_right or "'stepps' does not exist in type 'Plan'" in done.stdout
