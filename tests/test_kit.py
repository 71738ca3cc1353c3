"""What `tools/kit` adds to the kit: a choice that the source calls unpredictable has no branch."""

import pathlib

import pytest
from support import TOP
from support.program import conditional_moves, run_command

# A loop whose choice depends on the last one.
CODE = """//! Chooses a number by a bit, a thousand times.
use std::hint::select_unpredictable;
use std::process::ExitCode;

fn entry(is_one: bool, zero: u64, one: u64, state: u64) -> u64 {
    let entries = CHOICE;
    entries >> (state & 63)
}

fn main(rt: HostRuntime) -> ExitCode {
    let zero = 0x7777_1111_aaaa_u64;
    let one = 0x1234_5678_9abc_u64;
    let mut state = 0u64;
    let mut bits = 1u64;
    for step in 0..1000u64 {
        state = entry(bits & (1 << (state & 31)) != 0, zero, one, state);
        bits = bits.rotate_left((state & 7) as u32) ^ step;
    }
    ExitCode::from((state & 1) as u8)
}
"""
HINT = "select_unpredictable(is_one, one, zero)"
PLAIN = "if is_one { one } else { zero }"


def moves_of(top: pathlib.Path, choice: str) -> int:
    """Build the loop by `tools/kit` in a repository of its own; count the conditional moves of its main function."""
    source = top / "crates/chosen/src"
    source.mkdir(parents=True)
    (top / "HANDLES").write_text((TOP / "HANDLES").read_text())
    (top / "crates.txt").write_text("chosen:\n")
    used = CODE if choice == HINT else CODE.replace("use std::hint::select_unpredictable;\n", "")
    (source / "main.rt").write_text(used.replace("CHOICE", choice))
    built = source.parent / "out/chosen"
    done = run_command([str(TOP / "tools/kit"), "run", "--jobs", "1"], cwd=str(source.parent))
    assert built.exists() and b"logic=proved" in done.output + done.error, done.output.decode()
    return conditional_moves(str(built), "chosen::main")


@pytest.mark.needs("rt", "objdump")
def test_unpredictable_choices_have_no_branch(tmp_path: pathlib.Path) -> None:
    assert moves_of(tmp_path / "hint", HINT) > moves_of(tmp_path / "plain", PLAIN)
