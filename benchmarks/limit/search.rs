//! The search for a verdict in one run, on a tape of either kind.

use crate::registers::{Registers, Step};
use crate::table::{RIGHT, STOP, Table};
use crate::{Limits, Verdict};

/// How a run ends: with a verdict, or with none where the tape is too narrow for it.
pub type End = Option<Verdict>;

/// A tape, 64 cells of which are in registers.
pub trait Tape {
    /// The registers at the start.
    fn start(&self) -> Registers;

    /// Makes some first steps, and returns how many: none or a power of two.
    fn open<const CYCLES: bool, const RECORDS: bool>(
        &mut self,
        run: &mut Registers,
        table: &Table,
        limits: &Limits,
    ) -> Result<u64, End>;

    /// Keeps the configuration, to compare those of later steps with.
    fn keep(&mut self, run: &mut Registers);

    /// Whether the configuration is the kept one, if it is so in registers.
    fn is_same(&mut self, run: &Registers) -> bool;

    /// Takes in the cell to which a step has led, and clears what was visited. The error ends the run.
    fn enter<const RECORDS: bool>(
        &mut self,
        run: &mut Registers,
        step: &Step,
        limits: &Limits,
    ) -> Result<(), End>;

    /// Brings the head to the middle, where it is at an edge of what is in registers.
    fn center(&mut self, run: &mut Registers);

    /// How many cells aren't blank.
    fn score(&mut self, tape: u64) -> u64;
}

/// Makes a run from its start, and tells how it ends: with no error where it is undecided by its steps.
#[inline(always)]
pub fn search<T: Tape, const CYCLES: bool, const RECORDS: bool>(
    tape: &mut T,
    table: &Table,
    limits: &Limits,
) -> Result<(), End> {
    let mut run = tape.start();
    let even = limits.steps & !1;
    // how many steps are made when no pairs are left
    let mut due = tape.open::<CYCLES, RECORDS>(&mut run, table, limits)?;
    while due < even {
        if CYCLES && due != 0 {
            tape.keep(&mut run);
        }
        let next = if CYCLES { even.min(2.max(2 * due)) } else { even };
        run.left = (next - due) / 2;
        due = next;
        while run.left != 0 {
            run.advance(table);
            let left = run.left.max(1);
            let number = due - 2 * (left - 1);
            if run.entry & STOP | run.visited & run.unseen != 0 {
                let (first, second) = (run.first(number - 1), run.second(number));
                look::<T, RECORDS>(tape, &mut run, &first, limits)?;
                look::<T, RECORDS>(tape, &mut run, &second, limits)?;
                tape.center(&mut run);
            }
            if run.is_kept() && tape.is_same(&run) {
                return Err(Some(cycler(number)));
            }
            run.left = left - 1;
        }
    }
    let mut last = run.second(even);
    if limits.steps != even {
        last = run.make_first(table, limits.steps);
        look::<T, RECORDS>(tape, &mut run, &last, limits)?;
    }
    if last.is_last(table) {
        return Err(Some(Verdict::Halt {
            steps: limits.steps,
            score: tape.score(last.tape),
        }));
    }
    Ok(())
}

/// Looks at a step: whether it halts, which is in its tape, or leads to another cell.
#[inline(always)]
pub fn look<T: Tape, const RECORDS: bool>(
    tape: &mut T,
    run: &mut Registers,
    step: &Step,
    limits: &Limits,
) -> Result<(), End> {
    if step.entry & STOP != 0 {
        let is_step = step.entry & RIGHT != 0;
        let steps = step.number - !is_step as u64;
        return Err(Some(Verdict::Halt {
            steps,
            score: tape.score(step.tape),
        }));
    }
    if step.cell & run.unseen != 0 {
        tape.enter::<RECORDS>(run, step, limits)?;
    }
    Ok(())
}

/// The verdict of a step whose configuration is the kept one.
pub fn cycler(second: u64) -> Verdict {
    Verdict::Cycler {
        first: 1 << (63 - (second - 1).leading_zeros()),
        second,
    }
}
