//! The searches for cycles and for records that agree, each alone and both in a single pass.

use crate::Verdict;
use crate::machine::{Machine, Next};
use crate::run::{Outcome, Run, Step, Tape};

/// What a position is multiplied by to give its key.
const ODD: u64 = 0x9e37_79b9_7f4a_7c15;

/// Two records that agree: their side and steps, how far the two are apart, and how many cells agree.
pub type Translated = (char, u64, u64, usize, usize);

/// What was kept of a run: where it stood, and its tape, which is 0 outside the window.
pub struct Kept {
    pub run: Run,
    pub cells: Vec<u8>,
}

impl Kept {
    pub fn new(tape: &Tape) -> Kept {
        Kept {
            run: Run::start(tape),
            cells: vec![0; tape.cells.len()],
        }
    }

    #[inline(never)]
    pub fn keep(&mut self, run: Run, tape: &Tape) {
        self.clear();
        self.cells[run.low..=run.high].copy_from_slice(&tape.cells[run.low..=run.high]);
        self.run = run;
    }

    pub fn clear(&mut self) {
        self.cells[self.run.low..=self.run.high].fill(0);
    }

    /// Whether a run, which has gone on from here, is at the same configuration.
    #[inline(always)]
    pub fn is_same(&self, run: &Run, tape: &Tape) -> bool {
        run.position == self.run.position && run.state == self.run.state && self.has_same_cells(run, tape)
    }

    #[inline(never)]
    pub fn has_same_cells(&self, run: &Run, tape: &Tape) -> bool {
        self.cells[run.low..=run.high] == tape.cells[run.low..=run.high]
    }

    /// Whether the record that a run has just made agrees with this one, since which the head has come back
    /// to `nearest`: how far the two are apart, and how many cells agree.
    #[inline(never)]
    pub fn agreement(&self, nearest: usize, run: &Run, tape: &Tape) -> Option<(usize, usize)> {
        let kept = &self.run;
        if kept.steps == 0 || kept.state != run.state {
            return None;
        }
        let (from, to) = (nearest.min(kept.position), nearest.max(kept.position));
        let shift = run.position.abs_diff(kept.position);
        let other = from + run.position - kept.position;
        let length = to - from + 1;
        (self.cells[from..=to] == tape.cells[other..other + length]).then_some((shift, length))
    }
}

impl Tape {
    pub fn clear(&mut self, run: &Run) {
        self.cells[run.low..=run.high].fill(0);
    }

    /// How a run ended that makes no further step.
    #[inline(never)]
    #[cold]
    pub fn ending(&mut self, run: Run, machine: &Machine, most_steps: u64) -> Outcome {
        let symbol = self.cells[run.position];
        let entry = machine.entries[run.state as usize][symbol as usize];
        match entry.next {
            Next::Undefined => self.halt(run.low, run.high, run.steps),
            _ if run.steps == most_steps => Outcome::NoSteps,
            Next::Halt => {
                self.cells[run.position] = entry.write;
                self.halt(run.low, run.high, run.steps + 1)
            }
            Next::State => Outcome::NoCells,
        }
    }

    /// The verdict of what was found, or of how the run ended without; blanks what the run wrote.
    pub fn verdict(
        &mut self,
        found: Option<Verdict>,
        run: Run,
        machine: &Machine,
        most_steps: u64,
    ) -> Verdict {
        let verdict = found.unwrap_or_else(|| self.ending(run, machine, most_steps).into());
        self.clear(&run);
        verdict
    }

    /// The first step whose configuration is that of the greatest power of two below it, and where the run
    /// ended.
    #[inline(never)]
    pub fn cycle(
        &mut self,
        kept: &mut Kept,
        machine: &Machine,
        most_steps: u64,
    ) -> (Option<(u64, u64)>, Run) {
        let mut run = Run::start(self);
        kept.clear();
        kept.run = run;
        let mut next_kept = 0;
        let found = loop {
            if let Step::Ended = run.step(self, machine, most_steps) {
                break None;
            }
            if kept.is_same(&run, self) {
                break Some((kept.run.steps, run.steps));
            }
            if run.steps >= next_kept {
                kept.keep(run, self);
                next_kept = 2 * run.steps;
            }
        };
        (found, run)
    }

    /// The first record that agrees with that of its side whose number is the greatest power of two below its
    /// own, and where the run ended.
    #[inline(never)]
    pub fn translation(
        &mut self,
        right: &mut Kept,
        left: &mut Kept,
        machine: &Machine,
        most_steps: u64,
    ) -> (Option<Translated>, Run) {
        let start = self.most_cells;
        let mut run = Run::start(self);
        for kept in [&mut *right, &mut *left] {
            kept.clear();
            kept.run = run;
        }
        let (mut least, mut greatest) = (start, start);
        let found = loop {
            let step = run.step(self, machine, most_steps);
            least = least.min(run.position);
            greatest = greatest.max(run.position);
            let (side, kept, nearest) = match step {
                Step::Inside => continue,
                Step::Ended => break None,
                Step::WiderRight => ('R', &mut *right, &mut least),
                Step::WiderLeft => ('L', &mut *left, &mut greatest),
            };
            if let Some((shift, length)) = kept.agreement(*nearest, &run, self) {
                break Some((side, kept.run.steps, run.steps, shift, length));
            }
            if run.position.abs_diff(start) >= 2 * kept.run.position.abs_diff(start) {
                kept.keep(run, self);
                *nearest = run.position;
            }
        };
        (found, run)
    }

    /// The same search, ended too by the first step whose state, position and fingerprint are those of the
    /// greatest power of two below it: then it tells so. Before such a step no configuration is that of the
    /// greatest power of two below it. A step that widens the window is no such step.
    #[inline(never)]
    pub fn watched<const WEAK: bool>(
        &mut self,
        right: &mut Kept,
        left: &mut Kept,
        machine: &Machine,
        most_steps: u64,
    ) -> (Option<Translated>, bool, Run) {
        let start = self.most_cells;
        let mut run = Run::start(self);
        for kept in [&mut *right, &mut *left] {
            kept.clear();
            kept.run = run;
        }
        let (mut least, mut greatest) = (start, start);
        let mut print = 0_u64;
        let mut mark = Mark {
            print,
            position: start,
            state: 0,
        };
        let mut next_mark = 0;
        loop {
            let step = run.watched_step(self, machine, most_steps, |at, old, new| {
                print =
                    print.wrapping_add(key::<WEAK>(at).wrapping_mul((new as u64).wrapping_sub(old as u64)));
            });
            match step {
                Step::Inside => {
                    least = least.min(run.position);
                    greatest = greatest.max(run.position);
                    if print == mark.print && run.position == mark.position && run.state == mark.state {
                        return (None, true, run);
                    }
                }
                Step::Ended => {
                    return (None, false, run);
                }
                Step::WiderRight => {
                    greatest = run.position;
                    match right.met('R', least, run, self) {
                        Ok(nearest) => least = nearest,
                        Err(found) => return (Some(found), false, run),
                    }
                }
                Step::WiderLeft => {
                    least = run.position;
                    match left.met('L', greatest, run, self) {
                        Ok(nearest) => greatest = nearest,
                        Err(found) => return (Some(found), false, run),
                    }
                }
            }
            if run.steps >= next_mark {
                mark = Mark {
                    print,
                    position: run.position,
                    state: run.state,
                };
                next_mark = 2 * run.steps;
            }
        }
    }
}

impl Kept {
    /// Takes in a record of a side, since the kept one of which the head came back to `nearest`: to where it
    /// has come back since the one that is kept then, or, as an error, the pair that agrees.
    #[cold]
    #[inline(never)]
    pub fn met(&mut self, side: char, nearest: usize, run: Run, tape: &Tape) -> Result<usize, Translated> {
        if let Some((shift, length)) = self.agreement(nearest, &run, tape) {
            return Err((side, self.run.steps, run.steps, shift, length));
        }
        let start = tape.most_cells;
        if run.position.abs_diff(start) < 2 * self.run.position.abs_diff(start) {
            return Ok(nearest);
        }
        self.keep(run, tape);
        Ok(run.position)
    }
}

/// What is kept of a configuration to compare others with.
#[derive(Clone, Copy, PartialEq)]
pub struct Mark {
    pub print: u64,
    pub position: usize,
    pub state: u8,
}

/// By how much a symbol of a position counts in the fingerprint.
#[inline(always)]
pub fn key<const WEAK: bool>(position: usize) -> u64 {
    if WEAK {
        return 1;
    }
    let product = (position as u64).wrapping_mul(ODD);
    product ^ (product >> 29)
}
