//! A tape, and a run on it step by step.

use crate::machine::{Machine, Next};

/// How a run ends.
#[derive(Clone, Copy)]
pub enum Outcome {
    Halt { steps: u64, score: u64 },
    NoSteps,
    NoCells,
}

/// A flat tape on which no run within the limit of cells can leave either end.
pub struct Tape {
    pub cells: Vec<u8>,
    pub most_cells: usize,
}

/// What a list has cost: the steps of all runs, and the widest window of one.
#[derive(Default)]
pub struct Counts {
    pub steps: u64,
    pub widest: u64,
}

impl Tape {
    pub fn new(most_cells: usize) -> Tape {
        Tape {
            cells: vec![0; 2 * most_cells + 1],
            most_cells,
        }
    }

    /// Runs a machine from the middle of the blank tape, and blanks what it wrote.
    #[inline(never)]
    pub fn run(&mut self, machine: &Machine, most_steps: u64, counts: &mut Counts) -> Outcome {
        let start = self.most_cells;
        let (mut low, mut high) = (start, start);
        let mut position = start;
        let mut state = 0;
        let mut steps = 0;
        let outcome = loop {
            let symbol = self.cells[position];
            let entry = machine.entries[state as usize][symbol as usize];
            if entry.next == Next::Undefined {
                break self.halt(low, high, steps);
            }
            if steps == most_steps {
                break Outcome::NoSteps;
            }
            let to = position.wrapping_add_signed(entry.step as isize);
            if entry.next == Next::Halt {
                self.cells[position] = entry.write;
                steps += 1;
                break self.halt(low, high, steps);
            }
            if to < low {
                if high - to == self.most_cells {
                    break Outcome::NoCells;
                }
                low = to;
            } else if to > high {
                if to - low == self.most_cells {
                    break Outcome::NoCells;
                }
                high = to;
            }
            self.cells[position] = entry.write;
            position = to;
            state = entry.state;
            steps += 1;
        };
        self.cells[low..=high].fill(0);
        counts.steps += steps;
        counts.widest = counts.widest.max((high - low) as u64 + 1);
        outcome
    }

    pub fn halt(&self, low: usize, high: usize, steps: u64) -> Outcome {
        let score = self.cells[low..=high].iter().filter(|cell| **cell != 0).count() as u64;
        Outcome::Halt { steps, score }
    }
}

/// Where a run stands.
#[derive(Clone, Copy)]
pub struct Run {
    pub state: u8,
    pub position: usize,
    pub steps: u64,
    pub low: usize,
    pub high: usize,
}

/// What one step did.
pub enum Step {
    /// There is none within the limits, or it leads into the halting state.
    Ended,
    Inside,
    /// The window is wider on the left, or on the right.
    WiderLeft,
    WiderRight,
}

impl Run {
    pub fn start(tape: &Tape) -> Run {
        let start = tape.most_cells;
        Run {
            state: 0,
            position: start,
            steps: 0,
            low: start,
            high: start,
        }
    }

    #[inline(always)]
    pub fn step(&mut self, tape: &mut Tape, machine: &Machine, most_steps: u64) -> Step {
        self.watched_step(tape, machine, most_steps, |_, _, _| ())
    }

    /// Makes a step; `wrote` is told the cell, the symbol that it had, and the one that it has.
    #[inline(always)]
    pub fn watched_step(
        &mut self,
        tape: &mut Tape,
        machine: &Machine,
        most_steps: u64,
        wrote: impl FnOnce(usize, u8, u8),
    ) -> Step {
        let symbol = tape.cells[self.position];
        let entry = machine.entries[self.state as usize][symbol as usize];
        if entry.next != Next::State || self.steps == most_steps {
            return Step::Ended;
        }
        let to = self.position.wrapping_add_signed(entry.step as isize);
        let mut step = Step::Inside;
        if to < self.low {
            if self.high - to == tape.most_cells {
                return Step::Ended;
            }
            self.low = to;
            step = Step::WiderLeft;
        } else if to > self.high {
            if to - self.low == tape.most_cells {
                return Step::Ended;
            }
            self.high = to;
            step = Step::WiderRight;
        }
        tape.cells[self.position] = entry.write;
        wrote(self.position, symbol, entry.write);
        self.position = to;
        self.state = entry.state;
        self.steps += 1;
        step
    }
}
