//! A flat tape of any width, of which 64 cells are in registers at a time.

use crate::registers::{Registers, Step};
use crate::search::{End, Tape};
use crate::table::{STATE, Table};
use crate::{Limits, Verdict};
use std::ops::RangeInclusive;

/// How many cells a word of the tape has. The window in registers has two words.
const WORD: usize = 32;
/// The cells of a window that a run leaves at once: none but the second step of a pair leads beyond them.
const EDGE: u64 = 3 << 62 | 3;
/// A state that no entry has, and a cell that no run comes to.
const NO_STATE: u64 = 63;
const NO_CELL: usize = usize::MAX;

/// Cells, each a bit.
struct Cells(Vec<u32>);

/// A kept record: its tape and cell, and the cell farthest from its side where the head was since.
struct Record {
    cells: Cells,
    state: u64,
    step: u64,
    cell: usize,
    farthest: usize,
}

/// A tape, the kept configurations, and a run. Cells are blank outside those from `low` to `high`, where
/// the head was.
pub struct Flat {
    cells: Cells,
    kept: Cells,
    kept_cell: usize,
    left: Record,
    right: Record,
    /// The first word of the window.
    word: usize,
    low: usize,
    high: usize,
    start: usize,
}

impl Cells {
    /// The 64 cells of two words.
    fn window(&self, word: usize) -> u64 {
        self.0[word] as u64 | (self.0[word + 1] as u64) << WORD
    }

    /// 64 cells from one on.
    fn from(&self, cell: usize) -> u64 {
        let (word, before) = (cell / WORD, cell % WORD);
        let last = (self.0[word + 2] as u64) << 1 << (63 - before);
        self.window(word) >> before | last
    }

    /// Whether cells from one on are those of another tape.
    fn agree(&self, cell: usize, other: &Cells, other_cell: usize, length: usize) -> bool {
        (0..length).step_by(64).all(|done| {
            let differing = self.from(cell + done) ^ other.from(other_cell + done);
            differing.trailing_zeros() as usize >= 64.min(length - done)
        })
    }
}

impl Record {
    fn new(words: usize) -> Record {
        Record {
            cells: Cells(vec![0; words]),
            state: NO_STATE,
            step: 0,
            cell: 0,
            farthest: 0,
        }
    }

    /// Compares the cells up to the farthest with those of a record of the same side, those next to the
    /// head first, and returns how many these are if all agree.
    fn agreement(&self, cells: &Cells, cell: usize) -> Option<usize> {
        let from = self.cell.min(self.farthest);
        let (other, length) = (from + cell - self.cell, self.cell.abs_diff(self.farthest) + 1);
        let near = length.min(64);
        let before = if from == self.cell { 0 } else { length - near };
        let is_same = self.cells.agree(from + before, cells, other + before, near)
            && self.cells.agree(from, cells, other, length);
        if is_same { Some(length) } else { None }
    }
}

impl Flat {
    /// A tape on which no run within the limit of cells can leave either end.
    pub fn new(most_cells: usize) -> Flat {
        let start = (most_cells / WORD + 3) * WORD;
        let words = 2 * start / WORD + 3;
        Flat {
            cells: Cells(vec![0; words]),
            kept: Cells(vec![0; words]),
            kept_cell: NO_CELL,
            left: Record::new(words),
            right: Record::new(words),
            word: 0,
            low: start,
            high: start,
            start,
        }
    }

    /// Blanks the tapes, and starts a run.
    pub fn restart(&mut self) {
        let words = self.words();
        for record in [&mut self.left, &mut self.right] {
            record.cells.0[words.clone()].fill(0);
            record.state = NO_STATE;
        }
        self.cells.0[words.clone()].fill(0);
        self.kept.0[words].fill(0);
        self.kept_cell = NO_CELL;
        self.word = self.start / WORD - 1;
        self.low = self.start;
        self.high = self.start;
    }

    /// The words in which the head was.
    fn words(&self) -> RangeInclusive<usize> {
        self.low / WORD..=self.high / WORD
    }

    /// Writes the window back to the tape.
    fn store(&mut self, tape: u64) {
        self.cells.0[self.word] = tape as u32;
        self.cells.0[self.word + 1] = (tape >> WORD) as u32;
    }

    /// Notes the cells where the head was.
    fn note(&mut self, run: &mut Registers) {
        self.right.farthest = self.right.farthest.min(self.cell(run.visited));
        let last = 63 - run.visited.leading_zeros() as usize;
        self.left.farthest = self.left.farthest.max(self.word * WORD + last);
        run.visited = run.head;
    }

    /// The cell of a bit of the window.
    fn cell(&self, bit: u64) -> usize {
        self.word * WORD + bit.trailing_zeros() as usize
    }

    /// Compares the record just made with the kept one of its side, and keeps it where its distance from
    /// the start is a power of two. Returns the verdict where both agree.
    fn record(&mut self, cell: usize, step: &Step) -> Option<Verdict> {
        self.store(step.tape);
        let (words, state, number) = (self.words(), step.entry & STATE, step.number);
        let (side, kept) = if cell > self.start {
            ('R', &mut self.right)
        } else {
            ('L', &mut self.left)
        };
        if kept.state == state {
            if let Some(length) = kept.agreement(&self.cells, cell) {
                let shift = cell.abs_diff(kept.cell);
                return Some(Verdict::Translated((side, kept.step, number, shift, length)));
            }
        }
        if cell.abs_diff(self.start).is_power_of_two() {
            kept.cells.0[words.clone()].copy_from_slice(&self.cells.0[words]);
            kept.state = state;
            kept.step = number;
            kept.cell = cell;
            kept.farthest = cell;
        }
        None
    }
}

impl Tape for Flat {
    fn start(&self) -> Registers {
        let mut run = Registers::start(1 << WORD);
        run.unseen |= EDGE;
        run
    }

    fn open<const CYCLES: bool, const RECORDS: bool>(
        &mut self,
        _: &mut Registers,
        _: &Table,
        _: &Limits,
    ) -> Result<u64, End> {
        Ok(0)
    }

    fn keep(&mut self, run: &mut Registers) {
        self.store(run.tape);
        let words = self.words();
        self.kept.0[words.clone()].copy_from_slice(&self.cells.0[words]);
        self.kept_cell = self.cell(run.head);
        run.keep();
    }

    fn is_same(&mut self, run: &Registers) -> bool {
        self.store(run.tape);
        let words = self.words();
        self.cells.0[words.clone()] == self.kept.0[words]
    }

    fn enter<const RECORDS: bool>(
        &mut self,
        run: &mut Registers,
        step: &Step,
        limits: &Limits,
    ) -> Result<(), End> {
        let cell = self.cell(step.cell);
        self.note(run);
        if self.low <= cell && cell <= self.high {
            return Ok(());
        }
        if self.high - self.low + 1 == limits.cells {
            return Err(Some(Verdict::NoCells));
        }
        self.low = self.low.min(cell);
        self.high = self.high.max(cell);
        run.unseen &= !step.cell | EDGE;
        if RECORDS {
            if let Some(found) = self.record(cell, step) {
                return Err(Some(found));
            }
        }
        Ok(())
    }

    /// Moves the window by a word where the head is at its edge, which is in its middle then.
    fn center(&mut self, run: &mut Registers) {
        if run.head & EDGE == 0 {
            return;
        }
        self.note(run);
        self.store(run.tape);
        if run.head >> WORD != 0 {
            self.word += 1;
            run.head >>= WORD;
        } else {
            self.word -= 1;
            run.head <<= WORD;
        }
        run.visited = run.head;
        let first = self.word * WORD;
        let (low, high) = (self.low.max(first) - first, self.high.min(first + 63) - first);
        run.tape = self.cells.window(self.word);
        run.first_tape = run.tape;
        run.unseen = !(!0 << low & !0 >> (63 - high)) | EDGE;
        run.kept_tape = self.kept.window(self.word);
        run.kept_head = match self.kept_cell.wrapping_sub(first) {
            bit if bit < 64 => 1 << bit,
            _ => 0,
        };
    }

    fn score(&mut self, tape: u64) -> u64 {
        self.store(tape);
        self.cells.0[self.words()]
            .iter()
            .map(|word| word.count_ones() as u64)
            .sum()
    }
}
