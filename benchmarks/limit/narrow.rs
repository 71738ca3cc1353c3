//! A ring of 64 cells, which is one word, for runs that leave two cells of it free: the steps of a pair meet no
//! other end. Configurations are compared exactly, by three words.

use crate::registers::{Registers, Step};
use crate::search::{End, Tape, cycler, look};
use crate::table::{RIGHT, STATE, Table};
use crate::{Limits, Verdict};

/// The most cells where the head may have been. With `--cfg flat` nearly all runs go to the flat tape.
const MOST_CELLS: u32 = if cfg!(flat) { 1 } else { 62 };
/// How many pairs of steps come first, and the pair with which each is compared.
const PAIRS: usize = 16;
const PARTNERS: [usize; PAIRS] = [0, 0, 1, 1, 3, 3, 3, 3, 7, 7, 7, 7, 7, 7, 7, 7];
/// A state that no entry has.
const NO_STATE: u64 = 63;

/// The records of a side: how many there are, and what is kept of one.
#[derive(Clone, Copy)]
struct Records {
    count: u64,
    entry: u64,
    step: u64,
    kept_count: u64,
    tape: u64,
    /// The cells where the head was since, and those of them that are beyond the record's.
    since: u64,
    beyond: u64,
}

/// The records on the left and on the right.
pub struct Narrow {
    sides: [Records; 2],
}

impl Narrow {
    #[inline(always)]
    pub fn new() -> Narrow {
        let none = Records {
            count: 0,
            entry: NO_STATE,
            step: 0,
            kept_count: 0,
            tape: 0,
            since: 0,
            beyond: 0,
        };
        Narrow { sides: [none; 2] }
    }

    /// Compares the record just made with the kept one of its side, and keeps it where its distance from
    /// the start is a power of two. Returns the verdict where both agree.
    #[inline(always)]
    fn record(&mut self, seen: u64, step: &Step) -> Option<Verdict> {
        let is_right = step.entry & RIGHT != 0;
        let side = &mut self.sides[is_right as usize];
        side.count += 1;
        side.beyond |= step.cell;
        let shift = side.count - side.kept_count;
        let moved = if is_right { shift } else { shift.wrapping_neg() };
        let differing = side.tape ^ step.tape.rotate_right(moved as u32 & 63);
        let inside = side.since & seen & !side.beyond;
        if differing & inside | (side.entry ^ step.entry) & STATE == 0 {
            let length = inside.count_ones() as usize;
            let letter = if is_right { 'R' } else { 'L' };
            let shift = shift as usize;
            return Some(Verdict::Translated((
                letter,
                side.step,
                step.number,
                shift,
                length,
            )));
        }
        if side.count.is_power_of_two() {
            *side = Records {
                count: side.count,
                entry: step.entry,
                step: step.number,
                kept_count: side.count,
                tape: step.tape,
                since: step.cell,
                beyond: 0,
            };
        }
        None
    }
}

impl Tape for Narrow {
    #[inline(always)]
    fn start(&self) -> Registers {
        Registers::start(1 << 32)
    }

    /// Looks at each of these steps by itself, and for a cycle after them: nothing comes between.
    #[inline(always)]
    fn open<const CYCLES: bool, const RECORDS: bool>(
        &mut self,
        run: &mut Registers,
        table: &Table,
        limits: &Limits,
    ) -> Result<u64, End> {
        if cfg!(flat) || limits.steps < 2 * PAIRS as u64 || limits.cells <= 2 * PAIRS {
            return Ok(0);
        }
        let mut places = [[0; PAIRS]; 3];
        for pair in 0..PAIRS {
            let number = 2 * pair as u64 + 1;
            let first = run.make_first(table, number);
            look::<_, RECORDS>(self, run, &first, limits)?;
            let last = run.make_second(table, number + 1);
            look::<_, RECORDS>(self, run, &last, limits)?;
            places[0][pair] = run.tape;
            places[1][pair] = run.head;
            places[2][pair] = run.entry & STATE;
        }
        let is_same = |pair: usize| {
            let differ = places
                .iter()
                .fold(0, |found, one| found | (one[pair] ^ one[PARTNERS[pair]]));
            differ == 0
        };
        if CYCLES {
            let same = (1..PAIRS).fold(0u32, |found, pair| found | (is_same(pair) as u32) << pair);
            if same != 0 {
                return Err(Some(cycler(2 * same.trailing_zeros() as u64 + 2)));
            }
        }
        Ok(2 * PAIRS as u64)
    }

    #[inline(always)]
    fn keep(&mut self, run: &mut Registers) {
        run.keep();
    }

    #[inline(always)]
    fn is_same(&mut self, _: &Registers) -> bool {
        true
    }

    #[inline(always)]
    fn enter<const RECORDS: bool>(
        &mut self,
        run: &mut Registers,
        step: &Step,
        limits: &Limits,
    ) -> Result<(), End> {
        let cells = run.unseen.count_zeros();
        if cells as usize == limits.cells {
            return Err(Some(Verdict::NoCells));
        }
        if cells >= MOST_CELLS {
            return Err(None);
        }
        run.unseen ^= step.cell;
        if RECORDS {
            for side in &mut self.sides {
                side.since |= run.visited;
            }
            run.visited = run.head;
            if let Some(found) = self.record(!run.unseen, step) {
                return Err(Some(found));
            }
        }
        Ok(())
    }

    #[inline(always)]
    fn center(&mut self, _: &mut Registers) {}

    #[inline(always)]
    fn score(&mut self, tape: u64) -> u64 {
        tape.count_ones() as u64
    }
}
