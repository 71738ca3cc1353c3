//! The limit beside the yardstick of `measure.py`: what plain Rust can do where nothing but time counts.
//!
//! It takes the words of `peer` for one run and writes the same bytes, for machines of two symbols and up to
//! seven states. A machine's table is two words. A tape of up to 62 cells is one word and the head one bit, and
//! configurations are compared exactly. A step is twelve instructions without a branch, in assembly; steps are
//! made in pairs, with one look at what came up. The first 32 steps are made without a count, and looked at for
//! a cycle after them. A run that needs more cells begins again on a flat tape, of which 64 cells at a time are
//! in registers. A line is read 64 bytes at once. A tree is refused at a node that has an endless path before
//! it. The column of a refusal is that of `peer`, and so is a tree of more than 64 levels. It proves nothing,
//! and is no part of the program. It takes x86-64 with AVX2 and BMI2.

#[path = "../peer/machine.rs"]
#[allow(dead_code)]
mod machine;
#[path = "../peer/walk.rs"]
mod walk;

mod flat;
mod narrow;
mod registers;
mod search;
mod table;
mod text;
mod tree;

use flat::Flat;
use machine::Machine;
use narrow::Narrow;
use search::search;
use std::env;
use std::io;
use std::process::ExitCode;
use table::Table;
use text::{Answers, Lines};
use tree::{Node, Open};
use walk::Frame;

/// Two records that agree: their side and steps, how far the two are apart, and how many cells agree.
pub type Translated = (char, u64, u64, usize, usize);

/// The verdict of a machine, in the order of the deciders.
pub enum Verdict {
    Halt { steps: u64, score: u64 },
    Cycler { first: u64, second: u64 },
    Translated(Translated),
    Backward { levels: usize, nodes: u64 },
    NoSteps,
    NoCells,
}

/// The limits, and the deciders that are on.
pub struct Limits {
    pub steps: u64,
    pub cells: usize,
    pub depth: usize,
    pub nodes: u64,
    cyclers: bool,
    translated: bool,
    backward: bool,
}

fn limits() -> Option<Limits> {
    let mut limits = Limits {
        steps: 1_000_000,
        cells: 65_536,
        depth: 300,
        nodes: 1_000_000,
        cyclers: true,
        translated: true,
        backward: true,
    };
    let mut words = env::args().skip(1);
    while let Some(word) = words.next() {
        match word.as_str() {
            "--steps" => limits.steps = words.next()?.parse().ok()?,
            "--cells" => limits.cells = words.next()?.parse().ok()?,
            "--depth" => limits.depth = words.next()?.parse().ok()?,
            "--nodes" => limits.nodes = words.next()?.parse().ok()?,
            "--no-cyclers" => limits.cyclers = false,
            "--no-translated" => limits.translated = false,
            "--no-backward" => limits.backward = false,
            "decide" => {}
            _ => return None,
        }
    }
    Some(limits)
}

/// What deciding needs beside a machine, made once for a list.
struct Room {
    flat: Flat,
    known: Vec<u8>,
    frames: Vec<Frame>,
    path: Vec<Node>,
}

impl Room {
    fn new(limits: &Limits) -> Room {
        Room {
            flat: Flat::new(limits.cells),
            known: vec![0; 2 * limits.depth + 1],
            frames: Vec::with_capacity(limits.depth),
            path: Vec::with_capacity(limits.depth.min(64)),
        }
    }

    /// The verdict of one run.
    #[inline(always)]
    fn run<const CYCLES: bool, const RECORDS: bool>(&mut self, table: &Table, limits: &Limits) -> Verdict {
        match search::<_, CYCLES, RECORDS>(&mut Narrow::new(), table, limits) {
            Ok(()) => Verdict::NoSteps,
            Err(Some(verdict)) => verdict,
            Err(None) => self.run_wide::<CYCLES, RECORDS>(table, limits),
        }
    }

    /// The same on the flat tape.
    #[inline(never)]
    fn run_wide<const CYCLES: bool, const RECORDS: bool>(
        &mut self,
        table: &Table,
        limits: &Limits,
    ) -> Verdict {
        self.flat.restart();
        match search::<_, CYCLES, RECORDS>(&mut self.flat, table, limits) {
            Ok(()) => Verdict::NoSteps,
            Err(verdict) => verdict.expect("a flat tape is wide enough"),
        }
    }

    /// The verdict of the tree, or that of the run where it finds nothing.
    #[inline(never)]
    fn backward(&mut self, table: &Table, line: &[u8], limits: &Limits, open: Verdict) -> Verdict {
        let found = match tree::backward(table, line.len() / 7 + 1, limits, &mut self.path) {
            Ok(found) => Some(found),
            Err(Open::Undecided) => None,
            Err(Open::Deep) => Machine::read(line)
                .ok()
                .and_then(|machine| walk::backward(&machine, limits, &mut self.known, &mut self.frames)),
        };
        found.map_or(open, |(levels, nodes)| Verdict::Backward { levels, nodes })
    }
}

/// Answers each line. Tells whether every line was a machine.
fn decide<const CYCLES: bool, const RECORDS: bool>(limits: &Limits) -> io::Result<bool> {
    let mut lines = Lines::new(io::stdin().lock());
    let mut answers = Answers::new(io::stdout().lock());
    let mut room = Room::new(limits);
    let mut is_clean = true;
    while let Some(line) = lines.front()? {
        if let Some((table, length)) = Table::read(line) {
            let mut verdict = room.run::<CYCLES, RECORDS>(&table, limits);
            if limits.backward && matches!(verdict, Verdict::NoSteps | Verdict::NoCells) {
                verdict = room.backward(&table, &line[..length], limits, verdict);
            }
            answers.add(line, length, &verdict)?;
            lines.pass(length);
            continue;
        }
        match Machine::read(&lines.take()?) {
            Ok(_) => unreachable!("all machines are read above"),
            Err(refused) => answers.refuse(refused.front + 1)?,
        }
        is_clean = false;
    }
    answers.flush()?;
    Ok(is_clean)
}

fn main() -> ExitCode {
    let Some(limits) = limits() else {
        return ExitCode::from(2);
    };
    let decided = match (limits.cyclers, limits.translated) {
        (true, true) => decide::<true, true>(&limits),
        (true, false) => decide::<true, false>(&limits),
        (false, true) => decide::<false, true>(&limits),
        (false, false) => decide::<false, false>(&limits),
    };
    match decided {
        Ok(true) => ExitCode::SUCCESS,
        Ok(false) => ExitCode::from(1),
        Err(_) => ExitCode::from(3),
    }
}
