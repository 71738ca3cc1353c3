//! The yardstick of `measure.py`: what one would write by hand in plain Rust to do the work of
//!
//!     bb decide [--no-cyclers] [--no-translated] [--no-backward] --steps T --cells S --depth D --nodes N
//!
//! It reads a list of machines from standard input and writes a line for each: the same bytes, and
//! the same exit status. The tapes are flat arrays of bytes, and each access is checked against its
//! bounds. It proves nothing, and is no part of the program. Build it by
//! `rustc -O -C codegen-units=1 main.rs`: it reads machines of up to 7 states and 2 symbols then. With
//! `--cfg wide` it reads all that the program reads, and is slower.
//!
//! It decides in one of two forms, which write the same bytes. The first simulates to the limits, then
//! searches for cycles, then for records that agree. The second, asked for by `--single-pass`, watches one
//! run for a halt, for records, and for the agreement of a fingerprint of the tape: only after that does it
//! search for cycles, and where it finds none, for records. `--weak-keys` makes the fingerprint the sum of
//! the cells, so that it often agrees by chance.

mod machine;
mod run;
mod search;
mod walk;

use machine::{LONGEST_LINE, Machine};
use run::{Counts, Outcome, Tape};
use search::{Kept, Translated};
use std::env;
use std::io::{self, BufRead, BufReader, BufWriter, Read, Write};
use std::process::ExitCode;
use walk::{Frame, backward};

/// The verdict of a machine, in the order of the deciders.
enum Verdict {
    Halt { steps: u64, score: u64 },
    Cycler { first: u64, second: u64 },
    Translated(Translated),
    Backward { levels: usize, nodes: u64 },
    NoSteps,
    NoCells,
}

impl From<Outcome> for Verdict {
    fn from(outcome: Outcome) -> Verdict {
        match outcome {
            Outcome::Halt { steps, score } => Verdict::Halt { steps, score },
            Outcome::NoSteps => Verdict::NoSteps,
            Outcome::NoCells => Verdict::NoCells,
        }
    }
}

/// Reads a line without its newline, of which no more is kept than a refusal needs.
fn read_line(reader: &mut impl BufRead, line: &mut Vec<u8>) -> io::Result<bool> {
    line.clear();
    let mut any = false;
    loop {
        let buffered = reader.fill_buf()?;
        if buffered.is_empty() {
            return Ok(any);
        }
        any = true;
        let newline = buffered.iter().position(|byte| *byte == b'\n');
        let taken = newline.unwrap_or(buffered.len());
        let kept = taken.min(LONGEST_LINE + 1 - line.len());
        line.extend_from_slice(&buffered[..kept]);
        reader.consume(taken + newline.is_some() as usize);
        if newline.is_some() {
            return Ok(true);
        }
    }
}

struct Limits {
    steps: u64,
    cells: usize,
    depth: usize,
    nodes: u64,
    cyclers: bool,
    translated: bool,
    backward: bool,
    single_pass: bool,
    weak_keys: bool,
}

fn limits() -> Option<Limits> {
    let mut limits = Limits {
        steps: 1_000_000,
        cells: 65_536,
        depth: 300,
        nodes: 1_000_000,
        cyclers: true,
        translated: true,
        backward: true,
        single_pass: false,
        weak_keys: false,
    };
    let mut words = env::args().skip(1);
    while let Some(word) = words.next() {
        match word.as_str() {
            "--steps" => limits.steps = words.next()?.parse().ok()?,
            "--cells" => limits.cells = words.next()?.parse().ok()?,
            "--depth" => limits.depth = words.next()?.parse().ok()?,
            "--nodes" => limits.nodes = words.next()?.parse().ok()?,
            "--no-cyclers" => limits.cyclers = false,
            "--no-translated" => limits.translated = false,
            "--no-backward" => limits.backward = false,
            "--single-pass" => limits.single_pass = true,
            "--weak-keys" => limits.weak_keys = true,
            "decide" => {}
            _ => return None,
        }
    }
    Some(limits)
}

/// What deciding needs beside a machine, made once for a list.
struct Room {
    tape: Tape,
    right: Kept,
    left: Kept,
    known: Vec<u8>,
    frames: Vec<Frame>,
    counts: Counts,
}

impl Room {
    fn new(limits: &Limits) -> Room {
        let tape = Tape::new(limits.cells);
        Room {
            right: Kept::new(&tape),
            left: Kept::new(&tape),
            tape,
            known: vec![0; 2 * limits.depth + 1],
            frames: Vec::with_capacity(limits.depth),
            counts: Counts::default(),
        }
    }

    fn cycle(&mut self, machine: &Machine, limits: &Limits) -> Verdict {
        let (found, run) = self.tape.cycle(&mut self.right, machine, limits.steps);
        let found = found.map(|(first, second)| Verdict::Cycler { first, second });
        self.tape.verdict(found, run, machine, limits.steps)
    }

    fn translation(&mut self, machine: &Machine, limits: &Limits) -> Verdict {
        let (found, run) = self
            .tape
            .translation(&mut self.right, &mut self.left, machine, limits.steps);
        self.tape
            .verdict(found.map(Verdict::Translated), run, machine, limits.steps)
    }

    /// The verdict of a simulation, and after it of each search that is on.
    fn in_turn(&mut self, machine: &Machine, limits: &Limits) -> Verdict {
        let mut verdict = Verdict::from(self.tape.run(machine, limits.steps, &mut self.counts));
        if verdict.is_open() && limits.cyclers {
            verdict = self.cycle(machine, limits);
        }
        if verdict.is_open() && limits.translated {
            verdict = self.translation(machine, limits);
        }
        verdict
    }

    /// The same verdict, of one run where the fingerprint agrees with none of before.
    fn in_single_pass(&mut self, machine: &Machine, limits: &Limits) -> Verdict {
        match (limits.cyclers, limits.translated) {
            (false, false) => self.tape.run(machine, limits.steps, &mut self.counts).into(),
            (true, false) => self.cycle(machine, limits),
            (false, true) => self.translation(machine, limits),
            (true, true) => self.watched(machine, limits).unwrap_or_else(|| {
                let verdict = self.cycle(machine, limits);
                if verdict.is_open() {
                    self.translation(machine, limits)
                } else {
                    verdict
                }
            }),
        }
    }

    /// The verdict of one run that is watched; none where the fingerprint agreed.
    fn watched(&mut self, machine: &Machine, limits: &Limits) -> Option<Verdict> {
        let Room {
            tape, right, left, ..
        } = self;
        let (found, agreed, run) = if limits.weak_keys {
            tape.watched::<true>(right, left, machine, limits.steps)
        } else {
            tape.watched::<false>(right, left, machine, limits.steps)
        };
        if agreed {
            tape.clear(&run);
            return None;
        }
        Some(tape.verdict(found.map(Verdict::Translated), run, machine, limits.steps))
    }

    /// The verdict of the deciders, the tree last.
    fn verdict(&mut self, machine: &Machine, limits: &Limits) -> Verdict {
        let verdict = if limits.single_pass {
            self.in_single_pass(machine, limits)
        } else {
            self.in_turn(machine, limits)
        };
        if !verdict.is_open() || !limits.backward {
            return verdict;
        }
        match backward(machine, limits, &mut self.known, &mut self.frames) {
            Some((levels, nodes)) => Verdict::Backward { levels, nodes },
            None => verdict,
        }
    }
}

impl Verdict {
    fn is_open(&self) -> bool {
        matches!(self, Verdict::NoSteps | Verdict::NoCells)
    }

    fn write(&self, writer: &mut impl Write) -> io::Result<()> {
        match self {
            Verdict::Halt { steps, score } => writeln!(writer, " halt {steps} {score}"),
            Verdict::Cycler { first, second } => writeln!(writer, " cycler {first} {second}"),
            Verdict::Translated((side, first, second, shift, length)) => {
                writeln!(writer, " translated {side} {first} {second} {shift} {length}")
            }
            Verdict::Backward { levels, nodes } => writeln!(writer, " backward {levels} {nodes}"),
            Verdict::NoSteps => writer.write_all(b" undecided steps\n"),
            Verdict::NoCells => writer.write_all(b" undecided cells\n"),
        }
    }
}

/// Answers each line. Tells whether every line was a machine.
fn decide(reader: impl Read, writer: impl Write, limits: &Limits) -> io::Result<bool> {
    let mut reader = BufReader::with_capacity(1 << 16, reader);
    let mut writer = BufWriter::with_capacity(1 << 16, writer);
    let mut room = Room::new(limits);
    let mut line = Vec::with_capacity(LONGEST_LINE + 1);
    let mut clean = true;
    while read_line(&mut reader, &mut line)? {
        match Machine::read(&line) {
            Ok(machine) => {
                writer.write_all(&line)?;
                room.verdict(&machine, limits).write(&mut writer)?;
            }
            Err(refused) => {
                clean = false;
                writeln!(writer, "refused {}", refused.front + 1)?;
            }
        }
    }
    writer.flush()?;
    // so that the counting isn't dropped as dead code
    std::hint::black_box(&room.counts);
    Ok(clean)
}

fn main() -> ExitCode {
    let Some(limits) = limits() else {
        return ExitCode::from(2);
    };
    match decide(io::stdin().lock(), io::stdout().lock(), &limits) {
        Ok(true) => ExitCode::SUCCESS,
        Ok(false) => ExitCode::from(1),
        Err(_) => ExitCode::from(3),
    }
}
