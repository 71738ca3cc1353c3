//! Lists all machines of so many states and symbols in tree normal form, one a line; `HELP` says how.
//!
//! A machine is written before those that it leads to, which are walked in depth: each takes over the tape of
//! the one that it comes from, and goes on with its run. A run ends early where it is seen to repeat. A
//! machine with one undefined entry leads to none, so it isn't run at all. This is no part of the program,
//! and proves nothing. The script `tree_normal_form` beside it compiles it by `rustc -O --edition 2021`, from
//! 1.63 on.

use std::cmp::Ordering;
use std::env;
use std::io::{self, BufWriter, ErrorKind, Write};
use std::ops::RangeInclusive;
use std::process::ExitCode;

const HELP: &str = "\
Lists all machines of so many states and symbols in tree normal form, one a line.

    tools/tree_normal_form --states N [--symbols N] [--steps T] [--part K/N] [--every N]
    tools/tree_normal_form --states N [--symbols N] [--steps T] --shards K
    tools/tree_normal_form --below MACHINE [--steps T] [--shards K]
    tools/tree_normal_form --line MACHINE [--steps T]

From the table with no entry on, each machine is run on the blank tape. One that meets an undefined entry
is listed as it stands, halting there; and while more than one entry is undefined, each entry that could
stand there gives a machine of its own. States and symbols are first used in order, and the first move is
to the right. A machine that meets no undefined entry within T steps is listed and left.

  --states N   1 to 25
  --symbols N  2 to 10 (default: 2)
  --steps T    steps of each run, 0 to 10,000,000 (default: 200)
  --part K/N   the part K of N alone, K from 1 on, N up to 1,000,000: each machine is in one part, and all
               parts are about as large where there are many machines
  --every N    each so many-th machine alone, of those that are listed otherwise; N up to 1,000,000,000
  --below M    the machine M of the list, and those that it leads to: a shard
  --shards K   the machines with at most K entries, K from 1 on; one with K entries that leads to others stands
               for its shard, as `M below`
  --line M     where the machine M stands in the list, in place of the list: `line N of T`

Of two symbols there are 3, 61, 5,417 and 858,909 machines of one to four states, and 181,385,789 of five
states with 1,000 steps, of which the list takes half a minute. The status is 0; 1 where whoever reads
went away, or the list lacks M; 2 where the command line is refused; 3 where writing failed. Nothing of this is proved.
";

const LETTERS: &[u8] = b"ABCDEFGHIJKLMNOPQRSTUVWXY";
const MOST_SYMBOLS: u64 = 10;
const MOST_STEPS: u64 = 10_000_000;
const MOST_PARTS: u64 = 1_000_000;
const MOST_EVERY: u64 = 1_000_000_000;
/// As many entries as a byte counts; no table has more than 250.
const ENTRIES: usize = 256;
/// Each machine of so many entries is given to a part with all that it leads to, one of fewer by itself.
const SHARED: usize = 6;
/// After so many steps a run is watched for whether it repeats.
const UNWATCHED: usize = 32;
/// No state's first entry.
const NO_ROW: u8 = u8::MAX;
/// Its multiples modulo 2^64 are spread evenly: the part of 2^64 that the golden ratio leaves.
const SPREAD: u64 = 0x9e37_79b9_7f4a_7c15;

/// What the command line asks for.
struct Asked {
    states: usize,
    symbols: usize,
    steps: usize,
    part: Part,
    every: u64,
    /// The machine at which the list begins, if it isn't the one with no entry.
    below: Option<Vec<u8>>,
    /// A machine with so many entries that leads to others stands for its shard.
    shards: usize,
    /// The machine whose place in the list is asked for.
    line: Option<Vec<u8>>,
}

impl Asked {
    /// Reads the words of a command line. The error is a sentence.
    fn read(words: &[String]) -> Result<Asked, String> {
        let (mut states, mut asked) = (None, Asked::default());
        let mut cuts = None;
        let mut words = words.iter();
        while let Some(word) = words.next() {
            let (name, value) = match word.split_once('=') {
                Some((name, value)) => (name, Some(value)),
                None => (word.as_str(), words.next().map(String::as_str)),
            };
            let value = || value.ok_or(format!("{} has no value behind it", name));
            match name {
                "--states" => states = Some(number(name, value()?, 1, LETTERS.len() as u64)? as usize),
                "--symbols" => asked.symbols = number(name, value()?, 2, MOST_SYMBOLS)? as usize,
                "--steps" => asked.steps = number(name, value()?, 0, MOST_STEPS)? as usize,
                "--part" => {
                    cuts = Some(name);
                    asked.part = Part::read(value()?)?
                }
                "--every" => {
                    cuts = Some(name);
                    asked.every = number(name, value()?, 1, MOST_EVERY)?
                }
                "--below" => asked.below = Some(value()?.as_bytes().to_vec()),
                "--line" => asked.line = Some(value()?.as_bytes().to_vec()),
                "--shards" => asked.shards = number(name, value()?, 1, ENTRIES as u64)? as usize,
                _ => return Err(format!("{} is no option; --help tells them", word)),
            }
        }
        if let (Some(cut), true) = (cuts, asked.below.is_some() || asked.shards < ENTRIES) {
            return Err(format!("{} doesn't go with --below or --shards", cut));
        }
        if asked.line.is_some() && (cuts.is_some() || asked.below.is_some() || asked.shards < ENTRIES) {
            return Err("--line goes with --steps alone".to_string());
        }
        let given = asked.below.as_ref().map(|text| ("--below", text));
        if let Some((name, text)) = given.or(asked.line.as_ref().map(|text| ("--line", text))) {
            let (states_of, symbols) = size_of(name, text)?;
            if states.map_or(false, |states| states != states_of) {
                return Err(format!("--states isn't the size of {}'s machine", name));
            }
            states = Some(states_of);
            asked.symbols = symbols;
        }
        asked.states = states.ok_or("--states isn't given; it says how many states the machines have")?;
        Ok(asked)
    }

    /// How many entries a table has.
    fn entries(&self) -> usize {
        self.states * self.symbols
    }
}

impl Default for Asked {
    fn default() -> Asked {
        Asked {
            states: 1,
            symbols: 2,
            steps: 200,
            part: Part {
                number: 1,
                parts: 1,
                given: 0,
            },
            every: 1,
            below: None,
            shards: ENTRIES,
            line: None,
        }
    }
}

/// How many states and symbols the machine with this text has. The error is a sentence.
fn size_of(name: &str, text: &[u8]) -> Result<(usize, usize), String> {
    let groups: Vec<&[u8]> = text.split(|byte| *byte == b'_').collect();
    let symbols = groups[0].len() / 3;
    let fits = 2 <= symbols && symbols as u64 <= MOST_SYMBOLS && groups.len() <= LETTERS.len();
    let is_entry = |entry: &[u8]| {
        entry == b"---"
            || (entry[0].wrapping_sub(b'0') as usize) < symbols
                && (entry[1] == b'L' || entry[1] == b'R')
                && LETTERS[..groups.len()].contains(&entry[2])
    };
    let is_group = |group: &&[u8]| group.len() == 3 * symbols && group.chunks(3).all(is_entry);
    if !fits || !groups.iter().all(is_group) {
        let text = String::from_utf8_lossy(text);
        return Err(format!("{} is {}, but must be a machine without Z", name, text));
    }
    Ok((groups.len(), symbols))
}

/// A number of an option within its range. The error is a sentence.
fn number(name: &str, value: &str, least: u64, most: u64) -> Result<u64, String> {
    let digits = !value.is_empty() && value.bytes().all(|byte| byte.is_ascii_digit());
    match value.parse() {
        Ok(found) if digits && least <= found && found <= most => Ok(found),
        _ => Err(format!(
            "{} is {}, but must be a whole number from {} to {}",
            name, value, least, most
        )),
    }
}

/// One of so many parts of a list, and how many machines were given to the parts so far.
struct Part {
    number: u64,
    parts: u64,
    given: u64,
}

impl Part {
    /// Reads a part as `K/N`. The error is a sentence.
    fn read(value: &str) -> Result<Part, String> {
        let wrong = || {
            format!(
                "--part is {}, but must be K/N: whole numbers, N from 1 to {}, K from 1 to N",
                value, MOST_PARTS
            )
        };
        let (first, second) = value.split_once('/').ok_or_else(wrong)?;
        let parts = number("N", second, 1, MOST_PARTS).map_err(|_| wrong())?;
        let number = number("K", first, 1, parts).map_err(|_| wrong())?;
        Ok(Part {
            number,
            parts,
            given: 0,
        })
    }

    /// Gives a machine to a part; whether that is this one. Of any stretch of machines, as of those of one
    /// parent, each part gets about as many.
    fn takes_next(&mut self) -> bool {
        let place = self.given.wrapping_mul(SPREAD) >> 32;
        self.given += 1;
        (place * self.parts) >> 32 == self.number - 1
    }
}

/// An entry of a table. One that isn't defined makes no step.
#[derive(Clone, Copy)]
struct Entry {
    is_defined: bool,
    write: u8,
    step: i8,
    /// The number of the first entry of the state that it leads to.
    row: u8,
}

const UNDEFINED: Entry = Entry {
    is_defined: false,
    write: 0,
    step: 0,
    row: 0,
};

/// How many states and symbols a machine has used, which are the first ones.
#[derive(Clone, Copy)]
struct Used {
    states: usize,
    symbols: usize,
}

/// An entry that could stand somewhere, its three characters, and what a machine has used with it.
#[derive(Clone, Copy)]
struct Choice {
    entry: Entry,
    text: [u8; 3],
    used: Used,
}

/// The entries that could stand where so much was used, in the order of the list.
fn choices(asked: &Asked, used: Used, is_first: bool) -> Vec<Choice> {
    let steps: &[i8] = if is_first { &[1] } else { &[1, -1] };
    let writes = 0..asked.symbols.min(used.symbols + 1);
    let states = 0..asked.states.min(used.states + 1);
    let moves = writes.flat_map(|write| steps.iter().map(move |step| (write, *step)));
    moves
        .flat_map(|(write, step)| states.clone().map(move |state| (write, step, state)))
        .map(|(write, step, state)| Choice {
            entry: Entry {
                is_defined: true,
                write: write as u8,
                step,
                row: (state * asked.symbols) as u8,
            },
            text: [
                b'0' + write as u8,
                if step > 0 { b'R' } else { b'L' },
                LETTERS[state],
            ],
            used: Used {
                states: used.states.max(state + 1),
                symbols: used.symbols.max(write + 1),
            },
        })
        .collect()
}

/// Where a run stands: the head's cell, the first entry of its state, and how many steps were made.
#[derive(Clone, Copy)]
struct Run {
    cell: usize,
    row: u8,
    steps: usize,
}

/// Where each run starts: in the middle of its tape.
fn start_of(asked: &Asked) -> Run {
    Run {
        cell: asked.steps + 1,
        row: 0,
        steps: 0,
    }
}

/// A tape, long enough for a run to its last step. All cells are 0 that are farther than `reach` from the
/// middle, where a run starts.
struct Tape {
    cells: Vec<u8>,
    reach: usize,
}

impl Tape {
    fn new(steps: usize) -> Tape {
        Tape {
            cells: vec![0; 2 * steps + 3],
            reach: 0,
        }
    }

    /// Makes this tape the same as another.
    fn copy(&mut self, other: &Tape) {
        let middle = self.cells.len() / 2;
        self.cells[middle - self.reach..=middle + self.reach].fill(0);
        let kept = middle - other.reach..=middle + other.reach;
        self.cells[kept.clone()].copy_from_slice(&other.cells[kept]);
        self.reach = other.reach;
    }

    /// Goes on with a run, up to so many steps or until it is seen to repeat; whether it met an undefined
    /// entry.
    fn run(&mut self, table: &[Entry; ENTRIES], run: &mut Run, steps: usize, mark: &mut Mark) -> bool {
        let mut now = *run;
        let (mut least, mut most) = (now.cell, now.cell);
        let mut next_mark = now.steps.max(UNWATCHED);
        mark.run.row = NO_ROW;
        let met = loop {
            let entry = table[now.row.wrapping_add(self.cells[now.cell]) as usize];
            if !entry.is_defined || now.steps == steps {
                break !entry.is_defined;
            }
            if now.steps == next_mark {
                next_mark *= 2;
                (least, most) = (now.cell, now.cell);
                mark.set(self, now);
            }
            self.cells[now.cell] = entry.write;
            now.cell = (now.cell as isize + entry.step as isize) as usize;
            now.row = entry.row;
            now.steps += 1;
            least = least.min(now.cell);
            most = most.max(now.cell);
            if now.row == mark.run.row && mark.comes_again(&self.cells, now.cell, least..=most) {
                break false;
            }
        };
        self.reach = now.steps;
        *run = now;
        met
    }
}

/// A configuration that a run was in, with which later ones are compared. Its row is `NO_ROW` where there is
/// none.
struct Mark {
    tape: Tape,
    run: Run,
}

impl Mark {
    /// Marks where a run stands.
    #[cold]
    fn set(&mut self, tape: &mut Tape, run: Run) {
        tape.reach = run.steps;
        self.tape.copy(tape);
        self.run = run;
    }

    /// Whether a run repeats for ever that came from the mark to the same state in this cell, and was in the
    /// cells of this range alone. So it is where the range at the mark looks as the range does that lies as
    /// far from the head here, and where all was 0 beyond the range on the side to which the head moved.
    #[inline(never)]
    fn comes_again(&self, cells: &[u8], cell: usize, range: RangeInclusive<usize>) -> bool {
        let (least, most) = (*range.start(), *range.end());
        let moved = match (least + cell).checked_sub(self.run.cell) {
            Some(from) => from..=from + (most - least),
            None => return false,
        };
        if cells.get(moved) != Some(&self.tape.cells[range]) {
            return false;
        }
        let ahead = match cell.cmp(&self.run.cell) {
            Ordering::Equal => return true,
            Ordering::Greater => &self.tape.cells[most + 1..],
            Ordering::Less => &self.tape.cells[..least],
        };
        ahead.iter().all(|symbol| *symbol == 0)
    }
}

/// The machines, walked in depth: the table and the text of the one at hand, and the tapes of those that it
/// comes from, by how many entries they have.
struct Tree<W: Write> {
    asked: Asked,
    table: [Entry; ENTRIES],
    text: Vec<u8>,
    /// The choices where so many states and symbols were used; those of the first entry stand at `[0][0]`.
    choices: Vec<Vec<Vec<Choice>>>,
    tapes: Vec<Tape>,
    mark: Mark,
    out: W,
    /// How many machines are passed over before the next that is written.
    passed: u64,
}

impl<W: Write> Tree<W> {
    fn new(asked: Asked, out: W) -> Tree<W> {
        let start = Used {
            states: 1,
            symbols: 1,
        };
        let of = |states, symbols| match (states, symbols) {
            (0, 0) => choices(&asked, start, true),
            _ => choices(&asked, Used { states, symbols }, false),
        };
        let row = |states| (0..=asked.symbols).map(|symbols| of(states, symbols)).collect();
        let groups = vec!["---".repeat(asked.symbols); asked.states];
        Tree {
            table: [UNDEFINED; ENTRIES],
            text: (groups.join("_") + "\n").into_bytes(),
            choices: (0..=asked.states).map(row).collect(),
            tapes: vec![Tape::new(asked.steps)],
            mark: Mark {
                tape: Tape::new(asked.steps),
                run: start_of(&asked),
            },
            out,
            passed: asked.every - 1,
            asked,
        }
    }

    /// Lists all machines, or those from one machine on.
    fn list(&mut self) -> io::Result<()> {
        let run = start_of(&self.asked);
        if let Some(text) = self.asked.below.take() {
            let (entries, used) = self.fill(&text);
            self.tapes.resize_with(entries + 1, || Tape::new(self.asked.steps));
            self.list_from(entries, run, used)?;
            return self.out.flush();
        }
        if self.asked.part.takes_next() {
            self.write()?;
        }
        let first = Used {
            states: 0,
            symbols: 0,
        };
        self.grow(0, run, first)?;
        self.out.flush()
    }

    /// Sets the table to that of a machine. Returns how many entries it has, and what they use.
    fn fill(&mut self, text: &[u8]) -> (usize, Used) {
        let symbols = self.asked.symbols;
        let mut entries = 0;
        let mut used = Used {
            states: 0,
            symbols: 0,
        };
        for (index, entry) in text.split(|byte| *byte == b'_').flat_map(|group| group.chunks(3)).enumerate() {
            if entry == b"---" {
                continue;
            }
            let (write, state) = ((entry[0] - b'0') as usize, (entry[2] - b'A') as usize);
            self.table[index] = Entry {
                is_defined: true,
                write: write as u8,
                step: if entry[1] == b'R' { 1 } else { -1 },
                row: (state * symbols) as u8,
            };
            entries += 1;
            used.states = used.states.max(state + 1).max(index / symbols + 1);
            used.symbols = used.symbols.max(write + 1).max(index % symbols + 1);
        }
        self.text[..text.len()].copy_from_slice(text);
        (entries, used)
    }

    /// Lists the machine at hand, with so many entries, and what it leads to.
    fn list_from(&mut self, entries: usize, mut run: Run, used: Used) -> io::Result<()> {
        let leads_on = entries + 1 < self.asked.entries()
            && self.tapes[entries].run(&self.table, &mut run, self.asked.steps, &mut self.mark);
        if leads_on && entries == self.asked.shards {
            return self.write_shard();
        }
        self.write()?;
        if leads_on {
            self.grow(entries, run, used)?;
        }
        Ok(())
    }

    /// Writes the machine at hand as that of a shard.
    fn write_shard(&mut self) -> io::Result<()> {
        self.out.write_all(&self.text[..self.text.len() - 1])?;
        self.out.write_all(b" below\n")
    }

    /// Lists what a machine with so many entries leads to, whose run has met an undefined entry.
    fn grow(&mut self, entries: usize, run: Run, used: Used) -> io::Result<()> {
        let index = run.row as usize + self.tapes[entries].cells[run.cell] as usize;
        let symbols = self.asked.symbols;
        let place = 3 * index + index / symbols;
        for at in 0..self.choices[used.states][used.symbols].len() {
            let choice = self.choices[used.states][used.symbols][at];
            self.table[index] = choice.entry;
            self.text[place..place + 3].copy_from_slice(&choice.text);
            self.visit(entries + 1, run, choice.used)?;
        }
        self.table[index] = UNDEFINED;
        self.text[place..place + 3].fill(b'-');
        Ok(())
    }

    /// Lists a machine with so many entries, whose run stands before its newest one, and what it leads to.
    fn visit(&mut self, entries: usize, mut run: Run, used: Used) -> io::Result<()> {
        let is_taken = entries > SHARED || self.asked.part.takes_next();
        let leads_nowhere = entries + 1 == self.asked.entries() || (entries == SHARED && !is_taken);
        if is_taken && (leads_nowhere || entries != self.asked.shards) {
            self.write()?;
        }
        if leads_nowhere {
            return Ok(());
        }
        if self.tapes.len() == entries {
            self.tapes.push(Tape::new(self.asked.steps));
        }
        let (before, after) = self.tapes.split_at_mut(entries);
        after[0].copy(&before[entries - 1]);
        if entries == self.asked.shards {
            return self.list_from(entries, run, used);
        }
        if after[0].run(&self.table, &mut run, self.asked.steps, &mut self.mark) {
            self.grow(entries, run, used)?;
        }
        Ok(())
    }

    /// Writes the machine at hand, where it isn't passed over.
    fn write(&mut self) -> io::Result<()> {
        if self.passed > 0 {
            self.passed -= 1;
            return Ok(());
        }
        self.passed = self.asked.every - 1;
        self.out.write_all(&self.text)
    }
}

/// Counts the lines of a list, which are written one at a time, and looks for one.
struct Finder {
    /// The line, with its newline.
    line: Vec<u8>,
    lines: u64,
    /// The number of the line, from 1; 0 where it isn't found.
    place: u64,
}

impl Write for Finder {
    fn write(&mut self, bytes: &[u8]) -> io::Result<usize> {
        self.lines += 1;
        if bytes == self.line {
            self.place = self.lines;
        }
        Ok(bytes.len())
    }

    fn flush(&mut self) -> io::Result<()> {
        Ok(())
    }
}

/// Prints where a machine stands in the list.
fn print_place(asked: Asked, mut line: Vec<u8>) -> ExitCode {
    line.push(b'\n');
    let mut finder = Finder {
        line,
        lines: 0,
        place: 0,
    };
    if let Err(error) = Tree::new(asked, &mut finder).list() {
        return ended(Err(error));
    }
    if finder.place == 0 {
        let machine = String::from_utf8_lossy(&finder.line);
        eprintln!("tree_normal_form: {} isn't among the {} machines", machine.trim_end(), finder.lines);
        return ExitCode::from(1);
    }
    ended(writeln!(io::stdout(), "line {} of {}", finder.place, finder.lines))
}

fn main() -> ExitCode {
    let words: Vec<String> = env::args_os()
        .skip(1)
        .map(|word| word.to_string_lossy().into_owned())
        .collect();
    if words.iter().any(|word| word == "--help" || word == "-h") {
        return ended(io::stdout().write_all(HELP.as_bytes()));
    }
    match Asked::read(&words) {
        Ok(mut asked) => match asked.line.take() {
            Some(line) => print_place(asked, line),
            None => ended(Tree::new(asked, BufWriter::with_capacity(1 << 16, io::stdout())).list()),
        },
        Err(sentence) => {
            eprintln!("tree_normal_form: {}", sentence);
            ExitCode::from(2)
        }
    }
}

/// The status after writing.
fn ended(written: io::Result<()>) -> ExitCode {
    match written {
        Ok(()) => ExitCode::SUCCESS,
        Err(error) if error.kind() == ErrorKind::BrokenPipe => ExitCode::from(1),
        Err(error) => {
            eprintln!("tree_normal_form: write failed: {}", error);
            ExitCode::from(3)
        }
    }
}
