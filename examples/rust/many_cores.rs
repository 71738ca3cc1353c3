//! Decides a list on many cores by the library `libbb.a`, from standard input to standard output, in order.
//!
//!     rustc -O examples/rust/many_cores.rs -L crates/bb_c/out -l static=bb
//!     ./many_cores [--threads N] [--steps N] [--cells N] [--depth N] [--nodes N] < machines.txt
//!
//! It writes what `bb decide` does. Its status is 0, 1 for a refused line, 2 for words or limits, 3 for a
//! fault.

use std::collections::BTreeMap;
use std::io::{self, Read, Write};
use std::sync::{Condvar, Mutex};
use std::{env, process, thread};

unsafe extern "C" {
    fn bb_decide(
        steps: u64, cells: u64, depth: u64, nodes: u64, cyclers: bool, translated: bool, backward: bool,
        list: *const u8, list_len: usize, out: *mut u8, out_len: usize, count: *mut usize,
    ) -> u32;
}

/// How many bytes of a list are decided at once, at most.
const PIECE: usize = 1 << 19;
/// Of a longer line so many bytes are enough: no longer one is a machine.
const LONG: usize = 1_024;
/// How many pieces for each thread may be ahead of the one that is written next.
const AHEAD: usize = 8;

/// What is still to be read: the begin of a line, and how many pieces there were.
struct Input {
    rest: Vec<u8>,
    pieces: usize,
    is_ended: bool,
}

impl Input {
    /// The next whole lines of standard input, with the number of their piece.
    fn piece(&mut self) -> io::Result<Option<(usize, Vec<u8>)>> {
        while !self.is_ended {
            let mut lines = std::mem::take(&mut self.rest);
            lines.truncate(LONG);
            let begin = lines.len();
            lines.resize(begin + PIECE, 0);
            let read = io::stdin().lock().read(&mut lines[begin..]);
            let is_cut_off = matches!(&read, Err(error) if error.kind() == io::ErrorKind::Interrupted);
            let count = if is_cut_off { 0 } else { read? };
            self.is_ended = count == 0 && !is_cut_off;
            lines.truncate(begin + count);
            let end = lines.iter().rposition(|&byte| byte == b'\n').map(|place| place + 1);
            let end = if self.is_ended { lines.len() } else { end.unwrap_or(0) };
            self.rest = lines.split_off(end);
            if end > 0 {
                self.pieces += 1;
                return Ok(Some((self.pieces - 1, lines)));
            }
        }
        Ok(None)
    }
}

/// Replies that wait for those before them, and the number of the piece whose turn it is.
struct Output {
    waiting: BTreeMap<usize, Vec<u8>>,
    next: usize,
    is_clean: bool,
}

/// The replies to some lines, and whether each of these is a machine; the status where there are none.
fn decided(limits: &[u64; 4], lines: &[u8]) -> Result<(Vec<u8>, bool), u32> {
    // A reply has at most 98 bytes beside its line, and no more than 15 for each byte of it.
    let mut replies = vec![0; 15 * lines.len() + 98];
    let mut count = 0;
    // Safe: each pointer comes from a slice of that length or a variable of this function, none overlaps
    // another, and the call keeps none.
    let status = unsafe {
        bb_decide(
            limits[0], limits[1], limits[2], limits[3], true, true, true,
            lines.as_ptr(), lines.len(), replies.as_mut_ptr(), replies.len(), &mut count,
        )
    };
    replies.truncate(count);
    if status > 1 { Err(status) } else { Ok((replies, status == 0)) }
}

/// Ends the process, with a sentence.
fn end(status: i32, text: &str) -> ! {
    eprintln!("many_cores: {text}");
    process::exit(status)
}

/// What a thread does: a piece after another. Whoever has the next one writes all that follow.
fn work(limits: &[u64; 4], threads: usize, input: &Mutex<Input>, output: &Mutex<Output>, turn: &Condvar) {
    loop {
        let read = input.lock().unwrap().piece().unwrap_or_else(|error| end(3, &error.to_string()));
        let Some((number, lines)) = read else { return };
        let (replies, is_clean) = match decided(limits, &lines) {
            Ok(reply) => reply,
            Err(_) => end(3, "there is no memory; lower the limit of cells"),
        };
        let mut out = output.lock().unwrap();
        out.is_clean &= is_clean;
        out.waiting.insert(number, replies);
        let mut next = out.next;
        while let Some(replies) = out.waiting.remove(&next) {
            if let Err(error) = io::stdout().lock().write_all(&replies) {
                end(3, &error.to_string());
            }
            next += 1;
        }
        out.next = next;
        turn.notify_all();
        drop(turn.wait_while(out, |out| number >= out.next + AHEAD * threads).unwrap());
    }
}

/// What `--help` prints.
const USAGE: &str = "\
Usage: many_cores [--threads N] [--steps N] [--cells N] [--depth N] [--nodes N] < LIST

Decides the machines of standard input, one a line, and writes what `bb decide` does.

  --threads N  threads [default: one a core]
  --steps N    steps of one simulation [default: 1000000]
  --cells N    cells of one tape [default: 65536]
  --depth N    levels of the backward tree [default: 300]
  --nodes N    nodes of the backward tree [default: 1000000]

Status: 0 every line was a machine, 1 a line was refused, 2 the command line or the limits were refused,
3 memory, reading or writing failed.";

/// The limits and the number of threads that the words ask for.
fn asked() -> ([u64; 4], usize) {
    let names = ["--steps", "--cells", "--depth", "--nodes", "--threads"];
    let cores = thread::available_parallelism().map_or(1, |count| count.get());
    let mut numbers = [1_000_000, 65_536, 300, 1_000_000, cores as u64];
    let words: Vec<String> = env::args().skip(1).collect();
    if words.iter().any(|word| word == "--help" || word == "-h") {
        println!("{USAGE}");
        process::exit(0);
    }
    for pair in words.chunks(2) {
        let place = names.iter().position(|name| *name == pair[0]);
        match (place, pair.get(1).and_then(|word| word.parse().ok())) {
            (Some(place), Some(number)) => numbers[place] = number,
            _ => end(2, &format!("{} and a number are asked for", names.join(", "))),
        }
    }
    let [steps, cells, depth, nodes, threads] = numbers;
    ([steps, cells, depth, nodes], threads.clamp(1, 1_024) as usize)
}

fn main() {
    let (limits, threads) = asked();
    if decided(&limits, b"") == Err(2) {
        end(2, "the limits are out of their range");
    }
    let input = Mutex::new(Input { rest: Vec::new(), pieces: 0, is_ended: false });
    let output = Mutex::new(Output { waiting: BTreeMap::new(), next: 0, is_clean: true });
    let turn = Condvar::new();
    thread::scope(|scope| {
        for _ in 0..threads {
            let work = || work(&limits, threads, &input, &output, &turn);
            if let Err(error) = thread::Builder::new().spawn_scoped(scope, work) {
                end(3, &error.to_string());
            }
        }
    });
    process::exit(!output.into_inner().unwrap().is_clean as i32)
}
