//! The lines of a list, read in place, and the lines that answer them.

use crate::Verdict;
use crate::machine::LONGEST_LINE;
use crate::table::SIGHT;
use std::convert::TryInto;
use std::io::{self, Read, Write};

/// How many bytes are read or written at once.
const BLOCK: usize = 1 << 16;
/// More than an answer has beside its machine.
const LONGEST_ANSWER: usize = 128;
/// The digits of numbers below this one are listed.
const LISTED: u64 = 10_000;
/// Where a listed number has its length.
const LENGTH_AT: u32 = 56;

/// A list that is read block by block.
pub struct Lines<R> {
    reader: R,
    buffer: Vec<u8>,
    from: usize,
    to: usize,
    is_ended: bool,
}

impl<R: Read> Lines<R> {
    pub fn new(reader: R) -> Lines<R> {
        Lines {
            reader,
            buffer: vec![0; BLOCK + SIGHT],
            from: 0,
            to: 0,
            is_ended: false,
        }
    }

    /// The bytes at the front of the next line; a newline follows the list's last byte. None after the last
    /// line.
    #[inline(always)]
    pub fn front(&mut self) -> io::Result<Option<&[u8; SIGHT]>> {
        while self.to - self.from < SIGHT && !self.is_ended {
            self.fill()?;
        }
        if self.from == self.to {
            return Ok(None);
        }
        let bytes = &self.buffer[self.from..self.from + SIGHT];
        Ok(Some(bytes.try_into().expect("as many bytes")))
    }

    /// Passes over a line of so many bytes and its newline.
    #[inline(always)]
    pub fn pass(&mut self, length: usize) {
        self.from = self.to.min(self.from + length + 1);
    }

    /// Passes over a line, and returns of its bytes what a refusal needs.
    #[cold]
    pub fn take(&mut self) -> io::Result<Vec<u8>> {
        let mut kept = Vec::new();
        loop {
            let rest = &self.buffer[self.from..self.to];
            let newline = rest.iter().position(|byte| *byte == b'\n');
            let length = newline.unwrap_or(rest.len());
            kept.extend_from_slice(&rest[..length.min(LONGEST_LINE + 1 - kept.len())]);
            self.from += length;
            if newline.is_some() || self.is_ended {
                self.pass(0);
                return Ok(kept);
            }
            self.fill()?;
        }
    }

    /// Moves what isn't read yet to the front, and reads more.
    #[cold]
    fn fill(&mut self) -> io::Result<()> {
        self.buffer.copy_within(self.from..self.to, 0);
        self.to -= self.from;
        self.from = 0;
        match self.reader.read(&mut self.buffer[self.to..BLOCK]) {
            Ok(more) => {
                self.to += more;
                self.is_ended = more == 0;
            }
            Err(error) if error.kind() == io::ErrorKind::Interrupted => {}
            Err(error) => return Err(error),
        }
        self.buffer[self.to] = b'\n';
        Ok(())
    }
}

/// A space and the digits of a number, and how many bytes these are.
fn digits_of(number: u64) -> u64 {
    let (mut text, mut length, mut rest) = (0, 0, number);
    while length == 0 || rest != 0 {
        text = text << 8 | b'0' as u64 + rest % 10;
        (length, rest) = (length + 1, rest / 10);
    }
    text << 8 | b' ' as u64 | (length + 1) << LENGTH_AT
}

/// Answers that are written block by block.
pub struct Answers<W> {
    writer: W,
    buffer: Vec<u8>,
    to: usize,
    /// The digits of each listed number behind a space, and how many bytes these are.
    digits: Vec<u64>,
}

impl<W: Write> Answers<W> {
    pub fn new(writer: W) -> Answers<W> {
        Answers {
            writer,
            buffer: vec![0; BLOCK + SIGHT + LONGEST_ANSWER],
            to: 0,
            digits: (0..LISTED).map(digits_of).collect(),
        }
    }

    /// Answers a line that begins with a machine of so many bytes.
    #[inline(always)]
    pub fn add(&mut self, line: &[u8; SIGHT], length: usize, verdict: &Verdict) -> io::Result<()> {
        self.buffer[self.to..self.to + SIGHT].copy_from_slice(line);
        self.to += length;
        match *verdict {
            Verdict::Halt { steps, score } => self.words(b" halt", &[steps, score]),
            Verdict::Cycler { first, second } => self.words(b" cycler", &[first, second]),
            Verdict::Translated((side, first, second, shift, length)) => {
                let word = if side == 'R' {
                    b" translated R"
                } else {
                    b" translated L"
                };
                self.words(word, &[first, second, shift as u64, length as u64]);
            }
            Verdict::Backward { levels, nodes } => self.words(b" backward", &[levels as u64, nodes]),
            Verdict::NoSteps => self.words(b" undecided steps", &[]),
            Verdict::NoCells => self.words(b" undecided cells", &[]),
        }
        self.end()
    }

    /// Answers a line that is no machine.
    #[cold]
    pub fn refuse(&mut self, column: usize) -> io::Result<()> {
        self.words(b"refused", &[column as u64]);
        self.end()
    }

    #[inline(always)]
    fn words<const LENGTH: usize>(&mut self, words: &[u8; LENGTH], numbers: &[u64]) {
        self.buffer[self.to..self.to + LENGTH].copy_from_slice(words);
        self.to += LENGTH;
        for number in numbers {
            if *number < LISTED {
                let digits = self.digits[*number as usize];
                self.buffer[self.to..self.to + 8].copy_from_slice(&digits.to_le_bytes());
                self.to += (digits >> LENGTH_AT) as usize;
            } else {
                self.long_number(*number);
            }
        }
    }

    #[inline(never)]
    fn long_number(&mut self, number: u64) {
        let text = format!(" {number}");
        self.buffer[self.to..self.to + text.len()].copy_from_slice(text.as_bytes());
        self.to += text.len();
    }

    #[inline(always)]
    fn end(&mut self) -> io::Result<()> {
        self.buffer[self.to] = b'\n';
        self.to += 1;
        if self.to < BLOCK { Ok(()) } else { self.flush() }
    }

    /// Writes what is waiting.
    #[cold]
    pub fn flush(&mut self) -> io::Result<()> {
        self.writer.write_all(&self.buffer[..self.to])?;
        self.to = 0;
        self.writer.flush()
    }
}
