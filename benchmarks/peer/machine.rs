//! A machine, and how a line is read as one.

#[cfg(not(wide))]
pub const MOST_STATES: usize = 7;
#[cfg(not(wide))]
pub const MOST_SYMBOLS: usize = 2;
#[cfg(wide)]
pub const MOST_STATES: usize = 25;
#[cfg(wide)]
pub const MOST_SYMBOLS: usize = 10;
pub const FEWEST_SYMBOLS: usize = 2;
pub const LONGEST_LINE: usize = MOST_STATES * (3 * MOST_SYMBOLS + 1) - 1;
pub const LAST_LETTER: u8 = b'A' + MOST_STATES as u8 - 1;

/// Where an entry leads to.
#[derive(Clone, Copy, PartialEq)]
pub enum Next {
    Undefined,
    State,
    Halt,
}

/// An entry of a machine's table: write, move by one, and go to a state.
#[derive(Clone, Copy)]
pub struct Entry {
    pub next: Next,
    pub state: u8,
    pub write: u8,
    pub step: i8,
}

pub struct Machine {
    pub entries: [[Entry; MOST_SYMBOLS]; MOST_STATES],
    pub states: usize,
    pub symbols: usize,
}

/// What is known of a line so far: how many of its first bytes begin some machine's text.
pub struct Refused {
    pub front: usize,
}

/// Reads one entry of a machine of so many symbols. The error is how many of its bytes begin an entry.
pub fn read_entry(bytes: &[u8], symbols: usize) -> Result<Entry, usize> {
    if bytes.first() == Some(&b'-') {
        for at in 1..3 {
            if bytes.get(at) != Some(&b'-') {
                return Err(at);
            }
        }
        return Ok(Entry {
            next: Next::Undefined,
            state: 0,
            write: 0,
            step: 0,
        });
    }
    let write = match bytes.first() {
        Some(digit @ b'0'..=b'9') if ((digit - b'0') as usize) < symbols => digit - b'0',
        _ => return Err(0),
    };
    let step = match bytes.get(1) {
        Some(b'L') => -1,
        Some(b'R') => 1,
        _ => return Err(1),
    };
    let (next, state) = match bytes.get(2) {
        Some(b'Z') => (Next::Halt, 0),
        Some(letter @ b'A'..=LAST_LETTER) => (Next::State, letter - b'A'),
        _ => return Err(2),
    };
    Ok(Entry {
        next,
        state,
        write,
        step,
    })
}

impl Machine {
    /// How many symbols it has, which the compiler knows where there is no choice.
    #[inline(always)]
    pub fn symbols(&self) -> usize {
        if MOST_SYMBOLS == FEWEST_SYMBOLS {
            FEWEST_SYMBOLS
        } else {
            self.symbols
        }
    }

    /// Reads a machine: groups of an entry for each symbol, joined by `_`. The first group tells how many
    /// symbols there are.
    pub fn read(line: &[u8]) -> Result<Machine, Refused> {
        let undefined = Entry {
            next: Next::Undefined,
            state: 0,
            write: 0,
            step: 0,
        };
        let mut entries = [[undefined; MOST_SYMBOLS]; MOST_STATES];
        let (mut group, mut filled, mut at, mut most_state) = (0, 0, 0, 0);
        let (mut symbols, mut fewest) = (MOST_SYMBOLS, FEWEST_SYMBOLS);
        while at < line.len() {
            if line[at] == b'_' {
                if filled < fewest || group + 1 == MOST_STATES {
                    return Err(Refused { front: at });
                }
                (symbols, fewest) = (filled, filled);
                group += 1;
                filled = 0;
                at += 1;
                continue;
            }
            if filled == symbols {
                return Err(Refused { front: at });
            }
            match read_entry(&line[at..], symbols) {
                Ok(entry) => {
                    most_state = most_state.max(entry.state as usize);
                    fewest = fewest.max(entry.write as usize + 1);
                    entries[group][filled] = entry;
                    filled += 1;
                    at += 3;
                }
                Err(more) => return Err(Refused { front: at + more }),
            }
        }
        if filled < fewest || most_state > group {
            return Err(Refused { front: line.len() });
        }
        Ok(Machine {
            entries,
            states: group + 1,
            symbols: filled,
        })
    }
}
