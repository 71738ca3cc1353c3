//! The tree of what could come before a halt, where it has at most 64 levels: known cells are two words.

use crate::Limits;
use crate::table::{BITS, FLIP, RIGHT, STATE, STOP, Table};

/// The most levels; the cells of so many are different in a ring of 64.
const MOST_LEVELS: usize = 64;

/// A node, and the entries that lead to it and aren't tried yet. An entry is a bit: twice its state, and its
/// symbol.
#[derive(Clone, Copy)]
pub struct Node {
    known: u64,
    ones: u64,
    at: u32,
    state: u32,
    rest: u32,
}

/// The entries of a machine by what they do: those that halt, move to the right, write 1, and lead to each state.
struct Entries {
    halting: u32,
    right: u32,
    written: u32,
    into: [u32; 8],
    /// The states to which a path without end leads by entries of one direction, to the left and to the right.
    endless: [u32; 2],
}

impl Entries {
    fn of(table: &Table, states: usize) -> Entries {
        let mut entries = Entries {
            halting: 0,
            right: 0,
            written: 0,
            into: [0; 8],
            endless: [0; 2],
        };
        for index in 0..2 * states {
            let (words, bit) = ([table.blank, table.one], 1 << index);
            let entry = words[index % 2] >> (BITS * (index / 2));
            if entry & STOP != 0 {
                entries.halting |= bit;
                continue;
            }
            entries.into[(entry & STATE) as usize / BITS] |= bit;
            entries.right |= if entry & RIGHT != 0 { bit } else { 0 };
            entries.written |= if (entry & FLIP != 0) != (index % 2 != 0) {
                bit
            } else {
                0
            };
        }
        let ways = [!entries.right, entries.right];
        entries.endless = ways.map(|way| entries.endless_states(way, states));
        entries
    }

    /// The states to which paths of any length lead by these entries, as bits.
    fn endless_states(&self, way: u32, states: usize) -> u32 {
        let mut live = !0;
        for _ in 0..states {
            // both entries of each live state
            let spread = (0..states).fold(0, |found, state| found | (live >> state & 1) * 3 << (2 * state));
            live = (0..states).fold(0, |found, state| {
                found | ((self.into[state] & way & spread != 0) as u32) << state
            });
        }
        live
    }

    /// Whether the tree behind a node has no end: nothing is known beyond it on the side from which such a path
    /// comes.
    fn is_endless(&self, node: &Node) -> bool {
        let known = node.known.rotate_right(node.at);
        let open = [known & 2 == 0, known >> 63 == 0];
        (0..2).any(|way| open[way] && self.endless[way] >> node.state & 1 != 0)
    }
}

/// The walk, with the node at the top of the stack.
struct Walk<'a> {
    entries: Entries,
    limits: &'a Limits,
    levels: usize,
    nodes: u64,
}

/// Why a tree isn't known to end: it doesn't within the limits, or it has more than 64 levels.
pub enum Open {
    Undecided,
    Deep,
}

impl Walk<'_> {
    /// Counts a node at a level.
    fn enter(&mut self, node: &Node, level: usize) -> Result<(), Open> {
        if level == self.limits.depth || self.nodes == self.limits.nodes {
            return Err(Open::Undecided);
        }
        self.nodes += 1;
        self.levels = self.levels.max(level + 1);
        if node.state == 0 && node.ones == 0 || self.entries.is_endless(node) {
            return Err(Open::Undecided);
        }
        if level == MOST_LEVELS {
            Err(Open::Deep)
        } else {
            Ok(())
        }
    }

    /// The node before another by an entry, where its symbol is there to be written.
    fn before(&self, node: &Node, index: u32) -> Option<Node> {
        let right = self.entries.right >> index & 1;
        let at = (node.at + 1).wrapping_sub(2 * right) & 63;
        let differs = node.ones >> at & 1 != (self.entries.written >> index & 1) as u64;
        if node.known >> at & 1 != 0 && differs {
            return None;
        }
        Some(Node {
            known: node.known | 1 << at,
            ones: node.ones & !(1 << at) | ((index & 1) as u64) << at,
            at,
            state: index / 2,
            rest: self.entries.into[index as usize / 2],
        })
    }

    /// Walks through the tree below a halting entry.
    fn explore(&mut self, index: u32, path: &mut Vec<Node>) -> Result<(), Open> {
        let (state, ones) = (index / 2, (index & 1) as u64);
        let rest = self.entries.into[state as usize];
        let mut node = Node {
            known: 1,
            ones,
            at: 0,
            state,
            rest,
        };
        path.clear();
        self.enter(&node, 0)?;
        loop {
            if node.rest == 0 {
                let Some(above) = path.pop() else {
                    return Ok(());
                };
                node = above;
                continue;
            }
            let next = node.rest.trailing_zeros();
            node.rest &= node.rest - 1;
            if let Some(child) = self.before(&node, next) {
                path.push(node);
                self.enter(&child, path.len())?;
                node = child;
            }
        }
    }
}

/// The levels and the nodes of the tree, where it ends within the limits and the start matches none of its
/// nodes.
pub fn backward(
    table: &Table,
    states: usize,
    limits: &Limits,
    path: &mut Vec<Node>,
) -> Result<(usize, u64), Open> {
    let entries = Entries::of(table, states);
    let mut walk = Walk {
        entries,
        limits,
        levels: 0,
        nodes: 0,
    };
    let mut halting = walk.entries.halting;
    while halting != 0 {
        walk.explore(halting.trailing_zeros(), path)?;
        halting &= halting - 1;
    }
    Ok((walk.levels, walk.nodes))
}
