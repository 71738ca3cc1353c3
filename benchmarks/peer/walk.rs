//! The walk through the tree of what could come before a halt.

use crate::Limits;
use crate::machine::{Entry, Machine, Next};
use std::cmp::Reverse;

/// A rule: an entry with the state and the symbol for which it stands.
#[derive(Clone, Copy)]
pub struct Rule {
    pub state: u8,
    pub symbol: u8,
    pub entry: Entry,
}

/// The rules of a machine, those that lead to each state together, and the halting ones last; and all of them
/// once more. The first time, of those that lead to one state the ones that move to the left come first, the
/// second time those that move to the right. `starts` has for each time where those of each state begin.
pub struct Rules {
    pub list: Vec<Rule>,
    pub starts: [Vec<u16>; 2],
}

impl Rules {
    pub fn new(machine: &Machine) -> Rules {
        let mut rules = Rules {
            list: Vec::with_capacity(2 * machine.states * machine.symbols()),
            starts: [(); 2].map(|_| Vec::with_capacity(machine.states + 2)),
        };
        for first in [-1, 1] {
            for target in 0..=machine.states {
                rules.add(machine, target, first);
            }
            let len = rules.list.len() as u16;
            rules.starts[(first > 0) as usize].push(len);
        }
        rules
    }

    /// Appends the rules that lead to a state, or those that halt, the ones with this step first, among them
    /// those that stand for this state, then those that stand for greater symbols.
    fn add(&mut self, machine: &Machine, target: usize, first: i8) {
        let from = self.list.len();
        self.starts[(first > 0) as usize].push(from as u16);
        for state in 0..machine.states {
            for symbol in 0..machine.symbols() {
                let entry = machine.entries[state][symbol];
                let leads = match entry.next {
                    Next::State => entry.state as usize,
                    _ => machine.states,
                };
                if leads == target {
                    self.list.push(Rule {
                        state: state as u8,
                        symbol: symbol as u8,
                        entry,
                    });
                }
            }
        }
        self.list[from..].sort_unstable_by_key(|rule| {
            (
                rule.entry.step != first,
                rule.state as usize != target,
                Reverse(rule.symbol),
                Reverse(rule.state),
            )
        });
    }
}

/// A node on the way down, with the fields that the program's frames have.
#[allow(dead_code)]
#[derive(Clone, Copy)]
pub struct Frame {
    pub position: i64,
    pub state: u8,
    pub before: u8,
    pub others: u16,
    pub next: u16,
    pub end: u16,
}

/// What could come before a node.
#[derive(Clone, Copy)]
pub struct Branch {
    pub position: i64,
    pub state: u8,
    pub symbol: u8,
    pub step: i8,
    pub held: u8,
    pub others: u16,
}

/// A walk through the tree of what could come before a halt. A cell shows a known symbol as one more, an
/// unknown one as 0.
pub struct Walk<'a> {
    pub rules: &'a Rules,
    pub cells: &'a mut [u8],
    pub frames: &'a mut Vec<Frame>,
    pub most_levels: usize,
    pub most_nodes: u64,
    pub levels: usize,
    pub nodes: u64,
}

impl Walk<'_> {
    pub fn place(&self, position: i64) -> usize {
        (position + self.most_levels as i64) as usize
    }

    #[inline]
    pub fn enter(&mut self, branch: Branch, level: usize) -> Option<Frame> {
        if self.most_levels <= level || self.most_nodes <= self.nodes {
            return None;
        }
        let place = self.place(branch.position);
        self.cells[place] = branch.symbol + 1;
        self.nodes += 1;
        self.levels = self.levels.max(level + 1);
        let others = branch.others + (branch.symbol != 0) as u16 - (branch.held > 1) as u16;
        if branch.state == 0 && others == 0 {
            return None;
        }
        let state = branch.state as usize;
        let starts = &self.rules.starts[(branch.step > 0) as usize];
        Some(Frame {
            position: branch.position,
            state: branch.state,
            before: branch.held,
            others,
            next: starts[state],
            end: starts[state + 1],
        })
    }

    #[inline]
    pub fn next_branch(&self, frame: Frame) -> Option<(Branch, u16)> {
        for index in frame.next..frame.end {
            let rule = self.rules.list[index as usize];
            let position = frame.position - rule.entry.step as i64;
            let held = self.cells[self.place(position)];
            if held == 0 || held == rule.entry.write + 1 {
                let branch = Branch {
                    position,
                    state: rule.state,
                    symbol: rule.symbol,
                    step: rule.entry.step,
                    held,
                    others: frame.others,
                };
                return Some((branch, index + 1));
            }
        }
        None
    }

    #[inline(never)]
    pub fn explore(&mut self, root: Branch) -> bool {
        self.frames.clear();
        let Some(mut top) = self.enter(root, 0) else {
            return false;
        };
        loop {
            match self.next_branch(top) {
                Some((branch, next)) => {
                    let Some(child) = self.enter(branch, self.frames.len() + 1) else {
                        return false;
                    };
                    top.next = next;
                    self.frames.push(top);
                    top = child;
                }
                None => {
                    let place = self.place(top.position);
                    self.cells[place] = top.before;
                    match self.frames.pop() {
                        Some(parent) => top = parent,
                        None => return true,
                    }
                }
            }
        }
    }
}

/// The levels and the nodes of the tree, where it ends within the limits and the start matches none of its
/// nodes.
pub fn backward(
    machine: &Machine,
    limits: &Limits,
    cells: &mut [u8],
    frames: &mut Vec<Frame>,
) -> Option<(usize, u64)> {
    let rules = Rules::new(machine);
    let mut walk = Walk {
        rules: &rules,
        cells,
        frames,
        most_levels: limits.depth,
        most_nodes: limits.nodes,
        levels: 0,
        nodes: 0,
    };
    let starts = &rules.starts[1];
    let halting = starts[machine.states] as usize..starts[machine.states + 1] as usize;
    let ends = rules.list[halting].iter().all(|rule| {
        walk.explore(Branch {
            position: 0,
            state: rule.state,
            symbol: rule.symbol,
            step: 1,
            held: 0,
            others: 0,
        })
    });
    let end = (walk.levels, walk.nodes);
    let reached = walk.levels as usize;
    let middle = limits.depth;
    cells[middle - reached.min(middle)..=middle + reached].fill(0);
    ends.then_some(end)
}
