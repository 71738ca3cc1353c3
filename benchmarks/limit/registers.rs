//! The steps of a run on a window of 64 cells, with all that a step needs in registers.

use crate::table::{RIGHT, STATE, STOP, Table};
use std::arch::asm;

/// Cells of a window, each a bit, and where a run stands in it. Steps are made in pairs.
#[derive(Clone, Copy)]
pub struct Registers {
    pub tape: u64,
    /// The tape after the first step of the last pair, and the entry of that step.
    pub first_tape: u64,
    pub first_entry: u64,
    /// The cell of the head.
    pub head: u64,
    /// The entry of the last step, which has the state.
    pub entry: u64,
    /// The cells where the head was since this was cleared, and those that end a stretch of pairs.
    pub visited: u64,
    pub unseen: u64,
    /// How many pairs are left.
    pub left: u64,
    pub kept_tape: u64,
    pub kept_head: u64,
    pub kept_entry: u64,
}

/// A step: its number and entry, and the cell of the head and the tape after it.
pub struct Step {
    pub number: u64,
    pub entry: u64,
    pub cell: u64,
    pub tape: u64,
}

impl Step {
    /// Whether the run halts behind it without another step.
    #[inline(always)]
    pub fn is_last(&self, table: &Table) -> bool {
        let is_blank = self.tape & self.cell == 0;
        let entries = if is_blank { table.blank } else { table.one };
        entries >> (self.entry & STATE) & (STOP | RIGHT) == STOP
    }
}

/// A step in assembly, without a branch. `before` becomes the tape. The cell of the head is read from the tape
/// before the last write, since the head has left the written cell: so no step waits for the write of another.
#[rustfmt::skip]
macro_rules! step {
    ($before:literal, $tape:literal, $entry:literal, $next:literal) => {
        concat!(
            "shrx {", $next, "}, {blank}, {", $entry, "}\n",
            "shrx {other}, {one}, {", $entry, "}\n",
            "test {", $before, "}, {head}\n",
            "cmovnz {", $next, "}, {other}\n",
            "mov {", $before, "}, {", $tape, "}\n",
            "xor {", $before, "}, {head}\n",
            "rorx {other}, {head}, 63\n",
            "rorx {head}, {head}, 1\n",
            "test {", $next, ":l}, {", $next, ":l}\n",
            "cmovs {head}, {other}\n",
            "test {", $next, ":l}, 64\n",
            "cmovz {", $before, "}, {", $tape, "}\n",
            "or {visited}, {head}\n",
        )
    };
}

/// One step of a pair.
macro_rules! single {
    ($run:ident, $table:ident, $before:ident, $tape:ident, $entry:ident, $next:ident) => {
        asm!(
            step!("before", "tape", "entry", "next"),
            other = out(reg) _, next = out(reg) $run.$next, entry = in(reg) $run.$entry,
            before = inout(reg) $run.$before, tape = in(reg) $run.$tape, head = inout(reg) $run.head,
            visited = inout(reg) $run.visited, blank = in(reg) $table.blank, one = in(reg) $table.one,
            options(pure, nomem, nostack),
        )
    };
}

impl Registers {
    /// The start of a run, on a blank tape.
    #[inline(always)]
    pub fn start(head: u64) -> Registers {
        Registers {
            tape: 0,
            first_tape: 0,
            first_entry: 0,
            head,
            entry: 0,
            visited: head,
            unseen: !head,
            left: 0,
            kept_tape: !0,
            kept_head: 0,
            kept_entry: 0,
        }
    }

    /// Makes pairs of steps until none are left, one has a step that can't be made, enters a cell that ends the
    /// stretch, or ends with the tape and head that are kept.
    #[inline(always)]
    pub fn advance(&mut self, table: &Table) {
        let mut run = *self;
        unsafe {
            asm!(
                ".p2align 6\n2:",
                step!("first", "tape", "entry", "next"),
                step!("tape", "first", "next", "entry"),
                "test {entry:e}, 256\njnz 5f",
                "test {visited}, {unseen}\njnz 5f",
                "cmp {tape}, {kept_tape}\nje 4f",
                "3: dec {left}\njnz 2b",
                "jmp 5f",
                "4: cmp {head}, {kept_head}\njne 3b",
                "5:",
                other = out(reg) _, next = out(reg) run.first_entry, entry = inout(reg) run.entry,
                first = inout(reg) run.first_tape, tape = inout(reg) run.tape, head = inout(reg) run.head,
                visited = inout(reg) run.visited, left = inout(reg) run.left, unseen = in(reg) run.unseen,
                blank = in(reg) table.blank, one = in(reg) table.one,
                kept_tape = in(reg) run.kept_tape, kept_head = in(reg) run.kept_head,
                options(pure, nomem, nostack),
            )
        }
        *self = run;
    }

    /// Makes the first step of a pair, so far on.
    #[inline(always)]
    pub fn make_first(&mut self, table: &Table, number: u64) -> Step {
        unsafe { single!(self, table, first_tape, tape, entry, first_entry) }
        Step {
            number,
            entry: self.first_entry,
            cell: self.head,
            tape: self.first_tape,
        }
    }

    /// Makes the second step of a pair, so far on.
    #[inline(always)]
    pub fn make_second(&mut self, table: &Table, number: u64) -> Step {
        unsafe { single!(self, table, tape, first_tape, first_entry, entry) }
        self.second(number)
    }

    /// The first step of the last pair, so far on.
    #[inline(always)]
    pub fn first(&self, number: u64) -> Step {
        let back = if self.entry & RIGHT != 0 { 1 } else { 63 };
        Step {
            number,
            entry: self.first_entry,
            cell: self.head.rotate_right(back),
            tape: self.first_tape,
        }
    }

    /// The second step of the last pair, so far on.
    #[inline(always)]
    pub fn second(&self, number: u64) -> Step {
        Step {
            number,
            entry: self.entry,
            cell: self.head,
            tape: self.tape,
        }
    }

    /// Whether the configuration is the kept one.
    #[inline(always)]
    pub fn is_kept(&self) -> bool {
        self.tape == self.kept_tape
            && self.head == self.kept_head
            && (self.entry ^ self.kept_entry) & STATE == 0
    }

    /// Keeps the configuration.
    #[inline(always)]
    pub fn keep(&mut self) {
        self.kept_tape = self.tape;
        self.kept_head = self.head;
        self.kept_entry = self.entry;
    }
}
