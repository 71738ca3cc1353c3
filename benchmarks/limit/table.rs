//! A machine's table in two words, and how a line is read as one: 64 bytes at once, by a bit for each.

use std::arch::x86_64::*;

/// The low bits of an entry: by how much the entries are shifted for the state to which it leads.
pub const STATE: u64 = 63;
/// The bit above: its cell changes.
pub const FLIP: u64 = 1 << 6;
/// It moves to the right, or halts by a step.
pub const RIGHT: u64 = 1 << 7;
/// It leads to no state. What is looked up behind it leads to none either.
pub const STOP: u64 = 1 << 8;
/// How many bits an entry has.
pub const BITS: usize = 9;
/// The shift of an entry that leads to no state: bit 63 of a table is its STOP.
const BEHIND: u64 = 55;
/// How many bytes are read for a line, more than the longest has.
pub const SIGHT: usize = 64;
/// The bytes and entries at which a group begins, and the lowest bits of the entries of a table.
const GROUPS: u64 = every(7);
const ENTRIES: u64 = every(BITS);

/// Bits of a word so far apart, seven in all.
const fn every(apart: usize) -> u64 {
    let (mut bits, mut at) = (0, 0);
    while at < 7 {
        bits |= 1 << (apart * at);
        at += 1;
    }
    bits
}

/// The bytes in front of a list. It takes a processor with AVX2 and BMI2.
struct Bytes([__m256i; 2]);

impl Bytes {
    /// The highest bit of each byte.
    #[inline(always)]
    fn bits(&self, of: impl Fn(__m256i) -> __m256i) -> u64 {
        let [first, second] = self
            .0
            .map(|half| unsafe { _mm256_movemask_epi8(of(half)) } as u32 as u64);
        first | second << 32
    }

    /// Which bytes are these.
    #[inline(always)]
    fn are(&self, byte: u8) -> u64 {
        self.bits(|half| unsafe { _mm256_cmpeq_epi8(half, _mm256_set1_epi8(byte as i8)) })
    }

    /// Which bytes are one of so many letters from A on.
    #[inline(always)]
    fn are_letters(&self, count: u64) -> u64 {
        self.bits(|half| unsafe {
            let place = _mm256_sub_epi8(half, _mm256_set1_epi8(b'A' as i8));
            let last = _mm256_set1_epi8((count as i8).wrapping_sub(1));
            _mm256_cmpeq_epi8(_mm256_min_epu8(place, last), place)
        })
    }

    /// A bit of each letter's place in the alphabet, from 0 for A: the bit that is shifted up to the highest.
    #[inline(always)]
    fn place_bits<const UP: i32>(&self) -> u64 {
        self.bits(|half| unsafe {
            _mm256_slli_epi16::<UP>(_mm256_sub_epi8(half, _mm256_set1_epi8(b'A' as i8)))
        })
    }
}

/// The entries of all states for a blank cell, and for a cell with 1.
#[derive(Clone, Copy)]
pub struct Table {
    pub blank: u64,
    pub one: u64,
}

impl Table {
    /// Reads the machine in front of a newline: its table, and the length of its text. None where no
    /// machine of up to seven states and two symbols stands there.
    #[inline(always)]
    pub fn read(text: &[u8; SIGHT]) -> Option<(Table, usize)> {
        let half = |at: usize| unsafe { _mm256_loadu_si256(text[at..].as_ptr() as *const __m256i) };
        let bytes = Bytes([half(0), half(32)]);
        let length = bytes.are(b'\n').trailing_zeros();
        let within = (1u64 << (length & 63)) - 1;
        let blank = GROUPS & within;
        let (writes, underscores) = (blank | blank << 3, blank >> 1);
        let (ones, rights, halts) = (bytes.are(b'1'), bytes.are(b'R'), bytes.are(b'Z'));
        let dashes = bytes.are(b'-');
        let undefined = dashes & writes;
        let defined = writes ^ undefined;
        let letters = bytes.are_letters(blank.count_ones() as u64);
        let wrong = (ones | bytes.are(b'0')) & writes ^ defined
            | (rights | bytes.are(b'L')) & writes << 1 ^ defined << 1
            | (letters | halts) & writes << 2 ^ defined << 2
            | dashes & within ^ undefined * 7
            | bytes.are(b'_') & within ^ underscores;
        if wrong != 0 || length > 48 || length % 7 != 6 {
            return None;
        }
        // three bits an entry, where its bytes are: it flips, moves right or halts by a step, and stops
        let actions = ones & blank
            | bytes.are(b'0') & blank << 3
            | (rights | halts >> 1) & writes << 1
            | (halts | dashes) & writes << 2;
        let states = (bytes.place_bits::<7>() & !halts) >> 2 & writes
            | bytes.place_bits::<6>() >> 1 & writes << 1
            | bytes.place_bits::<5>() & writes << 2;
        let table = |first: u64| {
            let spread =
                |bits: u64, at: u64| unsafe { _pdep_u64(_pext_u64(bits, first * 7), ENTRIES * 7 << at) };
            let (state, action) = (spread(states, 0), spread(actions, 6));
            state * 9 | action | (action >> 8 & ENTRIES) * BEHIND | 1 << 63
        };
        let table = Table {
            blank: table(blank),
            one: table(blank << 3),
        };
        Some((table, length as usize))
    }
}
