//! Intervals to words of sixteen half cells, a clock and a data half cell for each bit; a transition is a one. Half
//! cell 0 is the first transition, the clock of the lead 0; half cell 1 is its data; byte k has those from 16 k + 2.

use ism::sys::Profile;

use super::kinds::{kinds_before, of_kind};
use super::register::MARK;

pub const BLOCK: usize = 64;

/// Words beyond those that are whole which a block may fill.
pub const SLACK: usize = BLOCK / 4 + 4;

/// The zeros of the cells of a block, and whether all intervals are in the windows. The edges are below 32,768, and an
/// interval that is not is in no window, so signed compares do.
#[inline(always)]
fn zeros_of(p: &Profile, intervals: &[u16], zeros: &mut [u16; BLOCK]) -> bool {
    let (b23, b34, width) = (p.b23_short as i16, p.b34_short as i16, p.rpt - p.min);
    let mut outside = 0;
    for (zeros, interval) in zeros.iter_mut().zip(intervals) {
        *zeros = u16::from(*interval as i16 >= b23) + u16::from(*interval as i16 >= b34);
        outside |= u16::from(interval.wrapping_sub(p.min) >= width);
    }
    outside == 0
}

/// The same for a block behind class 2 or not, each interval behind its kind; in `two` whether the last is of class 2.
#[inline(always)]
fn zeros_in_turn(p: &Profile, two: &mut bool, intervals: &[u16], zeros: &mut [u16; BLOCK]) -> bool {
    let mut kinds = [0; BLOCK];
    *two = kinds_before(p, *two, intervals, &mut kinds[..intervals.len()]);
    let (mut outside, width) = (0, p.rpt - p.min);
    for ((zeros, interval), kind) in zeros.iter_mut().zip(intervals).zip(kinds) {
        let b23 = of_kind(kind, p.b23_short, p.b23_long) as i16;
        let b34 = of_kind(kind, p.b34_short, p.b34_long) as i16;
        *zeros = u16::from(*interval as i16 >= b23) + u16::from(*interval as i16 >= b34);
        outside |= u16::from(interval.wrapping_sub(p.min) >= width);
    }
    outside == 0
}

/// A full block's length is known to the compiler, and so is whether there are pairs.
#[inline(always)]
pub fn zeros_of_block<const PAIRS: bool>(p: &Profile, two: &mut bool, block: &[u16], zeros: &mut [u16; BLOCK]) -> bool {
    match (PAIRS, <&[u16; BLOCK]>::try_from(block)) {
        (false, Ok(full)) => zeros_of(p, full, zeros),
        (false, Err(_)) => zeros_of(p, block, zeros),
        (true, Ok(full)) => zeros_in_turn(p, two, full, zeros),
        (true, Err(_)) => zeros_in_turn(p, two, block, zeros),
    }
}

/// Four cells by their zeros, as digits to base 3: their half cells and how many these are. Filled up to a power of 2.
const FOUR_CELLS: [[u16; 2]; 128] = {
    let mut table = [[0; 2]; 128];
    let mut index = 0;
    while index < 81 {
        let zeros = [index / 27, index / 9 % 3, index / 3 % 3, index % 3];
        let mut cell = 0;
        while cell < 4 {
            table[index][0] = table[index][0] << (2 + zeros[cell]) | 1;
            table[index][1] += 2 + zeros[cell] as u16;
            cell += 1;
        }
        index += 1;
    }
    table
};

/// Half cells as they become known, to words of sixteen. Word 0 ends with the lead 0, so that word k is the k-th byte's
/// from 1; up to two words beyond those that are whole may be overwritten.
pub struct WordReader<'a> {
    pub words: &'a mut [u16],
    /// words that are whole
    pub whole: usize,
    /// the newest are the lowest
    pub half_cells: u64,
    /// half cells behind the whole words
    behind: u32,
}

impl<'a> WordReader<'a> {
    pub fn new(words: &'a mut [u16]) -> Self {
        WordReader { words, whole: 0, half_cells: 1, behind: 15 }
    }

    /// Half cells since the first transition.
    #[inline]
    pub fn known(&self) -> usize {
        16 * self.whole + self.behind as usize - 15
    }

    /// The product has 27 a + 9 b + 3 c + d in its highest sixteen bits; nothing below carries.
    #[inline(always)]
    fn add_four(&mut self, zeros: &[u16; 4]) {
        let [a, b, c, d] = zeros.map(u64::from);
        let index = (a | b << 16 | c << 32 | d << 48).wrapping_mul(0x001B_0009_0003_0001) >> 48;
        let [half_cells, count] = FOUR_CELLS[index as usize & 127];
        self.half_cells = self.half_cells << (count & 63) | u64::from(half_cells);
        self.behind += u32::from(count);
    }

    /// Eight cells, 16 to 32 half cells, make one word whole or two.
    #[inline(always)]
    pub fn add_eight(&mut self, zeros: &[u16; 8]) {
        let [a, b, c, d, e, f, g, h] = *zeros;
        self.add_four(&[a, b, c, d]);
        self.add_four(&[e, f, g, h]);
        let words = self.half_cells << (64 - self.behind & 63);
        self.words[self.whole..self.whole + 2].copy_from_slice(&[(words >> 48) as u16, (words >> 32) as u16]);
        self.whole += (self.behind >> 4) as usize;
        self.behind &= 15;
    }

    #[inline]
    pub fn add_one(&mut self, zeros: u16) {
        self.half_cells = self.half_cells << (2 + zeros) | 1;
        self.behind += 2 + u32::from(zeros);
        self.words[self.whole] = (self.half_cells << 16 >> self.behind) as u16;
        self.whole += (self.behind >> 4) as usize;
        self.behind &= 15;
    }
}

pub const WORD_A1: u16 = 0x4489;
pub const WORD_C2: u16 = 0x5224;
pub const DATA: u16 = 0x5555;
pub const CLOCKS: u16 = 0xAAAA;

/// The clocks that a word lacks: those beside which both bits are 0, the one before and its own. Where cells have two
/// units or more, no clock is there too much.
#[inline]
fn missing_clocks(before: u16, word: u16) -> u16 {
    !(word | word << 1 | word >> 1 | before << 15) & CLOCKS
}

#[inline]
pub fn is_mark_word(word: u16) -> bool {
    (word == WORD_A1) | (word == WORD_C2)
}

/// The clocks that a word lacks without being a mark.
#[inline]
fn stray_clocks((before, word): (&u16, &u16)) -> u16 {
    missing_clocks(*before, *word) & u16::from(is_mark_word(*word)).wrapping_sub(1)
}

/// Whether a word behind the first lacks a clock that is not its mark's.
pub fn any_stray(words: &[u16]) -> bool {
    words.iter().zip(&words[1..]).fold(0, |stray, pair| stray | stray_clocks(pair)) != 0
}

/// The interval over the first such clock: as many intervals as ones stand before it.
pub fn lowest_stray(words: &[u16]) -> usize {
    let mut strays = words.iter().zip(&words[1..]).map(stray_clocks);
    let word = strays.position(|stray| stray != 0).unwrap_or(0);
    let clock = stray_clocks((&words[word], &words[word + 1])).leading_zeros();
    let before: u32 = words[1..=word].iter().map(|word| word.count_ones()).sum();
    (before + (words[word + 1] & !(u16::MAX >> clock)).count_ones()) as usize
}

#[inline]
pub fn item_of(word: u16) -> u16 {
    let data = word & DATA;
    let data = (data | data >> 1) & 0x3333;
    let data = (data | data >> 2) & 0x0F0F;
    let data = (data | data >> 4) & 0x00FF;
    data | if is_mark_word(word) { MARK } else { 0 }
}

/// The items of the words behind the first.
pub fn items_of(words: &[u16], out: &mut [u16]) {
    for (item, word) in out.iter_mut().zip(&words[1..]) {
        *item = item_of(*word);
    }
}
