//! Writer.

use std::slice::Iter;

use ism::sys::{Answer, Profile};

use super::passed;
use crate::plain::register::{is_item, ALL_ONES, CHECK, MARK_A1, MARK_C2};
use crate::plain::words::{CLOCKS, DATA, WORD_A1, WORD_C2};
use crate::plain::{check_profile, counted, either, refused, MAX_BYTES};

/// The code word of a written byte behind another: a clock is 1 between two 0s.
#[inline(always)]
fn word_of(before: u16, byte: u16) -> u16 {
    match byte {
        MARK_A1 => WORD_A1,
        MARK_C2 => WORD_C2,
        _ => {
            let data = (byte | byte << 4) & 0x0F0F;
            let data = (data | data << 2) & 0x3333;
            let data = (data | data << 1) & DATA;
            data | !(data << 1 | data >> 1 | before << 15) & CLOCKS
        }
    }
}

/// The closing clock, the closing 0 and the last transition.
fn closing_word(before: u16) -> u16 {
    (!before & 1) << 15 | 0x2000
}

const LENGTHS: usize = 64;

/// The length of a cell by the zeros of the cell before, its own and those of the cell behind, two bits each: whether
/// there are some decides between early, normal and late at both of its ends.
fn lengths_of(p: &Profile) -> [u16; LENGTHS] {
    let point = [[2 * p.normal, 2 * p.early], [2 * p.late, 2 * p.normal]];
    let mut lengths = [0; LENGTHS];
    for before in 0..3 {
        for zeros in 0..3 {
            for behind in 0..3 {
                let [a, b, c] = [before, zeros, behind].map(|zeros| usize::from(zeros > 0));
                let nominal = p.t1 + zeros as u16 * p.t0;
                lengths[16 * before + 4 * zeros + behind] = nominal.wrapping_add(point[b][c]).wrapping_sub(point[a][b]);
            }
        }
    }
    lengths
}

/// Where the writing stands. A length is stored when the cell behind its cell is known.
struct Pen<'a> {
    lengths: [u16; LENGTHS],
    out: &'a mut [u16],
    count: usize,
    /// zeros of the last cells, two bits each, the newest lowest
    cells: usize,
    /// where a transition without zeros before it would be, in half cells from the end of the word
    next: u32,
}

impl Pen<'_> {
    /// The first transition stores nothing: before the cell that it ends there is none. The lead's is 17 from the end.
    #[inline(always)]
    fn put_first(&mut self, word: u16) {
        let place = word.ilog2();
        (self.cells, self.next) = ((17 - 2 - place) as usize, place.wrapping_sub(2));
        self.put_ones(word ^ 1 << place);
    }

    /// The transitions of a word, in order.
    #[inline(always)]
    fn put_ones(&mut self, mut ones: u16) {
        while let Some(place) = ones.checked_ilog2() {
            self.cells = (4 * self.cells + self.next.wrapping_sub(place) as usize) % LENGTHS;
            self.put();
            self.next = place.wrapping_sub(2);
            ones ^= 1 << place;
        }
        self.next = self.next.wrapping_add(16);
    }

    #[inline(always)]
    fn put(&mut self) {
        self.out[self.count] = self.lengths[self.cells];
        self.count += 1;
    }
}

/// The written bytes of a list: its items, or where there are check orders one byte after the other.
#[derive(Clone)]
struct Written<'a, const CHECKS: bool> {
    items: Iter<'a, u16>,
    /// the second byte of a check order if it is due
    low: Option<u16>,
    last: u16,
    crc: u16,
}

impl<const CHECKS: bool> Iterator for Written<'_, CHECKS> {
    type Item = u16;

    #[inline(always)]
    fn next(&mut self) -> Option<u16> {
        if !CHECKS {
            return self.items.next().copied();
        }
        let byte = match self.low.take() {
            Some(low) => low,
            None => match *self.items.next()? {
                CHECK => {
                    self.low = Some(self.crc & 0xFF);
                    self.crc >> 8
                }
                item => item,
            },
        };
        self.crc = passed(self.crc, self.last, byte);
        self.last = byte;
        Some(byte)
    }
}

/// A bit ends a cell unless it is a 0 behind a 1, or has the left out clock of a mark.
fn count_cells(written: impl Iterator<Item = u16>) -> usize {
    let (mut count, mut before) = (2, 0);
    for byte in written {
        let falls = (before << 7 | (byte & 0xFF) >> 1) as u8 & !byte as u8;
        count += 8 - falls.count_ones() as usize - usize::from(byte >> 8);
        before = byte;
    }
    count - usize::from(before & 1)
}

/// The cells of a list if there is room for them.
#[inline(always)]
fn put_list(p: &Profile, mut written: impl Iterator<Item = u16> + Clone, most: usize, out: &mut [u16]) -> Answer {
    if out.len() < most && out.len() < count_cells(written.clone()) {
        return refused(9, 0);
    }
    let mut pen = Pen { lengths: lengths_of(p), out, count: 0, cells: 0, next: 0 };
    if let Some(mut before) = written.next() {
        pen.put_first(word_of(0, before));
        for byte in written {
            pen.put_ones(word_of(before, byte));
            before = byte;
        }
        pen.put_ones(closing_word(before));
    } else {
        pen.put_first(closing_word(0));
    }
    pen.cells = 4 * pen.cells % LENGTHS;
    pen.put();
    counted(pen.count as u64)
}

fn write(p: &Profile, items: &[u16], out: &mut [u16]) -> Result<Answer, Answer> {
    check_profile(p)?;
    if items.len() > MAX_BYTES {
        return Err(refused(4, 0));
    }
    let checks = items.iter().filter(|item| **item == CHECK).count();
    let written = items.len() + checks;
    if written > MAX_BYTES {
        return Err(refused(4, 0));
    }
    if let Some(place) = items.iter().position(|item| !is_item(*item)) {
        return Err(refused(3, place));
    }
    let most = 8 * written + 2;
    let items = items.iter();
    Ok(if checks == 0 {
        put_list(p, Written::<false> { items, low: None, last: 0, crc: ALL_ONES }, most, out)
    } else {
        put_list(p, Written::<true> { items, low: None, last: 0, crc: ALL_ONES }, most, out)
    })
}

#[inline(never)]
pub fn careful_rust_write(profile: Profile, items: &[u16], out: &mut [u16]) -> Answer {
    either(write(&profile, items, out))
}
