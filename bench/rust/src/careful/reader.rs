//! Strip reader and field reader.

use ism::sys::{Answer, Profile};

use super::passed;
use crate::plain::kinds::{bounds_behind, has_pairs, Bounds};
use crate::plain::register::ALL_ONES;
use crate::plain::words::{is_mark_word, item_of};
use crate::plain::{
    check_profile, cleared, counted, either, least_clearance, refused, MAX_BYTES, MAX_FIELD_BYTES, MAX_INTERVALS,
};

const DATA: u32 = 0x5555;
const WORD: i32 = 16;
/// Behind the last word of a strip: its last data half cell, closing clock, 0 and clock.
const CLOSED: i32 = 4 - 1 - WORD;

/// Half cells as they are read: the newest is the lowest bit. A word is read with the data half cell before it.
#[derive(Clone, Copy)]
struct HalfCells {
    bits: u32,
    /// half cells beyond the word that is being read; while it is not whole, below 0
    over: i32,
}

impl HalfCells {
    /// The clock of the lead 0 and, two half cells before it, a transition: before the first interval counts a class 2.
    const LEAD: HalfCells = HalfCells { bits: 5, over: -1 - WORD };

    /// Whether the newest cell has 2 units, and so its interval, neither narrow nor wide, class 2.
    #[inline(always)]
    fn is_behind_two(self) -> bool {
        self.bits >> 2 & 1 == 1
    }

    /// With one interval more, narrow and wide ones aside.
    #[inline(always)]
    fn with_cell<const PAIRS: bool>(self, behind: &[Bounds; 2], interval: u16) -> HalfCells {
        let Bounds { b23, b34 } = behind[if PAIRS { usize::from(self.is_behind_two()) } else { 1 }];
        let units = 2 + i32::from(interval >= b23) + i32::from(interval >= b34);
        HalfCells { bits: self.bits << units | 1, over: self.over + units }
    }

    /// A whole word, with the data half cell before it on top.
    #[inline(always)]
    fn word(self) -> u32 {
        self.bits.wrapping_shr(self.over as u32)
    }

    /// The data half cells behind which a clock is missing: it, the clock before it and the data before that are all 0.
    #[inline(always)]
    fn missing_clocks(self) -> u32 {
        let word = self.word();
        !(word | word >> 1 | word >> 2) & DATA
    }

    #[inline(always)]
    fn is_stray(self) -> bool {
        self.missing_clocks() != 0 && !is_mark_word(self.word() as u16)
    }

    /// The interval over the first missing clock of a word that interval `at` has made whole.
    #[cold]
    fn stray_place(self, at: usize) -> usize {
        let top = self.missing_clocks().ilog2() as i32;
        let behind = self.bits & ((1 << (top + 1 + self.over)) - 1);
        at + 1 - behind.count_ones() as usize
    }

    /// Whether the last interval is a gap that begins on the last bit.
    fn ends_in_gap(self) -> bool {
        self.over == CLOSED && self.bits % 16 == 1
    }
}

/// Refusals 5 and 6.
#[inline(always)]
fn check_interval(p: &Profile, interval: u16, place: usize) -> Result<(), Answer> {
    if interval.wrapping_sub(p.min) < p.rpt - p.min {
        return Ok(());
    }
    Err(refused(if interval < p.min { 5 } else { 6 }, place))
}

/// Behind any other interval, and behind one of class 2.
fn both_bounds(p: &Profile) -> [Bounds; 2] {
    [false, true].map(|two| bounds_behind(p, two))
}

/// The first pass stores nothing: how many bytes a strip has, or why it is refused.
fn check_strip<const PAIRS: bool>(p: &Profile, intervals: &[u16]) -> Result<usize, Answer> {
    let behind = both_bounds(p);
    let (mut h, mut bytes, mut stray) = (HalfCells::LEAD, 0, None);
    for (place, interval) in intervals.iter().enumerate() {
        check_interval(p, *interval, place)?;
        h = h.with_cell::<PAIRS>(&behind, *interval);
        if h.over >= 0 {
            if h.is_stray() && stray.is_none() {
                stray = Some(h.stray_place(place));
            }
            h.over -= WORD;
            bytes += 1;
        }
    }
    if h.over != CLOSED {
        return Err(refused(7, 0));
    }
    if bytes > MAX_BYTES {
        return Err(refused(4, 0));
    }
    match stray.or(h.ends_in_gap().then(|| intervals.len() - 1)) {
        Some(place) => Err(refused(8, place)),
        None => Ok(bytes),
    }
}

fn store_strip<const PAIRS: bool>(p: &Profile, intervals: &[u16], out: &mut [u16]) {
    let behind = both_bounds(p);
    let (mut h, mut out) = (HalfCells::LEAD, out.iter_mut());
    for interval in intervals {
        h = h.with_cell::<PAIRS>(&behind, *interval);
        if h.over >= 0 {
            if let Some(item) = out.next() {
                *item = item_of(h.word() as u16);
            }
            h.over -= WORD;
        }
    }
}

/// The items of a strip, and how many.
fn read_strip(p: &Profile, intervals: &[u16], out: &mut [u16]) -> Result<usize, Answer> {
    let pairs = has_pairs(p);
    let bytes = if pairs { check_strip::<true>(p, intervals) } else { check_strip::<false>(p, intervals) }?;
    let out = out.get_mut(..bytes).ok_or(refused(9, 0))?;
    if pairs {
        store_strip::<true>(p, intervals, out);
    } else {
        store_strip::<false>(p, intervals, out);
    }
    Ok(bytes)
}

/// A strip of n bytes has 16 n + 4 half cells: the lead 0's data, the words, and closing clock, data and clock.
fn read(p: &Profile, intervals: &[u16], out: &mut [u16]) -> Result<Answer, Answer> {
    check_profile(p)?;
    if intervals.len() > MAX_INTERVALS {
        return Err(refused(4, 0));
    }
    let bytes = read_strip(p, intervals, out)?;
    Ok(Answer { clearance: least_clearance(p, intervals), ..counted(bytes as u64) })
}

#[inline(never)]
pub fn careful_rust_read(profile: Profile, intervals: &[u16], out: &mut [u16]) -> Answer {
    either(read(&profile, intervals, out))
}

/// The bytes of a field to a buffer of their number; how many intervals they use.
fn read_bytes<const PAIRS: bool>(p: &Profile, intervals: &[u16], items: &mut [u16]) -> Result<usize, Answer> {
    let behind = both_bounds(p);
    let (mut h, mut stray, mut used) = (HalfCells::LEAD, None, 0);
    for item in items {
        while h.over < 0 {
            let interval = *intervals.get(used).ok_or(refused(11, 0))?;
            check_interval(p, interval, used)?;
            h = h.with_cell::<PAIRS>(&behind, interval);
            used += 1;
        }
        if h.is_stray() && stray.is_none() {
            stray = Some(h.stray_place(used - 1));
        }
        *item = item_of(h.word() as u16);
        h.over -= WORD;
    }
    match stray.or(h.ends_in_gap().then(|| used - 1)) {
        Some(place) => Err(refused(8, place)),
        None => Ok(used),
    }
}

fn register_after(items: &[u16]) -> u16 {
    let pass = |(crc, last), item: &u16| (passed(crc, last, *item), *item);
    items.iter().fold((ALL_ONES, 0), pass).0
}

/// A field under a true profile, its clearance aside. An ID field goes through a small buffer, since clearing a large
/// one costs more than the reading.
pub fn read_items(p: &Profile, intervals: &[u16], bytes: u64, out: &mut [u16]) -> Result<Answer, Answer> {
    const SHORT: usize = 32;
    let count = bytes as usize;
    match bytes {
        1..=MAX_FIELD_BYTES if count <= SHORT => read_through(p, intervals, &mut [0; SHORT][..count], out),
        1..=MAX_FIELD_BYTES => read_through(p, intervals, &mut [0; MAX_FIELD_BYTES as usize][..count], out),
        _ => Err(refused(12, 0)),
    }
}

fn read_through(p: &Profile, intervals: &[u16], items: &mut [u16], out: &mut [u16]) -> Result<Answer, Answer> {
    let used =
        if has_pairs(p) { read_bytes::<true>(p, intervals, items) } else { read_bytes::<false>(p, intervals, items) }?;
    out.get_mut(..items.len()).ok_or(refused(9, 0))?.copy_from_slice(items);
    let holds = u32::from(register_after(items) == 0);
    Ok(Answer { used: used as u64, holds, ..counted(items.len() as u64) })
}

#[inline(never)]
pub fn careful_rust_read_field(profile: Profile, intervals: &[u16], bytes: u64, out: &mut [u16]) -> Answer {
    let field = check_profile(&profile).and_then(|()| read_items(&profile, intervals, bytes, out));
    either(field.map(|field| cleared(&profile, intervals, field)))
}
