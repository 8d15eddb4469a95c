//! MFM flux intervals after the ISM chip: safe functions over `libism.a`.
//!
//! Items are numbers: 0 to 255 a data byte, [`MARK_A1`] and [`MARK_C2`] the mark bytes, [`CHECK`] a check order.
//! Intervals, margins and clearances are half clocks. Places and counts are `usize`; the figures of a report, which add
//! up over any number of lists, are `u64`. A refused call returns a [`Refusal`] and changes no buffer; an accepted one
//! fills the front of the output and leaves the rest as it was.
//!
//! ```
//! let profile = ism::Profile {
//!     t1: 58, t0: 29, early: 8, normal: 10, late: 12, min: 36,
//!     b23_short: 73, b23_long: 73, b34_short: 106, b34_long: 106, rpt: 139,
//! };
//! let mut intervals = [0; ism::write_room(4)];
//! let count = ism::write(profile, &[ism::MARK_A1, ism::ID_ADDRESS, ism::CHECK], &mut intervals)?;
//! let mut items = [0; 4];
//! let read = ism::read(profile, &intervals[..count], &mut items)?;
//! assert_eq!(items[..2], [ism::MARK_A1, ism::ID_ADDRESS]);
//! assert_eq!(read.items, 4); // the check order has become two bytes
//! assert!(read.clearance >= ism::margin(profile)?); // as it was written
//! # Ok::<(), ism::Refusal>(())
//! ```

#![no_std]
#![deny(missing_docs)]

#[cfg(test)]
extern crate std;

mod best;
mod fifo;
mod index;
mod limits;
mod passes;
mod refusal;
mod report;
mod slow;
pub mod sys;
#[cfg(test)]
mod tests;

pub use best::{best_windows, Best};
pub use fifo::{Fifo, FifoMode};
pub use index::{index_track, DataField, Index, IndexEntry};
pub use limits::{margin_limits, After, Edge, Limit, Limits, Side, MAX_LIMITS};
pub use passes::{merge, read_track, sectors, Sector, SectorSet, Sectors, MAX_SECTORS, MAX_SET_BYTES};
pub use refusal::Refusal;
pub use report::{drive_report, Report};
pub use slow::{read_corrected, Corrected};
pub use sys::{Profile, ReportRow};

use refusal::accepted;

/// Mark byte A1 as an item.
pub const MARK_A1: u16 = 0x1A1;
/// Mark byte C2 as an item.
pub const MARK_C2: u16 = 0x1C2;
/// A check order: two bytes, the CRC register.
pub const CHECK: u16 = 0x200;
/// The data byte after the marks of an ID field, FE.
pub const ID_ADDRESS: u16 = 0xFE;
/// The data byte after the marks of a data field, FB.
pub const DATA_ADDRESS: u16 = 0xFB;
/// The most items, written bytes, or bytes read in one strip.
pub const MAX_BYTES: usize = 6_400;
/// The most intervals of one strip; always room enough for [`write()`].
pub const MAX_INTERVALS: usize = 51_202;
/// The most bytes of one field.
pub const MAX_FIELD_BYTES: usize = 1_030;
/// Intervals of class 2 before a lock.
pub const SYNC_INTERVALS: usize = 64;
/// Bytes of an ID field: three marks, FE, four bytes and two check bytes.
pub const ID_BYTES: usize = 10;
/// Bytes of a data field besides the data: three marks, FB and two check bytes.
pub const DATA_OVERHEAD: usize = 6;
/// Items that [`make_sector`] adds to the data.
pub const SECTOR_OVERHEAD: usize = 114;

/// Intervals that are always room enough for [`write()`] of so many written bytes, a check order counting two.
pub const fn write_room(bytes: usize) -> usize {
    bytes.saturating_mul(8).saturating_add(2)
}

/// Data bytes of a sector by its length code: 128, 256, 512, 1,024 for 0, 1, 2, 3.
pub const fn sector_bytes(code: u8) -> Option<usize> {
    if code <= 3 {
        Some(128 << code)
    } else {
        None
    }
}

/// The class of an interval. Its edges depend on whether the interval before it is of class 2; the first interval of a
/// strip, of a field, of a report's list and of a search counts as coming after class 2.
#[derive(Clone, Copy, Debug, PartialEq, Eq, PartialOrd, Ord)]
pub enum Class {
    /// below Min
    Narrow,
    /// a cell of 2 units
    Two,
    /// a cell of 3 units
    Three,
    /// a cell of 4 units
    Four,
    /// Rpt or more
    Wide,
}

/// What the class operation gives.
#[derive(Clone, Copy, Debug, PartialEq, Eq)]
pub struct Classed {
    /// its class
    pub class: Class,
    /// half clocks by which the interval could move either way and keep its class; 0 for narrow and wide
    pub clearance: u32,
}

/// What the strip reader gives besides the items.
#[derive(Clone, Copy, Debug, PartialEq, Eq)]
pub struct Strip {
    /// items read
    pub items: usize,
    /// the least clearance of an interval
    pub clearance: u32,
}

/// What the field reader gives besides the items.
#[derive(Clone, Copy, Debug, PartialEq, Eq)]
pub struct Field {
    /// items read, equal to the count asked for
    pub items: usize,
    /// intervals used; the rest of the list begins there
    pub used: usize,
    /// whether the CRC register is zero after the items
    pub holds: bool,
    /// the least clearance of a used interval
    pub clearance: u32,
}

/// Track, side, sector and length code of an ID field.
#[derive(Clone, Copy, Debug, PartialEq, Eq)]
pub struct SectorId {
    /// the byte after FE
    pub track: u8,
    /// the second
    pub side: u8,
    /// the third: the sector's number
    pub sector: u8,
    /// 0, 1, 2, 3 for 128, 256, 512, 1,024 bytes; [`make_sector`] takes no code 0, which old disks have
    pub code: u8,
}

/// The linked library's version: major x 10,000 + minor x 100 + patch. A library of another interface than this crate's
/// does not link; one of another version may have more functions.
pub fn version() -> u32 {
    // SAFETY: a number out
    unsafe { sys::ism_version() }
}

/// Half clocks by which every interval may be longer or shorter and still be read as written.
pub fn margin(profile: Profile) -> Result<u32, Refusal> {
    // SAFETY: numbers in, numbers out
    let answer = unsafe { sys::ism_margin(profile) };
    Ok(accepted(answer)?.count as u32) // it is below Rpt
}

/// The class of one interval, and how far it is inside its window. `after_short` tells whether the interval before it
/// was of class 2; it is `true` for the first.
pub fn classify(profile: Profile, interval: u16, after_short: bool) -> Result<Classed, Refusal> {
    // SAFETY: numbers in, numbers out
    let answer = accepted(unsafe { sys::ism_class(profile, interval, u32::from(after_short)) })?;
    let class = match answer.count {
        1 => Class::Narrow,
        2 => Class::Two,
        3 => Class::Three,
        4 => Class::Four,
        _ => Class::Wide,
    };
    Ok(Classed { class, clearance: answer.clearance })
}

/// Writes the intervals of `items` to the front of `out` and gives their count.
///
/// Refusals in order: profile, too long, not an item, output too short.
pub fn write(profile: Profile, items: &[u16], out: &mut [u16]) -> Result<usize, Refusal> {
    // SAFETY: each pointer comes with the length of its slice, and slices do not overlap
    let answer = unsafe { sys::ism_write(profile, items.as_ptr(), items.len(), out.as_mut_ptr(), out.len()) };
    Ok(accepted(answer)?.count as usize)
}

/// Reads the items of a whole stream to the front of `out` and gives their count, and how near an interval came to an
/// edge of its window.
///
/// Refusals in order: profile, too many intervals, interval too short or too long, not whole bytes, too many bytes,
/// misplaced mark, output too short.
pub fn read(profile: Profile, intervals: &[u16], out: &mut [u16]) -> Result<Strip, Refusal> {
    // SAFETY: each pointer comes with the length of its slice, and slices do not overlap
    let answer = unsafe { sys::ism_read(profile, intervals.as_ptr(), intervals.len(), out.as_mut_ptr(), out.len()) };
    let answer = accepted(answer)?;
    Ok(Strip { items: answer.count as usize, clearance: answer.clearance })
}

/// The first lock: the first place at which the classes of one A1 mark or of two C2 marks stand behind 64 intervals of
/// class 2, all of them at or after `start`. In a stream with marks that need not be where such a mark was written; in
/// one of data bytes and check orders alone there is none.
///
/// The interval at `start` counts as coming after class 2, whatever stands before it: the place found is that in the
/// list from there on, and `start` added.
pub fn find_lock(profile: Profile, intervals: &[u16], start: usize) -> Result<usize, Refusal> {
    // SAFETY: the pointer comes with the length of its slice
    let answer = unsafe { sys::ism_find(profile, intervals.as_ptr(), intervals.len(), start as u64) };
    Ok(accepted(answer)?.count as usize)
}

/// Reads `bytes` items from the first interval on to the front of `out`.
///
/// Refusals in order: profile, count out of range, interval too short, too long or ends early as first met, misplaced
/// mark, output too short.
pub fn read_field(profile: Profile, intervals: &[u16], bytes: usize, out: &mut [u16]) -> Result<Field, Refusal> {
    // SAFETY: each pointer comes with the length of its slice, and slices do not overlap
    let answer = unsafe {
        sys::ism_read_field(profile, intervals.as_ptr(), intervals.len(), bytes as u64, out.as_mut_ptr(), out.len())
    };
    let answer = accepted(answer)?;
    Ok(Field {
        items: answer.count as usize,
        used: answer.used as usize,
        holds: answer.holds != 0,
        clearance: answer.clearance,
    })
}

/// Reads as [`read_field`] does, and gives the rest of `intervals` from the first unused one; on a refusal, all of them.
pub fn read_rest<'a>(profile: Profile, intervals: &'a [u16], bytes: usize, out: &mut [u16]) -> &'a [u16] {
    let used = read_field(profile, intervals, bytes, out).map_or(0, |field| field.used);
    &intervals[used..]
}

/// Makes the items of one sector at the front of `out` and gives their count, `data.len() + SECTOR_OVERHEAD`.
///
/// Refusals in order: sector size mismatch (length code 0 or above 3, or data not that long), output too short.
pub fn make_sector(id: SectorId, data: &[u8], out: &mut [u16]) -> Result<usize, Refusal> {
    let SectorId { track, side, sector, code } = id;
    // SAFETY: each pointer comes with the length of its slice, and slices do not overlap
    let answer = unsafe {
        sys::ism_make_sector(track, side, sector, code, data.as_ptr(), data.len(), out.as_mut_ptr(), out.len())
    };
    Ok(accepted(answer)?.count as usize)
}

/// Makes the bit image of `items` at the front of `words`, one code word for each written byte, and gives their count.
///
/// Refusals in order: too long, not an item, output too short.
pub fn make_image(items: &[u16], words: &mut [u16]) -> Result<usize, Refusal> {
    // SAFETY: each pointer comes with the length of its slice, and slices do not overlap
    let answer = unsafe { sys::ism_make_image(items.as_ptr(), items.len(), words.as_mut_ptr(), words.len()) };
    Ok(accepted(answer)?.count as usize)
}

/// Reads the items of a bit image to the front of `items` and gives their count.
///
/// Refusals in order: too many words, unruly word, output too short.
pub fn read_image(words: &[u16], items: &mut [u16]) -> Result<usize, Refusal> {
    // SAFETY: each pointer comes with the length of its slice, and slices do not overlap
    let answer = unsafe { sys::ism_read_image(words.as_ptr(), words.len(), items.as_mut_ptr(), items.len()) };
    Ok(accepted(answer)?.count as usize)
}
