//! The contract of `ism.h` in plain safe Rust, as a baseline for the benchmark: no proof, no heap, no table that a call
//! builds beyond what depends on its profile.

mod clearance;
mod fifo;
mod finder;
mod images;
pub(crate) mod index;
pub(crate) mod kinds;
mod passes;
mod reader;
pub(crate) mod register;
mod reports;
pub(crate) mod words;
mod writer;

pub use fifo::*;
pub use finder::plain_rust_find;
pub use images::{plain_rust_make_image, plain_rust_read_image};
pub use index::{plain_rust_index_track, plain_rust_read_track};
pub use passes::plain_rust_merge;
pub use reader::{plain_rust_read, plain_rust_read_field};
pub use reports::{plain_rust_add_reports, plain_rust_drive_report};
pub use writer::{plain_rust_make_sector, plain_rust_write, put_sector};

use clearance::clearance_behind;
pub(crate) use clearance::least_clearance;
use ism::sys::{Answer, Profile};
use kinds::classify;

pub(crate) const MAX_BYTES: usize = 6_400;
pub(crate) const MAX_INTERVALS: usize = 51_202;
pub(crate) const MAX_FIELD_BYTES: u64 = 1_030;

pub(crate) fn refused(number: u32, place: usize) -> Answer {
    Answer { number, place: place as u32, count: 0, used: 0, holds: 0, clearance: 0 }
}

pub(crate) fn counted(count: u64) -> Answer {
    Answer { number: 0, place: 0, count, used: 0, holds: 0, clearance: 0 }
}

/// The margin, below 0 if the windows miss the cell lengths. A longer cell is at its longest where it begins early and
/// ends late, one of 2 units at its shortest the other way round. Behind a cell of 2 units a longer one begins early
/// and one of 2 units normal; behind a longer cell they begin normal and late.
fn least_distance(p: &Profile) -> i32 {
    let [early, normal, late] = [p.early, p.normal, p.late].map(|point| 2 * i32::from(point));
    let (e, l) = (normal - early, late - normal);
    let two = i32::from(p.t1);
    let three = two + i32::from(p.t0);
    let four = three + i32::from(p.t0);
    let [min, b23_short, b23_long, b34_short, b34_long, rpt] = edges_of(p).map(i32::from);
    let outer = (two - e - l - min).min(rpt - 1 - four - e - l);
    let short_23 = (b23_short - 1 - two).min(three + e - b23_short);
    let short_34 = (b34_short - 1 - three - e - l).min(four + e - b34_short);
    let long_23 = (b23_long - 1 - two + l).min(three - b23_long);
    let long_34 = (b34_long - 1 - three - l).min(four - b34_long);
    outer.min(short_23).min(short_34).min(long_23).min(long_34)
}

/// From Min on, in the profile's order.
fn edges_of(p: &Profile) -> [u16; 6] {
    [p.min, p.b23_short, p.b23_long, p.b34_short, p.b34_long, p.rpt]
}

pub(crate) fn check_profile(p: &Profile) -> Result<(), Answer> {
    let cells = [p.t1, p.t0].map(|length| (1..=1023).contains(&length));
    let points = [p.early, p.normal, p.late].map(|point| point <= 15);
    let edges = edges_of(p).map(|edge| (1..=4095).contains(&edge));
    if let Some(which) = cells.iter().chain(&points).chain(&edges).position(|fits| !fits) {
        return Err(refused(1, which + 1));
    }
    if p.early > p.normal || p.normal > p.late || least_distance(p) < 0 {
        return Err(refused(2, 0));
    }
    Ok(())
}

/// A field's answer with the least clearance of the intervals that it used.
pub(crate) fn cleared(p: &Profile, intervals: &[u16], field: Answer) -> Answer {
    Answer { clearance: least_clearance(p, &intervals[..field.used as usize]), ..field }
}

/// One answer from either way out of a function.
pub(crate) fn either(result: Result<Answer, Answer>) -> Answer {
    result.unwrap_or_else(|refusal| refusal)
}

pub fn plain_rust_margin(profile: Profile) -> Answer {
    either(check_profile(&profile).map(|()| counted(least_distance(&profile) as u64)))
}

pub fn plain_rust_class(profile: Profile, interval: u16, after_short: u32) -> Answer {
    let two = after_short != 0;
    let inside = (profile.min..profile.rpt).contains(&interval);
    either(check_profile(&profile).map(|()| Answer {
        clearance: if inside { clearance_behind(&profile, two, &[interval]) } else { 0 },
        ..counted(u64::from(classify(&profile, two, interval)))
    }))
}
