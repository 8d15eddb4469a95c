//! The rules of the paper, written down a second time to compare the library with.
//!
//! The shape is chosen to differ from any quick implementation: bits, symbols and classes are text, the CRC register is
//! sixteen single bits, limits are found by trying. Nothing here is meant to be fast. A module stands for a section.

pub mod best;
mod cells;
pub mod fifo;
pub mod held;
pub mod image;
pub mod index;
mod items;
pub mod merge;
pub mod page;
mod profile;
mod reading;
pub mod report;
mod sector;
pub mod slow;
pub mod strip;
pub mod track_set;

pub use cells::*;
pub use items::*;
pub use profile::*;
pub use reading::*;
pub use sector::*;

pub const MOST_BYTES: usize = 6_400;
pub const MOST_INTERVALS: usize = 51_202;
pub const MOST_FIELD_BYTES: u64 = 1_030;

/// A refusal: the number in the paper's table, and the place.
#[derive(Clone, Copy, Debug, PartialEq, Eq)]
pub struct Refused {
    pub number: u32,
    pub place: u32,
}

fn refuse<T>(number: u32, place: usize) -> Result<T, Refused> {
    let place = u32::try_from(place).expect("a place within the limits");
    Err(Refused { number, place })
}

/// Refusal 9.
fn fit<T>(result: Vec<T>, room: usize) -> Result<Vec<T>, Refused> {
    if room < result.len() {
        refuse(9, 0)
    } else {
        Ok(result)
    }
}
