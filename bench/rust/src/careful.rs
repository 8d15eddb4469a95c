//! Writer, readers, finder and index of `ism.h`, and `ism_page.h`, in careful safe Rust, as `bench/c/ism_careful.c` is in C: no table but
//! the lengths of cells, no jumps that depend on the data where they can be avoided.

mod finder;
mod pages;
mod reader;
mod writer;

pub use finder::careful_rust_find;
pub use pages::{careful_rust_make_pages, careful_rust_read_pages};
pub use reader::{careful_rust_read, careful_rust_read_field};
pub use writer::careful_rust_write;

use ism::sys::{Answer, Index, Profile};

use crate::plain::index::{index_track, read_track, Fields};
use crate::plain::register::{ALL_ONES, MARK};

struct Careful;

impl Fields for Careful {
    fn find_lock(p: &Profile, intervals: &[u16], start: u64) -> Option<usize> {
        finder::find_lock(p, intervals, start)
    }

    fn read_items(p: &Profile, intervals: &[u16], out: &mut [u16]) -> Result<Answer, Answer> {
        reader::read_items(p, intervals, out.len() as u64, out)
    }
}

#[inline(never)]
pub fn careful_rust_index_track(profile: Profile, intervals: &[u16]) -> Index {
    index_track::<Careful>(profile, intervals)
}

#[inline(never)]
pub fn careful_rust_read_track(profile: Profile, intervals: &[u16], set: &mut [u8]) -> Answer {
    read_track::<Careful>(profile, intervals, set)
}

/// The register with a byte passed through: the eight bits at once, by x^16 + x^12 + x^5 + 1. Before a mark byte that
/// does not follow a mark byte it is all ones.
#[inline(always)]
fn passed(crc: u16, last: u16, byte: u16) -> u16 {
    let crc = if byte >= MARK && last < MARK { ALL_ONES } else { crc };
    let x = (crc >> 8 ^ byte) & 0xFF;
    let x = x ^ x >> 4;
    crc << 8 ^ x << 12 ^ x << 5 ^ x
}
