//! Page masters for the desk embosser: safe functions over `libism_page.a`, beside the crate `ism`.
//!
//! A page is the data of a sector of length code 3: 25 lines of 40 cells, line after line, one byte a cell, and then 24
//! bytes of 00. In a cell bit 0 is dot 1, up to bit 7 for dot 8. Page n stands in the sector of number n, from 1 on.
//! Sectors come and go as a set, in the form of [`ism::merge`].
//!
//! ```no_run
//! let cells = [0xFF; 2 * ism_page::PAGE_CELLS]; // every dot raised
//! let mut set = [0; 2 * ism_page::PAGE_SET_BYTES];
//! let stored = ism_page::make_pages(&cells, 2, &mut set)?;
//! let mut back = [0; 2 * ism_page::PAGE_CELLS];
//! let pages = ism_page::read_pages(&set[..stored], 2, &mut back)?;
//! assert!(back == cells && pages.dots() == [8_000, 8_000]);
//! # Ok::<(), ism::Refusal>(())
//! ```

#![no_std]
#![deny(missing_docs)]

#[cfg(test)]
extern crate std;

pub mod sys;
#[cfg(test)]
mod tests;

use ism::Refusal;

/// The most pages of one call.
pub const MAX_PAGES: usize = 16;
/// Lines of a page.
pub const PAGE_LINES: usize = 25;
/// Cells of a line.
pub const LINE_CELLS: usize = 40;
/// Cells of a page, a byte each.
pub const PAGE_CELLS: usize = PAGE_LINES * LINE_CELLS;
/// Bytes of a page's sector in a set.
pub const PAGE_SET_BYTES: usize = 1_027;

/// What reading gives besides the cells.
#[derive(Clone, Copy, Debug, PartialEq, Eq)]
pub struct Pages {
    /// cells stored, [`PAGE_CELLS`] for each page
    pub cells: usize,
    count: usize,
    dots: [u32; MAX_PAGES],
}

impl Pages {
    /// The number of raised dots on each page, page 1 first.
    pub fn dots(&self) -> &[u32] {
        &self.dots[..self.count]
    }
}

/// Reads pages 1 to `pages` of a set of sectors to the front of `cells`.
///
/// Refusals in order: count out of range (not 1 to [`MAX_PAGES`]), sector size mismatch, too many sectors and sectors at
/// odds as [`ism::merge`] of the set with the empty set gives them, page lost, fill soiled, output too short.
pub fn read_pages(set: &[u8], pages: usize, cells: &mut [u8]) -> Result<Pages, Refusal> {
    // SAFETY: each pointer comes with the length of its slice, and slices do not overlap
    let read = unsafe { sys::ism_read_pages(set.as_ptr(), set.len(), pages as u64, cells.as_mut_ptr(), cells.len()) };
    match Refusal::from_numbers(read.number, read.place) {
        Some(refusal) => Err(refusal),
        None => Ok(Pages { cells: read.used as usize, count: read.count as usize, dots: read.dots }),
    }
}

/// Makes pages into sectors 1 to `pages` of length code 3, as a set at the front of `set`, and gives its bytes.
///
/// Refusals in order: count out of range (not 1 to [`MAX_PAGES`]), sector size mismatch (not [`PAGE_CELLS`] cells for
/// each page), output too short.
pub fn make_pages(cells: &[u8], pages: usize, set: &mut [u8]) -> Result<usize, Refusal> {
    // SAFETY: each pointer comes with the length of its slice, and slices do not overlap
    let made = unsafe { sys::ism_make_pages(cells.as_ptr(), cells.len(), pages as u64, set.as_mut_ptr(), set.len()) };
    match Refusal::from_numbers(made.number, made.place) {
        Some(refusal) => Err(refusal),
        None => Ok(made.used as usize),
    }
}
