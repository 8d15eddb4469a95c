//! What the tests share: random pages, masters made from them, and the way back.
#![allow(dead_code)]

use mfm_disk::disk::Disk;
use mfm_disk::format::Format;
use mfm_disk::read::profile_of;
use mfm_page::master::{Master, Pass};
use mfm_page::page::Page;

pub const FORMATS: [Format; 3] = [Format::Hfe, Format::Mfm, Format::Dmk];

/// Random numbers that are the same on each run.
pub struct Random(pub u64);

impl Random {
    pub fn next(&mut self) -> u64 {
        self.0 ^= self.0 << 13;
        self.0 ^= self.0 >> 7;
        self.0 ^= self.0 << 17;
        self.0.wrapping_mul(0x2545_F491_4F6C_DD1D)
    }

    pub fn below(&mut self, limit: usize) -> usize {
        (self.next() >> 11) as usize % limit
    }

    /// A page with some of these dots: full, sparse, short lines or blank.
    pub fn page(&mut self, dots: u8) -> Page {
        let mut page = Page::BLANK;
        let kind = self.below(8);
        for cell in &mut page.0 {
            *cell = (self.next() >> 56) as u8 & dots;
            if kind > 3 && self.below(8) > 0 {
                *cell = 0;
            }
        }
        match kind {
            2 => {
                let from = self.below(page.0.len());
                page.0[from..].fill(0);
            }
            3 => (0..25).for_each(|line| page.0[40 * line + self.below(41)..40 * (line + 1)].fill(0)),
            4 => page = Page::BLANK,
            _ => {}
        }
        page
    }

    pub fn pages(&mut self, count: usize, dots: u8) -> Vec<Page> {
        (0..count).map(|_| self.page(dots)).collect()
    }
}

/// One pass over a disk.
pub fn pass(disk: &Disk) -> Pass {
    Pass::of(disk, profile_of(disk, None), "", |_, _, _| {})
}

/// All pages of a master, or what is said of them.
pub fn pages_of(master: &Master, count: usize) -> Result<Vec<Page>, Vec<String>> {
    Ok(master.pages(count)?.iter().map(|read| read.page).collect())
}

/// The pages that a disk gives by itself.
pub fn back(disk: &Disk) -> Result<Vec<Page>, Vec<String>> {
    let master = Master::of(vec![pass(disk)]).map_err(|text| vec![text])?;
    Ok(master.all_pages()?.iter().map(|read| read.page).collect())
}
