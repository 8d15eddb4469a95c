//! The calls of the pages, as the header declares them.

use ism::sys::Answer;
use ism_page::sys::{self, Pages};

use crate::call::{Call, Expected, Reply, ACCEPTED};
use crate::compare::{from_wrapper, Compare};
use crate::paper::page;
use crate::paper::Refused;

/// The answer of a refusal, but for number and place.
pub const NO_PAGES: Pages = Pages { number: 0, place: 0, count: 0, used: 0, dots: [0; 16] };

impl Reply for Pages {
    fn refusal(Refused { number, place }: Refused) -> Pages {
        Pages { number, place, ..NO_PAGES }
    }

    fn number(&self) -> u32 {
        self.number
    }
}

pub fn library_read(set: &[u8], pages: u64, cells: &mut [u8]) -> Pages {
    // SAFETY: each pointer comes with the length of its list
    unsafe { sys::ism_read_pages(set.as_ptr(), set.len(), pages, cells.as_mut_ptr(), cells.len()) }
}

pub fn library_make(cells: &[u8], pages: u64, set: &mut [u8]) -> Answer {
    // SAFETY: each pointer comes with the length of its list
    unsafe { sys::ism_make_pages(cells.as_ptr(), cells.len(), pages, set.as_mut_ptr(), set.len()) }
}

/// Dots of pages that were read, as the interface hands them over.
fn sixteen(dots: &[u32]) -> [u32; 16] {
    let mut all = [0; 16];
    all[..dots.len()].copy_from_slice(dots);
    all
}

fn wrapped_read(set: &[u8], pages: u64, cells: &mut [u8]) -> Pages {
    match ism_page::read_pages(set, pages as usize, cells) {
        Ok(read) => {
            Pages { count: read.dots().len() as u64, used: read.cells as u64, dots: sixteen(read.dots()), ..NO_PAGES }
        }
        Err(refusal) => Pages { number: refusal.number(), place: refusal.place() as u32, ..NO_PAGES },
    }
}

impl Compare {
    pub fn read_pages(&mut self, set: &[u8], pages: u64, room: usize) {
        let call = Call {
            name: "ism_read_pages",
            arguments: format!("{pages} pages"),
            room,
            paper: &|set: &[u8]| {
                let given = |(cells, dots): page::Read| {
                    Expected::with_front(
                        Pages { count: pages, used: cells.len() as u64, dots: sixteen(&dots), ..NO_PAGES },
                        cells,
                    )
                };
                Expected::new(page::read(set, pages, room).map(given))
            },
            interface: &|set, cells| library_read(set, pages, cells),
            wrapper: Some(&|set, cells| wrapped_read(set, pages, cells)),
        };
        self.run(set, call);
    }

    pub fn make_pages(&mut self, cells: &[u8], pages: u64, room: usize) {
        let answer = |used: usize| Answer { count: pages, used: used as u64, ..ACCEPTED };
        let call = Call {
            name: "ism_make_pages",
            arguments: format!("{pages} pages"),
            room,
            paper: &|cells: &[u8]| {
                let given = |set: Vec<u8>| Expected::with_front(answer(set.len()), set);
                Expected::new(page::make(cells, pages, room).map(given))
            },
            interface: &|cells, set| library_make(cells, pages, set),
            wrapper: Some(&|cells, set| from_wrapper(ism_page::make_pages(cells, pages as usize, set), answer)),
        };
        self.run(cells, call);
    }
}
