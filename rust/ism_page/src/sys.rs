//! The C interface as `include/ism_page.h` declares it. The header says what each function gives; prefer the safe
//! functions of this crate.

#![allow(missing_docs)]

use ism::sys::Answer;

/// `ism_pages`
#[repr(C)]
#[derive(Clone, Copy, Debug, PartialEq, Eq)]
pub struct Pages {
    pub number: u32,
    pub place: u32,
    pub count: u64,
    pub used: u64,
    pub dots: [u32; 16],
}

extern "C" {
    pub fn ism_read_pages(set: *const u8, n: usize, pages: u64, cells: *mut u8, room: usize) -> Pages;
    pub fn ism_make_pages(cells: *const u8, n: usize, pages: u64, set: *mut u8, room: usize) -> Answer;
    pub fn ism_page_interface_9() -> u32;
}

/// A program does not link with a library of another interface, which has no such symbol.
#[used]
static INTERFACE_ASKED: unsafe extern "C" fn() -> u32 = ism_page_interface_9;
