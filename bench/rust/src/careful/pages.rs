//! The functions of `ism_page.h`.

use ism::sys::Answer;
use ism_page::sys::Pages;

use crate::plain::{counted, refused};

const CELLS: usize = 1_000;
const FILL: usize = 24;
const SECTOR: usize = 3 + CELLS + FILL;

/// Where each sector number stands in a set, or 13, 15, 17.
fn places(set: &[u8]) -> Result<[Option<u16>; 256], (u32, u32)> {
    let mut places = [None; 256];
    let (mut sectors, mut at, mut twice) = (0, 0, u32::MAX);
    while at < set.len() {
        let rest = &set[at..];
        let size = match rest {
            [_, code @ 0..=3, _, data @ ..] if data.len() >= 128 << code => 128 << code,
            _ => return Err((13, 0)),
        };
        if sectors < 32 {
            let place = &mut places[usize::from(rest[0])];
            if place.is_some() {
                twice = twice.min(u32::from(rest[0]));
            }
            *place = Some(at as u16);
        }
        sectors += 1;
        at += 3 + size;
    }
    match (sectors > 32, twice) {
        (true, _) => Err((15, 0)),
        (_, u32::MAX) => Ok(places),
        (_, number) => Err((17, number)),
    }
}

fn read(set: &[u8], pages: u64, cells: &mut [u8]) -> Result<[u32; 16], (u32, u32)> {
    if !(1..=16).contains(&pages) {
        return Err((12, 0));
    }
    let places = places(set)?;
    let pages = pages as usize;
    let mut data: [&[u8]; 16] = [&[]; 16];
    for (page, data) in data[..pages].iter_mut().enumerate() {
        let at = places[page + 1].map(usize::from).filter(|at| set[at + 1] == 3 && set[at + 2] != 0);
        let at = at.ok_or((19, page as u32 + 1))?;
        *data = &set[at + 3..at + SECTOR];
    }
    if let Some(page) = data[..pages].iter().position(|data| data[CELLS..] != [0; FILL]) {
        return Err((20, page as u32 + 1));
    }
    let out = cells.get_mut(..CELLS * pages).ok_or((9, 0))?;
    let mut dots = [0; 16];
    for ((page, data), dots) in out.chunks_exact_mut(CELLS).zip(&data[..pages]).zip(&mut dots) {
        page.copy_from_slice(&data[..CELLS]);
        // a byte holds the ones of 25 bytes
        let mut columns = [0u8; LANES];
        for row in data[..LANES * ROWS].chunks_exact(LANES) {
            for (column, cell) in columns.iter_mut().zip(row) {
                *column += cell.count_ones() as u8;
            }
        }
        *dots = columns.iter().map(|column| u32::from(*column)).sum::<u32>()
            + data[LANES * ROWS..CELLS].iter().map(|cell| cell.count_ones()).sum::<u32>();
    }
    Ok(dots)
}

const LANES: usize = 32;
const ROWS: usize = 31;

#[inline(never)]
pub fn careful_rust_read_pages(set: &[u8], pages: u64, cells: &mut [u8]) -> Pages {
    match read(set, pages, cells) {
        Ok(dots) => Pages { number: 0, place: 0, count: pages, used: CELLS as u64 * pages, dots },
        Err((number, place)) => Pages { number, place, count: 0, used: 0, dots: [0; 16] },
    }
}

#[inline(never)]
pub fn careful_rust_make_pages(cells: &[u8], pages: u64, set: &mut [u8]) -> Answer {
    if !(1..=16).contains(&pages) {
        return refused(12, 0);
    }
    if cells.len() as u64 != CELLS as u64 * pages {
        return refused(13, 0);
    }
    let Some(set) = set.get_mut(..SECTOR * pages as usize) else {
        return refused(9, 0);
    };
    for ((sector, page), number) in set.chunks_exact_mut(SECTOR).zip(cells.chunks_exact(CELLS)).zip(1..) {
        sector[..3].copy_from_slice(&[number, 3, 1]);
        sector[3..3 + CELLS].copy_from_slice(page);
        sector[3 + CELLS..].fill(0);
    }
    Answer { used: SECTOR as u64 * pages, ..counted(pages) }
}
