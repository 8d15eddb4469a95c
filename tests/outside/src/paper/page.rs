//! Page masters, request (xiv). A page is the data of a sector of code 3: 25 lines of 40 cells, one byte a cell, then 24
//! bytes of 00. Page n stands in sector n.

use super::merge::{merge, sectors_of, Sector};
use super::{fit, refuse, Refused};

pub const MOST_PAGES: u64 = 16;
pub const LINES: usize = 25;
pub const LINE: usize = 40;
const FILL: usize = 24;

/// What reading gives: the cells of all pages, and the raised dots of each.
pub type Read = (Vec<u8>, Vec<u32>);

/// Reading: 12, what the merge with the empty set turns away but for 9, 19, 20, 9.
pub fn read(set: &[u8], pages: u64, room: usize) -> Result<Read, Refused> {
    if !(1..=MOST_PAGES).contains(&pages) {
        return refuse(12, 0);
    }
    merge(set, &[], usize::MAX)?;
    let sectors = sectors_of(set).expect("the merge takes it");
    let numbers: Vec<u8> = (1..=pages as u8).collect();
    let sector = |number: &u8| sectors.iter().find(|sector| sector.number == *number);
    let masters: Vec<Option<&Sector>> =
        numbers.iter().map(|number| sector(number).filter(|s| s.code == 3 && s.holds)).collect();
    if let Some(lost) = masters.iter().position(Option::is_none) {
        return refuse(19, lost + 1);
    }
    let data: Vec<&[u8]> = masters.into_iter().flatten().map(|s| s.data.as_slice()).collect();
    if let Some(soiled) = data.iter().position(|bytes| bytes[LINES * LINE..] != [0; FILL]) {
        return refuse(20, soiled + 1);
    }
    let lines: Vec<&[u8]> = data.iter().flat_map(|bytes| bytes.chunks(LINE).take(LINES)).collect();
    let dots = lines.chunks(LINES).map(|page| page.concat().into_iter().map(raised).sum()).collect();
    Ok((fit(lines.concat(), room)?, dots))
}

/// The dots of a cell, 1 to 8, by the bits of a byte written out, the highest first.
fn raised(cell: u8) -> u32 {
    format!("{cell:08b}").chars().rev().zip(1..).filter(|(bit, _dot)| *bit == '1').count() as u32
}

/// Making: 12, 13 for another length, 9. Gives the sectors as a set.
pub fn make(cells: &[u8], pages: u64, room: usize) -> Result<Vec<u8>, Refused> {
    if pages == 0 || pages > MOST_PAGES {
        return refuse(12, 0);
    }
    let chunks: Vec<&[u8]> = cells.chunks(LINES * LINE).collect();
    if chunks.len() as u64 != pages || chunks.iter().any(|page| page.len() != LINES * LINE) {
        return refuse(13, 0);
    }
    let sector = |(page, number): (&&[u8], u8)| {
        Sector { number, code: 3, holds: true, data: [*page, &[0; FILL]].concat() }.bytes()
    };
    fit(chunks.iter().zip(1..).flat_map(sector).collect(), room)
}
