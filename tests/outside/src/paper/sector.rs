//! Sector maker, and the layout of a sector.

use super::{fit, refuse, Refused, CHECK_ORDER};

/// The sector maker; `id` is track, side, sector, length code. Request (xiii): code 0 is made no more.
pub fn make_sector(id: [u8; 4], data: &[u8], room: usize) -> Result<Vec<u16>, Refused> {
    let made = [None, Some(256), Some(512), Some(1024)];
    match made.get(usize::from(id[3])) {
        Some(Some(size)) if *size == data.len() => fit(sector_items(id, data), room),
        _ => refuse(13, 0),
    }
}

/// The items of a sector, with whatever data: a disk that was made before has sectors of code 0.
pub fn sector_items(id: [u8; 4], data: &[u8]) -> Vec<u16> {
    let bytes = |list: &[u8]| -> Vec<u16> { list.iter().map(|b| u16::from(*b)).collect() };
    let field = |address_mark: u8, content: &[u8]| {
        [bytes(&[0; 12]), vec![0x1A1; 3], bytes(&[address_mark]), bytes(content), vec![CHECK_ORDER]].concat()
    };
    [field(0xFE, &id), bytes(&[0x4E; 22]), field(0xFB, data), bytes(&[0x4E; 54])].concat()
}
