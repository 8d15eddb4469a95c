//! Old disks, request (xiii): sectors of 128 bytes are made no more, and are indexed, read and merged as before.

use ism::{Refusal, Sector, SectorId, SectorSet};

use super::margins::shifted;
use crate::compare::{profile, Compare};
use crate::paper::{sector_items, stream_of, written_bytes};
use crate::random::Random;

const SIZE: usize = 128;

/// The bytes of a data field: three marks, FB, the data and its check bytes.
const FIELD: usize = SIZE + 6;

/// A school moves its pages over: two passes over a disk, on which different sums fail, are merged, and of two pages
/// each the maker makes a sector of code 1. Of one it makes none.
pub fn moved_over(compare: &mut Compare, random: &mut Random) {
    for count in [1, 2, 9, 31, 32].repeat(2) {
        let pages: Vec<Vec<u8>> = (0..count).map(|_| random.bytes(SIZE)).collect();
        let first = pass(compare, &pages, |number| number % 3 != 0, random);
        let second = pass(compare, &pages, |number| number % 3 != 1, random);
        compare.merge(&first, &second, first.len());
        let mut out = vec![0; first.len()];
        let merged = ism::merge(&first, &second, &mut out).expect("sectors of code 0");
        let whole = |number: usize| Sector { number: number as u8, code: 0, holds: true, data: &pages[number] };
        compare.claim("every page is in the merged set", merged.eq((0..count).map(whole)));
        for two in pages.chunks(2) {
            compare.sector([7, 1, 1, 1], &two.concat(), 370);
            let made = make(1, &two.concat());
            compare.claim("two pages make a sector", made.is_ok() == (two.len() == 2));
            compare.sector([7, 1, 1, 0], &two[0], 242);
            compare.claim("one page makes none", make(0, &two[0]) == Err(Refusal::SectorSizeMismatch));
        }
    }
}

fn make(code: u8, data: &[u8]) -> Result<usize, Refusal> {
    ism::make_sector(SectorId { track: 7, side: 1, sector: 1, code }, data, &mut vec![0; data.len() + 114])
}

/// The set that a pass reads of a track of these pages, every interval moved by at most the margin; `holds` tells of
/// each sector whether its data is read with its sum.
fn pass(compare: &mut Compare, pages: &[Vec<u8>], holds: fn(usize) -> bool, random: &mut Random) -> Vec<u8> {
    let eleven = random.true_profile();
    let sector = |(number, page): (usize, &Vec<u8>)| written(number as u8, page, holds(number));
    let items: Vec<u16> = pages.iter().enumerate().flat_map(sector).collect();
    let track = shifted(&eleven, &stream_of(&eleven, &items), random);
    compare.index(&eleven, &track);
    let index = ism::index_track(profile(&eleven), &track).expect("at most 32 sectors");
    compare.claim("every sector is in the index", index.len() == pages.len());
    let mut buffer = vec![0; pages.len() * (3 + SIZE)];
    let mut set = SectorSet::new(&mut buffer);
    for entry in index.entries() {
        let data = entry.data.expect("data behind each ID");
        compare.field(&eleven, &track[data.place..], FIELD as u64, FIELD);
        let mut field = [0; FIELD];
        let read = ism::read_field(profile(&eleven), &track[data.place..], FIELD, &mut field);
        let sums = [data.holds, read.expect("a whole field").holds];
        compare.claim("index and field reader tell the sum", sums == [holds(usize::from(entry.id.sector)); 2]);
        let bytes: Vec<u8> = field[4..4 + SIZE].iter().map(|item| *item as u8).collect();
        let sector = Sector { number: entry.id.sector, code: entry.id.code, holds: data.holds, data: &bytes };
        set.push(sector).expect("128 bytes under code 0");
    }
    set.bytes().to_vec()
}

/// The written bytes of a sector of code 0, by the layout; where its sum is to fail, with a bit of its data changed.
fn written(number: u8, page: &[u8], holds: bool) -> Vec<u16> {
    let mut bytes: Vec<u16> = written_bytes(&sector_items([7, 1, number, 0], page)).iter().map(|w| w.item()).collect();
    // behind the data stand its two check bytes and the gap of 54
    let last = bytes.len() - 57;
    bytes[last] ^= u16::from(!holds);
    bytes
}
