//! Index and set of a track.

use ism::sys::{Answer, Index, IndexEntry, Profile};

use super::finder::find_lock;
use super::kinds::has_classes;
use super::reader::read_items;
use super::{check_profile, MAX_FIELD_BYTES};

/// What an index stands on.
pub trait Fields {
    /// The first lock from a place on.
    fn find_lock(p: &Profile, intervals: &[u16], start: u64) -> Option<usize>;

    /// A field of as many bytes as the output has, its clearance aside.
    fn read_items(p: &Profile, intervals: &[u16], out: &mut [u16]) -> Result<Answer, Answer>;
}

struct Plain;

impl Fields for Plain {
    fn find_lock(p: &Profile, intervals: &[u16], start: u64) -> Option<usize> {
        find_lock(p, intervals, start)
    }

    fn read_items(p: &Profile, intervals: &[u16], out: &mut [u16]) -> Result<Answer, Answer> {
        read_items(p, intervals, out.len() as u64, out)
    }
}

#[inline(never)]
pub fn plain_rust_index_track(profile: Profile, intervals: &[u16]) -> Index {
    index_track::<Plain>(profile, intervals)
}

#[inline(never)]
pub fn plain_rust_read_track(profile: Profile, intervals: &[u16], set: &mut [u8]) -> Answer {
    read_track::<Plain>(profile, intervals, set)
}

const MOST_SECTORS: usize = 32;
const FULL: u32 = 9;
const CROWDED: u32 = 15;
const ID_BYTES: usize = 10;

/// The classes of three A1 marks. What begins otherwise need not be read.
const THREE_MARKS: [u8; 15] = [3, 4, 3, 4, 3, 2, 4, 3, 4, 3, 2, 4, 3, 4, 3];

const NO_ENTRY: IndexEntry =
    IndexEntry { id_place: 0, data_place: 0, track: 0, side: 0, sector: 0, code: 0, found: 0, holds: 0 };

const fn answered(number: u32, place: u32) -> Index {
    Index { number, place, count: 0, entries: [NO_ENTRY; MOST_SECTORS] }
}

/// The field at a lock, if it reads and has three marks A1 and this byte behind them.
fn sector_field<F: Fields>(p: &Profile, intervals: &[u16], name: u16, items: &mut [u16]) -> Option<Answer> {
    if !has_classes(p, intervals, &THREE_MARKS) {
        return None;
    }
    let field = F::read_items(p, intervals, items).ok()?;
    (items[3] == name).then_some(field)
}

/// The entry whose ID field begins at a place, if one does, and the place after that field.
fn read_id<F: Fields>(p: &Profile, intervals: &[u16], place: usize) -> Option<(IndexEntry, usize)> {
    let mut items = [0; ID_BYTES];
    let field = sector_field::<F>(p, &intervals[place..], 0xFE, &mut items)?;
    let [.., track, side, sector, code, _, _] = items;
    if field.holds == 0 || track | side | sector > 0xFF || code > 3 {
        return None;
    }
    let [track, side, sector, code] = [track, side, sector, code].map(|item| item as u8);
    let entry = IndexEntry { id_place: place as u64, track, side, sector, code, ..NO_ENTRY };
    Some((entry, place + field.used as usize))
}

/// The data field of an entry, if it begins at a place; the place after it.
fn read_data<F: Fields>(p: &Profile, intervals: &[u16], place: usize, entry: &mut IndexEntry) -> Option<usize> {
    let mut items = [0; MAX_FIELD_BYTES as usize];
    let field = sector_field::<F>(p, &intervals[place..], 0xFB, &mut items[..(128 << entry.code) + 6])?;
    (entry.data_place, entry.found, entry.holds) = (place as u64, 1, field.holds as u8);
    Some(place + field.used as usize)
}

/// By sector number; an entry found later stands behind those of its number.
fn put_in_order(index: &mut Index, entry: IndexEntry) {
    let count = index.count as usize;
    let at = index.entries[..count].iter().rposition(|other| other.sector <= entry.sector).map_or(0, |last| last + 1);
    index.entries.copy_within(at..count, at + 1);
    index.entries[at] = entry;
    index.count += 1;
}

/// A lock that is not the data's may be that of the next ID.
pub fn index_track<F: Fields>(p: Profile, intervals: &[u16]) -> Index {
    if let Err(refusal) = check_profile(&p) {
        return answered(refusal.number, refusal.place);
    }
    let find = |from: usize| F::find_lock(&p, intervals, from as u64);
    let mut index = answered(0, 0);
    let mut next = find(0);
    while let Some(lock) = next {
        let Some((mut entry, end)) = read_id::<F>(&p, intervals, lock) else {
            next = find(lock + 1);
            continue;
        };
        if index.count == MOST_SECTORS as u64 {
            return answered(CROWDED, 0);
        }
        next = find(end);
        if let Some(after) = next.and_then(|lock| read_data::<F>(&p, intervals, lock, &mut entry)) {
            next = find(after);
        }
        put_in_order(&mut index, entry);
    }
    index
}

/// As a caller of index and field reader makes a set: each data field is read once more.
pub fn read_track<F: Fields>(p: Profile, intervals: &[u16], set: &mut [u8]) -> Answer {
    let index = index_track::<F>(p, intervals);
    let answer = |number, place, count, used| Answer { number, place, count, used, holds: 0, clearance: 0 };
    if index.number != 0 {
        return answer(index.number, index.place, 0, 0);
    }
    let found = || index.entries[..index.count as usize].iter().filter(|entry| entry.found != 0);
    let used: usize = found().map(|entry| 3 + (128 << entry.code)).sum();
    let Some(mut rest) = set.get_mut(..used) else { return answer(FULL, 0, 0, 0) };
    let mut items = [0; MAX_FIELD_BYTES as usize];
    for entry in found() {
        let size = 128 << entry.code;
        let field = &mut items[..size + 6];
        let read = F::read_items(&p, &intervals[entry.data_place as usize..], field);
        debug_assert!(read.is_ok());
        let (sector, behind) = rest.split_at_mut(3 + size);
        sector[..3].copy_from_slice(&[entry.sector, entry.code, entry.holds]);
        sector[3..].iter_mut().zip(&field[4..]).for_each(|(byte, item)| *byte = *item as u8);
        rest = behind;
    }
    answer(0, 0, found().count() as u64, used as u64)
}
