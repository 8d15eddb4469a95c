//! What is on this track, requests (iii) and (x): the ID fields that read, and the data field of each.

use super::{check_profile, first_lock, read_field, refuse, Eleven, Field, Refused};

pub const MOST_ENTRIES: usize = 32;

/// One sector of a track.
#[derive(Clone, Debug, PartialEq, Eq)]
pub struct Entry {
    /// the four bytes after FE: track, side, sector, length code
    pub id: [u8; 4],
    pub id_place: usize,
    pub data: Option<Data>,
}

/// The data field that belongs to an entry.
#[derive(Clone, Copy, Debug, PartialEq, Eq)]
pub struct Data {
    pub place: usize,
    pub holds: bool,
}

/// The index of a track: 1, 2, 15. All entries are gathered before they are counted, and ordered after that: by sector
/// number, then by ID place.
pub fn index_track(eleven: &Eleven, intervals: &[u16]) -> Result<Vec<Entry>, Refused> {
    check_profile(eleven)?;
    let track = Track { eleven, intervals };
    let mut entries = Vec::new();
    let mut start = 0;
    while let Some(lock) = track.lock_from(start) {
        let Some((id, after_id)) = track.id_at(lock) else {
            start = lock + 1;
            continue;
        };
        let (data, after) = match track.data_from(after_id, id[3]) {
            Some((data, after_data)) => (Some(data), after_data),
            None => (None, after_id),
        };
        entries.push(Entry { id, id_place: lock, data });
        start = after;
    }
    if entries.len() > MOST_ENTRIES {
        return refuse(15, 0);
    }
    entries.sort_by_key(|entry| (entry.id[2], entry.id_place));
    Ok(entries)
}

struct Track<'a> {
    eleven: &'a Eleven,
    intervals: &'a [u16],
}

impl Track<'_> {
    /// The first lock from `start` on. Each search begins anew.
    fn lock_from(&self, start: usize) -> Option<usize> {
        first_lock(self.eleven, self.intervals.get(start..)?).map(|lock| start + lock)
    }

    /// The field of so many bytes at a lock, if it reads and begins with three A1 marks and the byte that names it.
    fn field_at(&self, lock: usize, bytes: usize, name: u16) -> Option<Field> {
        let field = read_field(self.eleven, &self.intervals[lock..], bytes as u64, bytes).ok()?;
        field.items.starts_with(&[0x1A1, 0x1A1, 0x1A1, name]).then_some(field)
    }

    /// The four bytes of the ID field at a lock, and the place after its intervals.
    fn id_at(&self, lock: usize) -> Option<([u8; 4], usize)> {
        let field = self.field_at(lock, 10, 0xFE).filter(|field| field.holds)?;
        // a mark is above 255 and fits no byte
        let four: Option<Vec<u8>> = field.items[4..8].iter().map(|item| u8::try_from(*item).ok()).collect();
        let id: [u8; 4] = four?.try_into().expect("four items");
        (0..=3).contains(&id[3]).then_some((id, lock + field.used))
    }

    /// The data field at the next lock from a place on, if that is one of this length code, and the place after it.
    fn data_from(&self, start: usize, code: u8) -> Option<(Data, usize)> {
        let place = self.lock_from(start)?;
        let size = [128, 256, 512, 1024][usize::from(code)];
        let field = self.field_at(place, size + 6, 0xFB)?;
        Some((Data { place, holds: field.holds }, place + field.used))
    }
}
