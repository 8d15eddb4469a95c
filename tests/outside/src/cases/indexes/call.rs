//! The call of the index, as the header declares it.

use std::fmt;

use ism::{Profile, Refusal, SectorId};

use crate::call::{Call, Expected, Reply};
use crate::compare::{profile, Compare};
use crate::paper::index::{index_track, Data, Entry, MOST_ENTRIES};
use crate::paper::{Eleven, Refused};

/// `ism_index_entry`
#[repr(C)]
#[derive(Clone, Copy, Debug, Default, PartialEq, Eq)]
pub struct IndexEntry {
    pub id_place: u64,
    pub data_place: u64,
    pub track: u8,
    pub side: u8,
    pub sector: u8,
    pub code: u8,
    pub found: u8,
    pub holds: u8,
}

/// `ism_index`
#[repr(C)]
#[derive(Clone, Copy, Default, PartialEq, Eq)]
pub struct Index {
    pub number: u32,
    pub place: u32,
    pub count: u64,
    pub entries: [IndexEntry; MOST_ENTRIES],
}

extern "C" {
    pub fn ism_index_track(profile: Profile, intervals: *const u16, n: usize) -> Index;
}

impl IndexEntry {
    fn of(entry: &Entry) -> IndexEntry {
        let [track, side, sector, code] = entry.id;
        let ids = IndexEntry { id_place: entry.id_place as u64, track, side, sector, code, ..IndexEntry::default() };
        match entry.data {
            Some(data) => IndexEntry { data_place: data.place as u64, found: 1, holds: u8::from(data.holds), ..ids },
            None => ids,
        }
    }
}

impl Index {
    /// The entries at the front; all that is beyond them is 0.
    pub fn of(entries: &[Entry]) -> Index {
        let mut index = Index { count: entries.len() as u64, ..Index::default() };
        for (place, entry) in index.entries.iter_mut().zip(entries) {
            *place = IndexEntry::of(entry);
        }
        index
    }
}

impl fmt::Debug for Index {
    /// Without the entries that are all 0.
    fn fmt(&self, f: &mut fmt::Formatter<'_>) -> fmt::Result {
        write!(f, "number {} place {} count {}", self.number, self.place, self.count)?;
        let used = self.entries.iter().enumerate().filter(|(_, entry)| **entry != IndexEntry::default());
        used.into_iter().try_for_each(|(place, entry)| write!(f, "\n  {place}: {entry:?}"))
    }
}

impl Reply for Index {
    fn refusal(Refused { number, place }: Refused) -> Index {
        Index { number, place, ..Index::default() }
    }

    fn number(&self) -> u32 {
        self.number
    }
}

/// The wrapper's answer as the interface gives it.
fn from_wrapper(result: Result<ism::Index, Refusal>) -> Index {
    let entry = |entry: ism::IndexEntry| {
        let SectorId { track, side, sector, code } = entry.id;
        let data = entry.data.map(|data| Data { place: data.place, holds: data.holds });
        Entry { id: [track, side, sector, code], id_place: entry.place, data }
    };
    match result {
        Ok(index) => Index::of(&index.entries().map(entry).collect::<Vec<_>>()),
        Err(refusal) => Index::refusal(Refused { number: refusal.number(), place: refusal.place() as u32 }),
    }
}

/// The library's index of a track.
pub fn library_index(eleven: &Eleven, intervals: &[u16]) -> Index {
    // SAFETY: the pointer comes with the length of its slice
    unsafe { ism_index_track(profile(eleven), intervals.as_ptr(), intervals.len()) }
}

impl Compare {
    pub fn index(&mut self, eleven: &Eleven, intervals: &[u16]) {
        let call = Call {
            name: "ism_index_track",
            arguments: format!("profile {eleven:?}"),
            room: 0,
            paper: &|intervals| {
                Expected::<u16, Index>::new(
                    index_track(eleven, intervals).map(|entries| Expected::answer(Index::of(&entries))),
                )
            },
            interface: &|intervals: &[u16], _| library_index(eleven, intervals),
            wrapper: Some(&|intervals, _| from_wrapper(ism::index_track(profile(eleven), intervals))),
        };
        self.run(intervals, call);
    }
}
