//! What is on a track.

use crate::sys;
use crate::{Profile, Refusal, SectorId, MAX_SECTORS};

/// One ID of a track, with its data if that was found.
#[derive(Clone, Copy, Debug, PartialEq, Eq)]
pub struct IndexEntry {
    /// the four bytes after FE
    pub id: SectorId,
    /// the place of the ID's lock
    pub place: usize,
    /// the data at the next lock behind the ID, or none where that is no data of its length code
    pub data: Option<DataField>,
}

/// The data field of an entry.
#[derive(Clone, Copy, Debug, PartialEq, Eq)]
pub struct DataField {
    /// the place of the data's lock
    pub place: usize,
    /// whether its sum holds
    pub holds: bool,
}

/// The entries of a track, at most [`MAX_SECTORS`]: by sector number, those of one number by the place of their ID.
#[derive(Clone, Copy, Debug, PartialEq, Eq)]
pub struct Index {
    entries: [sys::IndexEntry; MAX_SECTORS],
    count: usize,
}

impl Index {
    /// How many entries there are.
    pub fn len(&self) -> usize {
        self.count
    }

    /// Whether there is none.
    pub fn is_empty(&self) -> bool {
        self.count == 0
    }

    /// The entries in order.
    pub fn entries(&self) -> impl ExactSizeIterator<Item = IndexEntry> + '_ {
        self.entries[..self.count].iter().map(entry)
    }
}

fn entry(e: &sys::IndexEntry) -> IndexEntry {
    IndexEntry {
        id: SectorId { track: e.track, side: e.side, sector: e.sector, code: e.code },
        place: e.id_place as usize,
        data: (e.found != 0).then_some(DataField { place: e.data_place as usize, holds: e.holds != 0 }),
    }
}

/// The sectors of a track: each ID whose sum holds, with the data behind it. Each search for a lock is one of
/// [`find_lock`](crate::find_lock).
///
/// An ID whose own data lock is lost takes the data behind the next lock, if that reads as the data of its length code.
/// The distance of the two places tells: in a sector that [`make_sector`](crate::make_sector) made, the data's lock
/// stands 278 to 295 intervals behind the ID's, whatever the ID.
///
/// ```
/// # let profile = ism::Profile {
/// #     t1: 58, t0: 29, early: 8, normal: 10, late: 12, min: 36,
/// #     b23_short: 73, b23_long: 73, b34_short: 106, b34_long: 106, rpt: 139,
/// # };
/// # let id = ism::SectorId { track: 0, side: 0, sector: 1, code: 1 };
/// # let (mut items, mut intervals) = ([0; 256 + ism::SECTOR_OVERHEAD], [0; ism::write_room(512)]);
/// # let made = ism::make_sector(id, &[0; 256], &mut items)?;
/// # let count = ism::write(profile, &items[..made], &mut intervals)?;
/// # let intervals = &intervals[..count];
/// for entry in ism::index_track(profile, intervals)?.entries() {
///     let good = entry.data.is_some_and(|data| data.holds);
///     println!("sector {} at {}: {}", entry.id.sector, entry.place, if good { "good" } else { "bad" });
/// #   assert!(good && entry.id == id);
/// }
/// # Ok::<(), ism::Refusal>(())
/// ```
///
/// Refusals in order: profile, too many sectors.
pub fn index_track(profile: Profile, intervals: &[u16]) -> Result<Index, Refusal> {
    // SAFETY: the pointer comes with the length of its slice
    let index = unsafe { sys::ism_index_track(profile, intervals.as_ptr(), intervals.len()) };
    match Refusal::from_numbers(index.number, index.place) {
        Some(refusal) => Err(refusal),
        None => Ok(Index { entries: index.entries, count: index.count as usize }),
    }
}
