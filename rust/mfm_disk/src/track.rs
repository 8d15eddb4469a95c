//! The sectors of one turn. The library says what is a sector; here stands only how much of the turn it is shown.

use ism::{IndexEntry, Profile, Refusal, SectorId};

use crate::disk::{Turn, HALF_CELLS_PER_BYTE};
use crate::timing::Lengths;

/// The most half cells between the locks of an ID and of its own data: 80 bytes. A made sector has 44, one with a gap
/// of 41 bytes, the longest in use, 63; the data of the next sector is at least 200 more behind. Intervals do not tell,
/// since a stretch without transitions is one interval however long.
const FARTHEST_OWN_DATA: usize = 80 * HALF_CELLS_PER_BYTE;

/// The bytes of an ID field from the first mark to its sum.
const ID_BYTES: usize = 10;

/// What was read behind an ID.
#[derive(Clone, Debug, PartialEq, Eq)]
pub enum Data {
    /// no data field of the ID's length code at the next lock: the refusal, or none where another field stands there
    Missing { refusal: Option<Refusal> },
    /// a data field that is too far behind the ID: its own lock is lost
    NotItsOwn { at: usize },
    /// the ID's data, and whether its sum holds
    Own { at: usize, holds: bool, bytes: Vec<u8> },
}

/// An ID and what was read behind it.
#[derive(Clone, Debug, PartialEq, Eq)]
pub struct Found {
    pub id: SectorId,
    /// the interval at which the ID's lock stands, from the first transition of the turn
    pub at: usize,
    pub data: Data,
}

/// The intervals of a turn, and of its start again as far as a sector reaches that the start cuts.
pub struct Window {
    profile: Profile,
    intervals: Vec<u16>,
    /// the half cell of each transition of the turn
    transitions: Vec<u32>,
    half_cells: usize,
}

impl Window {
    /// One turn, and behind it again all that stands before its first ID: so no sector is cut and none shown twice.
    pub fn of(turn: &Turn, profile: Profile, lengths: &Lengths) -> Window {
        let transitions = turn.transitions();
        let half_cells = turn.len();
        let mut intervals = Vec::with_capacity(transitions.len() + 4_096);
        intervals.extend(transitions.windows(2).map(|pair| lengths.interval(pair[1] - pair[0])));
        if let (Some(&first), Some(&last)) = (transitions.first(), transitions.last()) {
            intervals.push(lengths.interval(half_cells as u32 - last + first));
        }
        let again = first_id(profile, &intervals).unwrap_or(intervals.len());
        intervals.extend_from_within(..again);
        Window { profile, intervals, transitions, half_cells }
    }

    /// The sectors by number, then by the place of the ID.
    pub fn sectors(&self) -> Result<Vec<Found>, Refusal> {
        let index = ism::index_track(self.profile, &self.intervals)?;
        let mut buffer = vec![0; ism::MAX_SET_BYTES];
        // the data of each entry that has some, in the order of the index
        let set = ism::read_track(self.profile, &self.intervals, &mut buffer)?;
        let mut read = set.sectors();
        let mut sectors = Vec::with_capacity(index.len());
        for entry in index.entries() {
            let data = match entry.data {
                None => Data::Missing { refusal: self.why_missing(entry).err() },
                Some(field) => {
                    let bytes = read.next().map_or_else(Vec::new, |sector| sector.data.to_vec());
                    if self.half_cell(field.place) - self.half_cell(entry.place) > FARTHEST_OWN_DATA {
                        Data::NotItsOwn { at: field.place }
                    } else {
                        Data::Own { at: field.place, holds: field.holds, bytes }
                    }
                }
            };
            sectors.push(Found { id: entry.id, at: entry.place, data });
        }
        sectors.sort_by_key(|sector| (sector.id.sector, sector.at));
        Ok(sectors)
    }

    /// What the library says where an ID has no data: nothing, if the field at the next lock reads and is no data.
    fn why_missing(&self, entry: IndexEntry) -> Result<(), Refusal> {
        let mut items = [0; ism::MAX_FIELD_BYTES];
        let id = ism::read_field(self.profile, &self.intervals[entry.place..], ID_BYTES, &mut items)?;
        let lock = ism::find_lock(self.profile, &self.intervals, entry.place + id.used)?;
        let bytes = size_of(entry.id.code) + 6;
        ism::read_field(self.profile, &self.intervals[lock..], bytes, &mut items).map(|_| ())
    }

    /// How many locks of an A1 mark are neither an ID's nor its data's among these sectors.
    pub fn strays(&self, sectors: &[Found]) -> usize {
        let turn = self.transitions.len();
        let data = |sector: &Found| match sector.data {
            Data::Own { at, .. } | Data::NotItsOwn { at } => Some(at % turn),
            Data::Missing { .. } => None,
        };
        let known: Vec<usize> =
            sectors.iter().flat_map(|sector| [Some(sector.at % turn), data(sector)]).flatten().collect();
        let mut strays: Vec<usize> = locks(self.profile, &self.intervals).filter(|place| self.is_a1(*place)).collect();
        strays.iter_mut().for_each(|place| *place %= turn);
        strays.retain(|place| !known.contains(place));
        strays.sort_unstable();
        strays.dedup();
        strays.len()
    }

    /// Whether the mark of a lock is no C2, which begins no sector.
    fn is_a1(&self, place: usize) -> bool {
        let mut items = [0; 1];
        let mark = ism::read_field(self.profile, &self.intervals[place..], 1, &mut items);
        mark.is_err() || items[0] != ism::MARK_C2
    }

    /// The least clearance of the intervals that the ID and its own data used.
    pub fn clearance(&self, sector: &Found) -> Result<u32, Refusal> {
        let id = self.field_clearance(sector.at, ID_BYTES)?;
        match sector.data {
            Data::Own { at, .. } => Ok(id.min(self.field_clearance(at, size_of(sector.id.code) + 6)?)),
            Data::Missing { .. } | Data::NotItsOwn { .. } => Ok(id),
        }
    }

    fn field_clearance(&self, at: usize, bytes: usize) -> Result<u32, Refusal> {
        let mut items = [0; ism::MAX_FIELD_BYTES];
        Ok(ism::read_field(self.profile, &self.intervals[at..], bytes, &mut items)?.clearance)
    }

    /// The half cell behind the last one of a sector, counted on past the end of the turn. The last transition of a
    /// field can be the clock bit of its last bit, which ends two half cells later.
    pub fn end_of(&self, sector: &Found) -> Result<usize, Refusal> {
        let (at, bytes) = match sector.data {
            Data::Own { at, .. } => (at, size_of(sector.id.code) + 6),
            Data::Missing { .. } | Data::NotItsOwn { .. } => (sector.at, ID_BYTES),
        };
        let mut items = [0; ism::MAX_FIELD_BYTES];
        let used = ism::read_field(self.profile, &self.intervals[at..], bytes, &mut items)?.used;
        Ok(self.half_cell(at + used) + 2)
    }

    /// The half cell of the transition before an interval, counted on past the end of the turn.
    fn half_cell(&self, interval: usize) -> usize {
        let turn = self.transitions.len();
        interval / turn * self.half_cells + self.transitions[interval % turn] as usize
    }

    /// The half cells at which the first marks of the locks of one turn begin, in order. A mark's word begins two half
    /// cells behind the transition before its lock, which is the clock bit of the last 0 of the sync field.
    pub fn marks(&self) -> Vec<usize> {
        let turn = self.transitions.len();
        locks(self.profile, &self.intervals[..turn]).map(|place| self.half_cell(place) + 2).collect()
    }
}

/// The bytes of data in a sector of a length code.
pub fn size_of(code: u8) -> usize {
    128 << code
}

/// The locks of a list, each searched at the place after the one before.
fn locks(profile: Profile, intervals: &[u16]) -> impl Iterator<Item = usize> + '_ {
    let mut start = 0;
    std::iter::from_fn(move || {
        let place = ism::find_lock(profile, intervals, start).ok()?;
        start = place + 1;
        Some(place)
    })
}

/// The first lock at which an ID stands: three A1 marks, FE, a length code of 0 to 3, and a sum that holds.
fn first_id(profile: Profile, intervals: &[u16]) -> Option<usize> {
    const BEGINS: [u16; 4] = [ism::MARK_A1, ism::MARK_A1, ism::MARK_A1, 0xFE];
    locks(profile, intervals).find(|place| {
        let mut items = [0; ID_BYTES];
        let field = ism::read_field(profile, &intervals[*place..], ID_BYTES, &mut items);
        field.is_ok_and(|field| field.holds) && items[..4] == BEGINS && items[7] <= 3
    })
}
