//! From a track to a set: the sectors of the index whose data was found, each read once more by the field reader.

use super::index::{index_track, Entry};
use super::merge::Sector;
use super::{fit, read_field, Eleven, Refused};

/// The set of a track: 1, 2, 15 as for the index, then 9. Gives the sectors in the index's order, and them as a set.
pub fn read_track(eleven: &Eleven, intervals: &[u16], room: usize) -> Result<(Vec<Sector>, Vec<u8>), Refused> {
    let entries = index_track(eleven, intervals)?;
    let sectors: Vec<Sector> = entries.iter().filter_map(|entry| sector_of(eleven, intervals, entry)).collect();
    let bytes = fit(sectors.iter().flat_map(Sector::bytes).collect(), room)?;
    Ok((sectors, bytes))
}

/// Number and code of the ID; whether the sum of the data holds; the data without its marks, its FB and its check bytes.
fn sector_of(eleven: &Eleven, intervals: &[u16], entry: &Entry) -> Option<Sector> {
    let data = entry.data?;
    let [_, _, number, code] = entry.id;
    let bytes = 128_usize << code;
    let field = read_field(eleven, &intervals[data.place..], bytes as u64 + 6, bytes + 6).expect("data that was found");
    let byte = |item: &u16| item.to_be_bytes()[1]; // a mark byte is 256 more than its byte
    Some(Sector { number, code, holds: field.holds, data: field.items[4..4 + bytes].iter().map(byte).collect() })
}
