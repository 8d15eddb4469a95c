//! Disks and tracks made from raw sectors.

use ism::{Refusal, SectorId};

use crate::disk::{Disk, Place, Turn, DOUBLE_DENSITY, HIGH_DENSITY};
use crate::failure::refused;
use crate::geometry::Geometry;
use crate::progress::Progress;

/// Bytes that a sector takes on the track besides its data: what the sector maker adds, each check order as two bytes.
const OVERHEAD: usize = ism::SECTOR_OVERHEAD + 2;
/// Gap bytes before the first sector, where there is room.
const FIRST_GAP: usize = 80;
/// Gap bytes that may be cut off the end of the last sector, of its 54.
const CUT: usize = 30;
/// A gap byte.
const GAP: u16 = 0x4E;

/// The disk of a raw image that has the bytes of its geometry.
pub fn disk_of(geometry: &Geometry, image: &[u8]) -> Result<Disk, String> {
    let rate = rate_for(geometry)
        .ok_or_else(|| format!("{} sectors of {} bytes do not fit in a turn", geometry.sectors, geometry.size()))?;
    let mut progress = Progress::new("pack", geometry.sides * geometry.tracks);
    let mut turns: Vec<Turn> = Vec::with_capacity(geometry.sides * geometry.tracks);
    for (place, data) in geometry.places().zip(image.chunks(geometry.track_bytes())) {
        progress.step(place);
        let turn = turn_of(geometry, place, rate, data);
        turns.push(turn.map_err(|(sector, refusal)| format!("{place}, sector {sector}: {}", refused(refusal)))?);
    }
    Ok(Disk { sides: geometry.sides, rate, turns })
}

/// The slowest of the two bit rates at which the sectors of a track fit in a turn.
pub fn rate_for(geometry: &Geometry) -> Option<u16> {
    let bytes = geometry.sectors * (geometry.size() + OVERHEAD);
    [DOUBLE_DENSITY, HIGH_DENSITY].into_iter().find(|rate| bytes <= bytes_in_turn(*rate) + CUT)
}

/// Bytes in a turn at 300 turns a minute: a fifth of a second.
pub fn bytes_in_turn(rate: u16) -> usize {
    usize::from(rate) * 1000 / 8 / 5
}

/// The turn with the sectors of one track, numbered on from the first, in the order of the data; or the sector that is
/// refused.
///
/// A sector is made and turned into code words by itself, since a track can have more bytes than the library takes at
/// once. A made sector ends in 4E, whose last bit is 0, and an image begins after a 0, so the words can be joined.
pub fn turn_of(geometry: &Geometry, place: Place, rate: u16, data: &[u8]) -> Result<Turn, (u8, Refusal)> {
    let room = bytes_in_turn(rate);
    let taken = geometry.sectors * (geometry.size() + OVERHEAD);
    let mut words = vec![0; room.max(taken)];
    let mut end = FIRST_GAP.min(room.saturating_sub(taken));
    for (i, bytes) in data.chunks(geometry.size()).enumerate() {
        let id = SectorId {
            track: place.track as u8,
            side: place.side as u8,
            sector: geometry.first + i as u8,
            code: geometry.code,
        };
        end += make_sector(id, bytes, &mut words[end..]).map_err(|refusal| (id.sector, refusal))?;
    }
    fill_gaps(&mut words, FIRST_GAP.min(room.saturating_sub(taken)), end);
    words.truncate(room);
    Ok(Turn::of(words.iter().flat_map(|word| word.to_be_bytes()).collect()))
}

fn make_sector(id: SectorId, data: &[u8], words: &mut [u16]) -> Result<usize, Refusal> {
    let mut items = [0; 1_024 + ism::SECTOR_OVERHEAD];
    let count = ism::make_sector(id, data, &mut items)?;
    ism::make_image(&items[..count], words)
}

/// Gap bytes before the first sector and behind the last.
fn fill_gaps(words: &mut [u16], first: usize, end: usize) {
    let mut gap = [0];
    // one item and room for its word: never refused
    let _ = ism::make_image(&[GAP], &mut gap);
    words[..first].fill(gap[0]);
    words[end..].fill(gap[0]);
}

#[cfg(test)]
mod tests {
    use super::*;

    fn words(sectors: usize) -> Vec<u16> {
        let geometry = Geometry { sides: 1, tracks: 1, sectors, code: 2, first: 1 };
        let rate = rate_for(&geometry).unwrap();
        let data = vec![0xE5; geometry.image_bytes()];
        let turn = turn_of(&geometry, Place { track: 0, side: 0 }, rate, &data).unwrap();
        turn.cells.chunks(2).map(|pair| u16::from_be_bytes([pair[0], pair[1]])).collect()
    }

    #[test]
    fn a_turn_has_its_length_and_gap_bytes_around_the_sectors() {
        let gap = u16::from_be_bytes(crate::disk::GAP_CELLS);
        for (sectors, length) in [(1, 6_250), (9, 6_250), (11, 12_500), (18, 12_500)] {
            let words = words(sectors);
            let end = FIRST_GAP + sectors * (512 + OVERHEAD);
            assert_eq!(words.len(), length);
            // the first gap byte behind the sum may come after a 1
            assert!(words[..FIRST_GAP].iter().chain(&words[end - 53..]).all(|word| *word == gap));
            assert_eq!((words[FIRST_GAP], words[FIRST_GAP + 12]), (0xAAAA, 0x4489));
        }
    }

    #[test]
    fn ten_sectors_fit_where_the_last_gap_is_cut() {
        let words = words(10);
        assert_eq!((words.len(), words[0], words[12]), (6_250, 0xAAAA, 0x4489));
        assert_eq!(words[6_250 - 23..], [0x9254; 23], "24 of the last 54 gap bytes are left");
        assert_eq!(crate::disk::data_bits(words[6_250 - 24]), 0x4E);
        assert_ne!(words[6_250 - 25], 0x9254);
    }
}
