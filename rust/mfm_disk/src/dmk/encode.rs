//! Half cells from the bytes of a DMK track.

use super::{DOUBLE_DENSITY_ID, PLACE, TABLE};
use crate::disk::Turn;

const ID_MARK: u8 = 0xFE;
const INDEX_MARK: u8 = 0xFC;
/// Marks before a data field: FB, F8 where it is deleted, and the two between.
const DATA_MARKS: std::ops::RangeInclusive<u8> = 0xF8..=0xFB;
/// Bytes from an ID mark FE to its sum.
const ID_BYTES: usize = 7;
/// How far behind the ID its data mark is looked for.
const FARTHEST_DATA_MARK: usize = 72;
/// Items that the library turns into words at once, less the one before them.
const PART: usize = ism::MAX_BYTES - 1;

/// The turn of one track, from its table and its bytes.
pub fn turn_of(table: &[u8], bytes: &[u8]) -> Result<Turn, String> {
    let mut track = Marked::of(bytes);
    let mut single_density = 0;
    for (i, entry) in table.chunks(2).map(|pair| u16::from_le_bytes([pair[0], pair[1]])).enumerate() {
        if entry == 0 {
            break;
        }
        let place = usize::from(entry & PLACE).checked_sub(TABLE).filter(|place| *place < bytes.len());
        let place = place.ok_or_else(|| format!("its ID {i} is at {}, outside the track", entry & PLACE))?;
        if i == 0 {
            track.mark_index(place);
        }
        if entry & DOUBLE_DENSITY_ID == 0 {
            single_density += 1;
        } else if track.byte(place) == ID_MARK && track.mark_before(place, 0xA1) {
            track.mark_data(place + ID_BYTES);
        }
    }
    Ok(Turn { cells: cells_of(&track.items), single_density })
}

/// A track's bytes as items, in which marks are told as they are found. Places go round.
struct Marked {
    items: Vec<u16>,
}

impl Marked {
    fn of(bytes: &[u8]) -> Marked {
        Marked { items: bytes.iter().map(|byte| u16::from(*byte)).collect() }
    }

    fn byte(&self, place: usize) -> u8 {
        self.items[place % self.items.len()] as u8
    }

    /// Makes the three bytes before a place marks, if they are this byte.
    fn mark_before(&mut self, place: usize, mark: u8) -> bool {
        let length = self.items.len();
        let before = [3, 2, 1].map(|back| (place % length + 3 * length - back) % length);
        let all = before.iter().all(|at| self.items[*at] as u8 == mark);
        if all {
            before.iter().for_each(|at| self.items[*at] = 0x100 + u16::from(mark));
        }
        all
    }

    /// The marks before the first data mark behind an ID.
    fn mark_data(&mut self, from: usize) {
        for place in from + 3..from + FARTHEST_DATA_MARK {
            if DATA_MARKS.contains(&self.byte(place)) && self.mark_before(place, 0xA1) {
                return;
            }
        }
    }

    /// The marks before the index mark, before the first ID.
    fn mark_index(&mut self, first: usize) {
        for place in 3..first {
            if self.byte(place) == INDEX_MARK && self.mark_before(place, 0xC2) {
                return;
            }
        }
    }
}

/// The half cells of items that go round. The library is given the item before each part too, whose last bit decides
/// the first clock bit of the next.
fn cells_of(items: &[u16]) -> Vec<u8> {
    let mut cells = Vec::with_capacity(2 * items.len());
    let mut before = items.last().copied();
    for part in items.chunks(PART) {
        let joined: Vec<u16> = before.into_iter().chain(part.iter().copied()).collect();
        let mut words = vec![0; joined.len()];
        // bytes and marks, no more than the limit, and a word for each: never refused
        let count = ism::make_image(&joined, &mut words).unwrap_or(0);
        cells.extend(words[..count].iter().skip(1).flat_map(|word| word.to_be_bytes()));
        before = part.last().copied();
    }
    cells
}

#[cfg(test)]
mod tests {
    use super::*;
    use crate::disk::data_bits;

    fn table(places: &[u16]) -> Vec<u8> {
        let mut table: Vec<u8> = places.iter().flat_map(|place| place.to_le_bytes()).collect();
        table.resize(TABLE, 0);
        table
    }

    #[test]
    fn bytes_become_their_words_round_the_track_and_over_parts() {
        let bytes: Vec<u8> = (0..13_001_u32).map(|i| (i * i % 251) as u8 | 1).collect();
        let turn = turn_of(&table(&[]), &bytes).unwrap();
        assert_eq!(turn.len(), 16 * bytes.len());
        let mut bit = bytes[13_000] & 1;
        for (i, byte) in bytes.iter().enumerate() {
            let word = turn.word(16 * i);
            assert_eq!(data_bits(word), *byte);
            assert_eq!(word >> 15 & 1 == 1, bit == 0 && byte >> 7 == 0, "clock bit of byte {i}");
            bit = byte & 1;
        }
    }

    #[test]
    fn marks_stand_before_the_ids_of_the_table_and_before_their_data() {
        let mut bytes = vec![0; 400];
        bytes[10..14].copy_from_slice(&[0xC2, 0xC2, 0xC2, 0xFC]);
        for id in [50, 200] {
            bytes[id - 3..=id].copy_from_slice(&[0xA1, 0xA1, 0xA1, 0xFE]);
            bytes[id + 40..id + 44].copy_from_slice(&[0xA1, 0xA1, 0xA1, 0xFB]);
        }
        let turn = turn_of(&table(&[0x8000 + 128 + 50, 128 + 200]), &bytes).unwrap();
        let word = |at: usize| turn.word(16 * at);
        assert_eq!([word(10), word(47), word(49), word(90), word(92)], [0x5224, 0x4489, 0x4489, 0x4489, 0x4489]);
        assert_ne!(word(199), 0x4489, "an ID of single density");
        assert_ne!(word(240), 0x4489);
        assert_eq!(turn.single_density, 1);
    }

    #[test]
    fn places_outside_the_track_are_told() {
        assert!(turn_of(&table(&[0x8000 + 127]), &[0; 100]).unwrap_err().contains("outside the track"));
        assert!(turn_of(&table(&[0x8000 + 228]), &[0; 100]).is_err());
        assert!(turn_of(&table(&[0x8000 + 227]), &[0; 100]).is_ok());
        assert!(turn_of(&table(&[0x8000 + 128]), &[0xFE]).is_ok());
    }
}
