//! Bytes and places of IDs from the half cells of a turn.

use crate::disk::{data_bits, Turn, HALF_CELLS_PER_BYTE};
use crate::timing::Lengths;
use crate::track::Window;

const MARK_A1: u16 = 0x4489;
const ID_MARK: u8 = 0xFE;
/// Bytes before a lock that are read with it: the 64 intervals of 00 that every lock has.
const SYNC_BYTES: usize = 8;

/// A turn as DMK holds it.
pub struct Decoded {
    pub bytes: Vec<u8>,
    /// the places of the ID marks FE in the bytes
    pub ids: Vec<usize>,
}

/// The bytes of a turn. Where they begin is known only behind a mark, so each lock that the library finds begins anew,
/// its sync field with it. A turn whose start cuts a sector is begun behind that sector.
pub fn decode(turn: &Turn, profile: ism::Profile) -> Decoded {
    let lengths = Lengths::of(profile);
    let turn = behind_the_cut(turn, profile, &lengths);
    let marks = Window::of(&turn, profile, &lengths).marks();
    let mut starts: Vec<usize> =
        marks.iter().map(|mark| mark.saturating_sub(SYNC_BYTES * HALF_CELLS_PER_BYTE)).collect();
    let first = starts.first().map_or(0, |start| start % HALF_CELLS_PER_BYTE);
    starts.insert(0, first);
    starts.push(turn.len());
    let mut decoded = Decoded { bytes: Vec::with_capacity(turn.cells.len() / 2), ids: Vec::new() };
    for (i, pair) in starts.windows(2).enumerate() {
        let begin = decoded.bytes.len();
        let words = pair[1].saturating_sub(pair[0]) / HALF_CELLS_PER_BYTE;
        decoded.bytes.extend((0..words).map(|word| data_bits(turn.word(pair[0] + word * HALF_CELLS_PER_BYTE))));
        if i > 0 && is_id(&turn, marks[i - 1]) {
            decoded.ids.push(begin + (marks[i - 1] - pair[0]) / HALF_CELLS_PER_BYTE + 3);
        }
    }
    decoded.ids.retain(|place| *place < decoded.bytes.len());
    decoded
}

/// Whether three A1 marks and FE stand at a place.
fn is_id(turn: &Turn, mark: usize) -> bool {
    let word = |i: usize| turn.word((mark + i * HALF_CELLS_PER_BYTE) % turn.len());
    (0..3).all(|i| word(i) == MARK_A1) && data_bits(word(3)) == ID_MARK
}

/// The turn itself, or one that begins behind the sector that its start cuts, at a whole byte of half cells.
fn behind_the_cut(turn: &Turn, profile: ism::Profile, lengths: &Lengths) -> Turn {
    let window = Window::of(turn, profile, lengths);
    let sectors = window.sectors().unwrap_or_default();
    let end = sectors.iter().filter_map(|sector| window.end_of(sector).ok()).max().unwrap_or(0);
    let mut cells = turn.cells.clone();
    if end > turn.len() {
        cells.rotate_left((end - turn.len()).div_ceil(8) % turn.cells.len());
    }
    Turn::of(cells)
}
