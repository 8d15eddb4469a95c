//! A disk as emulators hold it: for each track and side the half cells of one turn.

/// The half cells of one turn, eight to a byte, the first in the highest bit; a one is a transition. Behind the last
/// comes the first again.
#[derive(Clone, Debug, Default, PartialEq, Eq)]
pub struct Turn {
    pub cells: Vec<u8>,
    /// IDs of single density (FM) that the container tells of; they are not read
    pub single_density: usize,
}

/// Half cells to a byte of data.
pub const HALF_CELLS_PER_BYTE: usize = 16;

/// The two bytes of half cells that a gap byte 4E has after another.
pub const GAP_CELLS: [u8; 2] = [0x92, 0x54];

impl Turn {
    /// A turn of these half cells.
    pub fn of(cells: Vec<u8>) -> Turn {
        Turn { cells, single_density: 0 }
    }

    /// How many half cells it has.
    pub fn len(&self) -> usize {
        self.cells.len() * 8
    }

    /// Whether it has none: a track that was never written.
    pub fn is_empty(&self) -> bool {
        self.cells.is_empty()
    }

    /// The places of its transitions, in half cells from the start.
    pub fn transitions(&self) -> Vec<u32> {
        let mut places = Vec::with_capacity(self.cells.len() * 4);
        for (chunk, eight) in self.cells.chunks(8).enumerate() {
            let mut padded = [0; 8];
            padded[..eight.len()].copy_from_slice(eight);
            let mut left = u64::from_be_bytes(padded);
            while left != 0 {
                let zeros = left.leading_zeros();
                places.push(chunk as u32 * 64 + zeros);
                left &= !(1 << (63 - zeros));
            }
        }
        places
    }

    /// The sixteen half cells from a place on, past the end from the start again.
    pub fn word(&self, place: usize) -> u16 {
        let (byte, shift) = (place / 8, place % 8);
        let at = |i: usize| u32::from(self.cells[(byte + i) % self.cells.len()]);
        ((at(0) << 16 | at(1) << 8 | at(2)) >> (8 - shift)) as u16
    }
}

/// The data bits of a code word: every second half cell, a clock bit before each.
pub fn data_bits(word: u16) -> u8 {
    (0..8).fold(0, |byte, bit| byte << 1 | (word >> (14 - 2 * bit) & 1) as u8)
}

/// Tracks and sides, with the bit rate that the container names.
#[derive(Clone, Debug, PartialEq, Eq)]
pub struct Disk {
    /// 1 or 2
    pub sides: usize,
    /// thousand data bits in a second
    pub rate: u16,
    /// track 0 side 0, track 0 side 1, track 1 side 0 and so on
    pub turns: Vec<Turn>,
}

/// A double-density disk: 6,250 bytes in a turn at 300 turns a minute.
pub const DOUBLE_DENSITY: u16 = 250;
/// A high-density disk: 12,500 bytes in a turn.
pub const HIGH_DENSITY: u16 = 500;

impl Disk {
    /// How many tracks it has on each side.
    pub fn tracks(&self) -> usize {
        self.turns.len() / self.sides
    }

    /// The turns with their track and side.
    pub fn places(&self) -> impl Iterator<Item = (Place, &Turn)> {
        let sides = self.sides;
        self.turns.iter().enumerate().map(move |(i, turn)| (Place { track: i / sides, side: i % sides }, turn))
    }

    /// The turn at a track and side, if the disk has it.
    pub fn turn(&self, place: Place) -> Option<&Turn> {
        (place.side < self.sides).then(|| self.turns.get(place.track * self.sides + place.side)).flatten()
    }
}

/// A track and a side, as the drive counts them.
#[derive(Clone, Copy, Debug, PartialEq, Eq)]
pub struct Place {
    pub track: usize,
    pub side: usize,
}

impl std::fmt::Display for Place {
    fn fmt(&self, f: &mut std::fmt::Formatter<'_>) -> std::fmt::Result {
        write!(f, "track {}, side {}", self.track, self.side)
    }
}

#[cfg(test)]
mod tests {
    use super::*;

    #[test]
    fn transitions_are_the_ones() {
        let turn = Turn::of(vec![0x80, 0, 0, 0, 0, 0, 0, 0x01, 0x44, 0x89]);
        assert_eq!(turn.transitions(), [0, 63, 65, 69, 72, 76, 79]);
    }

    #[test]
    fn words_go_round() {
        let turn = Turn::of(vec![0x89, 0xAA, 0x44]);
        assert_eq!(turn.word(16), 0x4489);
        assert_eq!(turn.word(1), 0x1354);
        assert_eq!(turn.word(23), 0x44D5);
    }

    #[test]
    fn data_bits_stand_behind_clock_bits() {
        assert_eq!(data_bits(0x4489), 0xA1);
        assert_eq!(data_bits(0x5224), 0xC2);
        assert_eq!(data_bits(0xAAAA), 0);
        assert_eq!(data_bits(u16::from_be_bytes(GAP_CELLS)), 0x4E);
    }
}
