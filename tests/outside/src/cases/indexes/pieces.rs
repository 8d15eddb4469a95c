//! Tracks for the index: fields one after the other, whole and with faults put in.

use crate::cases::WORKED;
use crate::paper::{stream_of, written_bytes, CHECK_ORDER};
use crate::random::Random;

pub const A1: u16 = 0x1A1;
pub const C2: u16 = 0x1C2;

/// A field with the sync before it and the gap behind it.
#[derive(Clone, Debug)]
pub struct Piece {
    pub sync: Vec<u16>,
    pub marks: Vec<u16>,
    /// the byte that names the field
    pub name: u16,
    pub content: Vec<u16>,
    /// whether its sum holds
    pub sum: bool,
    pub gap: Vec<u16>,
}

/// An ID field.
pub fn id(sector: u8, code: u8) -> Piece {
    let content = [39, 1, sector, code].map(u16::from).to_vec();
    Piece { sync: vec![0; 12], marks: vec![A1; 3], name: 0xFE, content, sum: true, gap: vec![0x4E; 22] }
}

/// A data field.
pub fn data(content: Vec<u16>) -> Piece {
    Piece { name: 0xFB, content, gap: vec![0x4E; 54], ..id(0, 0) }
}

/// A data field of 128 bytes.
pub fn small_data() -> Piece {
    data((0..128).collect())
}

impl Piece {
    /// The same without a run of 64 before its marks, so that no lock stands there.
    pub fn without_lock(self) -> Piece {
        Piece { sync: vec![0x4E; 12], ..self }
    }

    pub fn items(&self) -> Vec<u16> {
        [self.sync.clone(), self.field(), self.gap.clone()].concat()
    }

    /// Marks, name, content and check bytes.
    fn field(&self) -> Vec<u16> {
        let list = [self.marks.clone(), vec![self.name], self.content.clone(), vec![CHECK_ORDER]].concat();
        let mut written: Vec<u16> = written_bytes(&list).iter().map(|w| w.item()).collect();
        if !self.sum {
            *written.last_mut().expect("check bytes") ^= 1;
        }
        written
    }
}

pub fn items_of(pieces: &[Piece]) -> Vec<u16> {
    pieces.iter().flat_map(Piece::items).collect()
}

/// For each piece the interval with which its marks begin, if its sync ends in a 0: a 0 before the marks has no
/// interval of its own, so these are as many as the two closing 0s would give behind the sync, less two.
pub fn places_of(pieces: &[Piece]) -> Vec<usize> {
    let before = |which: usize| [items_of(&pieces[..which]), pieces[which].sync.clone()].concat();
    (0..pieces.len()).map(|which| stream_of(&WORKED, &before(which)).len() - 2).collect()
}

/// A field as the maker makes it, or one with something changed; now and then the other of the two.
pub fn random_piece(is_id: bool, random: &mut Random) -> Piece {
    let code = u8::from(random.one_in(12));
    let bytes = random.bytes(128 << code).into_iter().map(u16::from).collect();
    let mut piece = if is_id != random.one_in(10) { id(random.byte(), code) } else { data(bytes) };
    if random.one_in(3) {
        put_fault(&mut piece, random);
    }
    let shorter = random.between(0, 22) as usize;
    piece.gap.truncate(random.pick(&[22, 22, 22, shorter, 0]));
    piece
}

fn put_fault(piece: &mut Piece, random: &mut Random) {
    let place = random.index(piece.content.len());
    match random.between(0, 8) {
        0 | 1 => piece.sum = false,
        2 => piece.sync = vec![random.pick(&[0x00, 0xFF]); random.between(6, 10) as usize],
        3 => piece.marks = random.pick(&[vec![A1; 2], vec![A1; 4], vec![C2; 3], vec![A1, 0xA1, A1], vec![A1, A1, C2]]),
        4 => piece.name = random.pick(&[0xF8, 0xFA, 0xFB, 0xFC, 0xFE, 0xFF, A1]),
        5 => piece.content[place] = random.pick(&[A1, C2]),
        6 => *piece.content.last_mut().expect("some content") = random.between(0, 5) as u16,
        7 => piece.content.truncate(place),
        _ => *piece = piece.clone().without_lock(),
    }
}
