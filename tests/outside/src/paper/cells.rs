//! From bits to cells: bits, symbols, compare points, lengths, and the writer.

use std::sync::OnceLock;

use super::{check_items, check_profile, fit, written_bytes, Eleven, Refused, Written, MOST_BYTES};

/// The bits of a list: a lead 0, the bytes, two closing 0s.
pub fn bits_of(written: &[Written]) -> String {
    let bytes: String = written.iter().map(|w| format!("{:08b}", w.byte)).collect();
    format!("0{bytes}00")
}

/// The symbols of a list: 1 a transition, 0 a space.
pub fn symbols_of(written: &[Written]) -> String {
    let bits = bits_of(written);
    let pair = |at: usize| {
        if skips_transition(written, &bits, at) {
            "00"
        } else {
            symbols_of_pair(&bits[at..at + 2])
        }
    };
    (0..bits.len() - 1).map(pair).collect()
}

/// The chip's table from bit and next bit to symbols.
pub fn symbols_of_pair(pair: &str) -> &'static str {
    match pair {
        "00" => "1",
        "01" => "01",
        "10" => "0",
        "11" => "1",
        _ => panic!("{pair} is no pair of bits"),
    }
}

/// Whether the pair of bits beginning at `at` ends the pattern 1 0 0 0 inside one mark byte.
fn skips_transition(written: &[Written], bits: &str, at: usize) -> bool {
    let byte_at = |place: usize| place.checked_sub(1).map(|p| p / 8).filter(|p| *p < written.len());
    let Some(first) = at.checked_sub(2) else {
        return false;
    };
    let Some(byte) = byte_at(first) else {
        return false;
    };
    byte_at(at + 1) == Some(byte) && written[byte].mark && &bits[first..at + 2] == "1000"
}

/// What the length of a cell and its window depend on besides the profile.
#[derive(Clone, Copy, Debug, PartialEq, Eq, PartialOrd, Ord)]
pub struct CellShape {
    /// whether the cell before it has no zeros; the first counts as if it had one before it
    pub after_short: bool,
    pub zeros: usize,
    pub start: Point,
    pub end: Point,
}

/// The compare point of a transition.
#[derive(Clone, Copy, Debug, PartialEq, Eq, PartialOrd, Ord)]
pub enum Point {
    Early,
    Normal,
    Late,
}

impl Point {
    /// From the symbol before the transition, its own 1, and the symbol after it.
    fn from_three_symbols(three: &str) -> Point {
        match three {
            "110" => Point::Early,
            "011" => Point::Late,
            _ => Point::Normal,
        }
    }

    fn clocks(self, eleven: &Eleven) -> i64 {
        i64::from(eleven[2 + self as usize])
    }
}

impl CellShape {
    /// Half clocks; the compare points are whole clocks and count double.
    pub fn length(&self, eleven: &Eleven) -> i64 {
        let nominal = i64::from(eleven[0]) + self.zeros as i64 * i64::from(eleven[1]);
        nominal + 2 * (self.end.clocks(eleven) - self.start.clocks(eleven))
    }
}

/// The cells of a text of symbols: the stretches between transitions, the one before the first symbol included.
pub fn shapes_of(symbols: &str) -> Vec<CellShape> {
    // the first transition counts as a symbol 1, and so do the neighbours of the first and the last
    let text = format!("11{symbols}1");
    let places: Vec<usize> = (1..text.len() - 1).filter(|at| &text[*at..*at + 1] == "1").collect();
    let point = |at: usize| Point::from_three_symbols(&text[at - 1..at + 2]);
    let mut shapes: Vec<CellShape> = Vec::new();
    for ends in places.windows(2) {
        let after_short = shapes.last().is_none_or(|before| before.zeros == 0);
        let zeros = ends[1] - ends[0] - 1;
        shapes.push(CellShape { after_short, zeros, start: point(ends[0]), end: point(ends[1]) });
    }
    shapes
}

/// The lengths of the cells of a text of symbols.
pub fn lengths_of(eleven: &Eleven, symbols: &str) -> Vec<u16> {
    let length = |s: &CellShape| u16::try_from(s.length(eleven)).expect("a true profile gives intervals");
    shapes_of(symbols).iter().map(length).collect()
}

/// The stream of a list, whatever its length.
pub fn stream_of(eleven: &Eleven, items: &[u16]) -> Vec<u16> {
    lengths_of(eleven, &symbols_of(&written_bytes(items)))
}

/// Every single data or mark byte, as an item.
pub fn single_bytes() -> Vec<u16> {
    (0..256).chain([0x1A1, 0x1C2]).collect()
}

/// The shapes of cells of which every stream consists, found in the lists of one byte.
///
/// Each depends on the cell itself and on whether the symbols before and after it are 1: twelve in all. After a cell of
/// no zeros a cell starts Normal or, if it is longer, Early; after a longer one Late or Normal.
pub fn cell_shapes() -> &'static [CellShape] {
    static SHAPES: OnceLock<Vec<CellShape>> = OnceLock::new();
    SHAPES.get_or_init(|| {
        let shapes = shapes_in(single_bytes().into_iter().map(|item| vec![item]));
        assert_eq!(shapes.len(), 12, "two ends for each of three lengths after each kind of cell");
        shapes
    })
}

/// The shapes of cells in the streams of some lists, each once.
pub fn shapes_in(lists: impl Iterator<Item = Vec<u16>>) -> Vec<CellShape> {
    let mut shapes: Vec<CellShape> = Vec::new();
    for items in lists {
        shapes.extend(shapes_of(&symbols_of(&written_bytes(&items))));
        shapes.sort();
        shapes.dedup();
    }
    shapes
}

/// The writer.
pub fn write(eleven: &Eleven, items: &[u16], room: usize) -> Result<Vec<u16>, Refused> {
    check_profile(eleven)?;
    check_items(items, MOST_BYTES)?;
    fit(stream_of(eleven, items), room)
}
