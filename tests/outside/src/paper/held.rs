//! What holds the margin down, request (xii): the sides of an edge, and the lists of one byte that show them.

use std::sync::OnceLock;

use super::{margin, shapes_of, single_bytes, symbols_of, written_bytes, CellShape, Eleven, Refused};

pub const MOST_LIMITS: usize = 10;

/// The lengths below an edge or those above it, after a kind of cell.
#[derive(Clone, Copy, Debug, PartialEq, Eq)]
pub struct Side {
    /// Min, B23, B34, Rpt
    pub edge: &'static str,
    /// short, long, or both
    pub after: &'static str,
    pub above: bool,
    /// which of the profile's numbers the edge is
    number: usize,
}

/// A side that forbids margin + 1, with its evidence.
#[derive(Clone, Debug, PartialEq, Eq)]
pub struct Limit {
    pub side: Side,
    pub item: u16,
    pub interval: usize,
    pub moved: i64,
}

/// The sides in document 02's order, those too on which no length is ever written.
pub fn sides() -> Vec<Side> {
    let edges =
        [("Min", "both"), ("B23", "short"), ("B23", "long"), ("B34", "short"), ("B34", "long"), ("Rpt", "both")];
    // the edges are the profile's last six numbers, in this order
    let both = |(place, (edge, after))| [false, true].map(|above| Side { edge, after, above, number: 5 + place });
    edges.into_iter().enumerate().flat_map(both).collect()
}

impl Side {
    /// Whether a cell comes after the kind that this side speaks of.
    fn speaks_of(&self, shape: &CellShape) -> bool {
        self.after == "both" || (self.after == "short") == shape.after_short
    }

    /// The length moved by so much, if it is on this side and then on the other.
    fn crossing(&self, eleven: &Eleven, length: i64, by: i64) -> Option<i64> {
        let is_here = |d: i64| (d >= i64::from(eleven[self.number])) == self.above;
        [length - by, length + by].into_iter().find(|d| is_here(length) && !is_here(*d))
    }

    /// The first cell that crosses the edge from this side if moved by so much, and where it then is.
    pub fn first_crossing(&self, eleven: &Eleven, shapes: &[CellShape], by: i64) -> Option<(usize, i64)> {
        let crosses = |(place, shape): (usize, &CellShape)| {
            let moved = self.crossing(eleven, shape.length(eleven), by).filter(|_| self.speaks_of(shape));
            moved.map(|moved| (place, moved))
        };
        shapes.iter().enumerate().find_map(crosses)
    }
}

/// Each list of one byte, the lowest item first, with its cells.
fn one_byte_lists() -> &'static [(u16, Vec<CellShape>)] {
    static LISTS: OnceLock<Vec<(u16, Vec<CellShape>)>> = OnceLock::new();
    LISTS.get_or_init(|| {
        let cells = |item: u16| (item, shapes_of(&symbols_of(&written_bytes(&[item]))));
        single_bytes().into_iter().map(cells).collect()
    })
}

/// The sides that hold the margin down: 1, 2.
pub fn margin_limits(eleven: &Eleven) -> Result<Vec<Limit>, Refused> {
    let by = margin(eleven)? as i64 + 1;
    let shown = |side: Side| {
        let seen = |(item, shapes): &(u16, Vec<CellShape>)| {
            let (interval, moved) = side.first_crossing(eleven, shapes, by)?;
            Some(Limit { side, item: *item, interval, moved })
        };
        one_byte_lists().iter().find_map(seen)
    };
    Ok(sides().into_iter().filter_map(shown).collect())
}
