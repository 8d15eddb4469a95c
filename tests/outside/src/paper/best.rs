//! The best windows, beyond the papers: each number of the six is searched for among all that it can be.

use super::{cell_shapes, refuse, CellShape, Eleven, Refused, RANGES};

/// T1, T0, Early, Normal, Late.
pub type Five = [u16; 5];

/// What the lengths next to an edge leave it: the longest that has to stay below, and the shortest that must not.
struct Edge {
    below: i64,
    above: i64,
}

const NONE_BELOW: i64 = i64::MIN / 2;
const NONE_ABOVE: i64 = i64::MAX / 2;

impl Edge {
    /// From the lengths of some cells: those with fewer zeros belong below, the others above.
    fn between(five: &Five, zeros: usize, counts: impl Fn(&CellShape) -> bool) -> Edge {
        let mut eleven: Eleven = [0; 11];
        eleven[..5].copy_from_slice(five);
        let cells: Vec<&CellShape> = cell_shapes().iter().filter(|shape| counts(shape)).collect();
        let below = cells.iter().filter(|s| s.zeros < zeros).map(|s| s.length(&eleven)).max();
        let above = cells.iter().filter(|s| s.zeros >= zeros).map(|s| s.length(&eleven)).min();
        Edge { below: below.unwrap_or(NONE_BELOW), above: above.unwrap_or(NONE_ABOVE) }
    }

    /// By how much lengths may move towards a number that is this edge; below zero where one is on the wrong side.
    fn room(&self, number: u16) -> i64 {
        (i64::from(number) - 1 - self.below).min(self.above - i64::from(number))
    }

    fn most_room(&self) -> i64 {
        numbers().map(|number| self.room(number)).max().expect("some number")
    }

    /// The lowest number with the most room.
    fn centre(&self) -> u16 {
        let most = self.most_room();
        numbers().find(|number| self.room(*number) == most).expect("some number")
    }
}

/// What an edge can be.
fn numbers() -> impl DoubleEndedIterator<Item = u16> {
    let (least, most) = RANGES[5];
    least..=most
}

/// The six edges in the profile's order. Min and Rpt count over both kinds of cell before.
fn edges(five: &Five, equal_pairs: bool) -> [Edge; 6] {
    let after = |short: bool| move |shape: &CellShape| equal_pairs || shape.after_short == short;
    [
        Edge::between(five, 0, |_| true),
        Edge::between(five, 1, after(true)),
        Edge::between(five, 1, after(false)),
        Edge::between(five, 2, after(true)),
        Edge::between(five, 2, after(false)),
        Edge::between(five, 3, |_| true),
    ]
}

/// Refusal 1 over the five.
fn check_five(five: &Five) -> Result<(), Refused> {
    let out = five.iter().zip(RANGES).position(|(number, (least, most))| !(least..=most).contains(number));
    out.map_or(Ok(()), |which| refuse(1, which + 1))
}

/// The largest margin of any profile with these five numbers, its pairs equal or not: 1, 2.
pub fn largest_margin(five: &Five, equal_pairs: bool) -> Result<u64, Refused> {
    check_five(five)?;
    let rooms = edges(five, equal_pairs).map(|edge| edge.most_room());
    match rooms.into_iter().min() {
        Some(margin) if five[2] <= five[3] && five[3] <= five[4] && margin >= 0 => Ok(margin as u64),
        _ => refuse(2, 0),
    }
}

/// The margin, and the profile that is given: the bounds with the most room, the lower on a tie; the highest Min and the
/// lowest Rpt that leave room for the margin.
pub fn best_windows(five: &Five) -> Result<(u64, Eleven), Refused> {
    let margin = largest_margin(five, false)?;
    let [min, b23_short, b23_long, b34_short, b34_long, rpt] = edges(five, false);
    let leaves_room = |edge: &Edge, number: &u16| edge.room(*number) >= margin as i64;
    let six = [
        numbers().rev().find(|number| leaves_room(&min, number)).expect("a Min with room"),
        b23_short.centre(),
        b23_long.centre(),
        b34_short.centre(),
        b34_long.centre(),
        numbers().find(|number| leaves_room(&rpt, number)).expect("a Rpt with room"),
    ];
    let mut eleven: Eleven = [0; 11];
    eleven[..5].copy_from_slice(five);
    eleven[5..].copy_from_slice(&six);
    Ok((margin, eleven))
}
