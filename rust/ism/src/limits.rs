//! What holds the margin down.

use crate::{sys, Profile, Refusal};

/// The most sides that hold a margin down.
pub const MAX_LIMITS: usize = 10;

/// An edge of the windows.
#[derive(Clone, Copy, Debug, PartialEq, Eq, PartialOrd, Ord)]
pub enum Edge {
    /// the lower edge of class 2
    Min,
    /// the lower edge of class 3
    B23,
    /// the lower edge of class 4
    B34,
    /// the lower edge of wide
    Rpt,
}

/// The kind of cell before.
#[derive(Clone, Copy, Debug, PartialEq, Eq, PartialOrd, Ord)]
pub enum After {
    /// both kinds: Min and Rpt
    Both,
    /// a cell of 2 units: `b23_short`, `b34_short`
    Short,
    /// any other: `b23_long`, `b34_long`
    Long,
}

/// Which lengths are too near to the edge for one half clock more.
#[derive(Clone, Copy, Debug, PartialEq, Eq, PartialOrd, Ord)]
pub enum Side {
    /// those below it: to raise the margin, turn its number up
    Below,
    /// those above it, the edge itself among them: turn it down
    Above,
}

/// A side of an edge that forbids margin + 1, and a list of one byte that shows it.
#[derive(Clone, Copy, Debug, PartialEq, Eq)]
pub struct Limit {
    /// the edge
    pub edge: Edge,
    /// the kind of cell before
    pub after: After,
    /// which lengths are too near
    pub side: Side,
    /// the lowest data or mark byte, as an item, whose list has a length that crosses the edge if moved by margin + 1
    pub item: u16,
    /// the first such interval in the list's stream
    pub interval: usize,
    /// its length, moved by exactly margin + 1
    pub moved: u16,
}

/// The sides that hold a margin down, one to ten, in the order that the C header says.
#[derive(Clone, Copy, Debug, PartialEq, Eq)]
pub struct Limits {
    limits: [sys::Limit; MAX_LIMITS],
    count: usize,
}

impl Limits {
    /// The sides in order.
    pub fn iter(&self) -> impl ExactSizeIterator<Item = Limit> + '_ {
        self.limits[..self.count].iter().map(limit)
    }
}

fn limit(l: &sys::Limit) -> Limit {
    Limit {
        edge: match l.edge {
            1 => Edge::Min,
            2 => Edge::B23,
            3 => Edge::B34,
            _ => Edge::Rpt,
        },
        after: match l.after {
            0 => After::Both,
            1 => After::Short,
            _ => After::Long,
        },
        side: if l.above == 0 { Side::Below } else { Side::Above },
        item: l.item,
        interval: usize::from(l.interval),
        moved: l.moved,
    }
}

/// Each side of a window edge that forbids one half clock more than the margin: a side is named when, and only when,
/// some length written on that side crosses the edge if moved by margin + 1.
///
/// ```
/// # let profile = ism::Profile {
/// #     t1: 58, t0: 29, early: 8, normal: 10, late: 12, min: 36,
/// #     b23_short: 73, b23_long: 73, b34_short: 106, b34_long: 106, rpt: 139,
/// # };
/// for limit in ism::margin_limits(profile)?.iter() {
///     let way = if limit.side == ism::Side::Below { "up" } else { "down" };
///     println!("turn {:?} {way}: see item {:#04X}, interval {}", limit.edge, limit.item, limit.interval);
/// #   assert_eq!(limit.edge, ism::Edge::B34);
/// }
/// # Ok::<(), ism::Refusal>(())
/// ```
///
/// Refused: profile.
pub fn margin_limits(profile: Profile) -> Result<Limits, Refusal> {
    // SAFETY: numbers in, numbers out
    let limits = unsafe { sys::ism_margin_limits(profile) };
    match Refusal::from_numbers(limits.number, limits.place) {
        Some(refusal) => Err(refusal),
        None => Ok(Limits { limits: limits.limits, count: limits.count as usize }),
    }
}
