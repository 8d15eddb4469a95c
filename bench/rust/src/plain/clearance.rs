//! How near intervals come to the edges of their windows.

use ism::sys::Profile;

use super::kinds::{bounds_behind, has_pairs, kinds_before, of_kind, Bounds, BEHIND_TWO};

/// The least clearance of some intervals, none of them narrow or wide: how near they come to an edge. At Min that is
/// the shortest, at Rpt the longest. At a bound between two windows the differences are seen such that those of
/// intervals below the bound come last: then the first is the nearest from the bound up, the last the nearest below.
#[derive(Clone, Copy)]
struct Nearest {
    /// of the intervals themselves, of the differences from B23, of those from B34
    first: [i16; 3],
    last: [i16; 3],
}

impl Nearest {
    const NONE: Nearest = Nearest { first: [i16::MAX; 3], last: [i16::MIN; 3] };

    #[inline(always)]
    fn see(&mut self, interval: u16, bounds: Bounds) {
        let edges = [0, bounds.b23 ^ 0x8000, bounds.b34 ^ 0x8000];
        for (edge, (first, last)) in edges.iter().zip(self.first.iter_mut().zip(&mut self.last)) {
            let difference = interval.wrapping_sub(*edge) as i16;
            *first = difference.min(*first);
            *last = difference.max(*last);
        }
    }

    fn clearance(self, p: &Profile) -> u32 {
        let [shortest, from_b23, from_b34] = self.first.map(i32::from);
        let [longest, below_b23, below_b34] = self.last.map(i32::from);
        let outer = (shortest - i32::from(p.min)).min(i32::from(p.rpt) - 1 - longest);
        let b23 = (from_b23 + 0x8000).min(0x7FFF - below_b23);
        let b34 = (from_b34 + 0x8000).min(0x7FFF - below_b34);
        outer.min(b23).min(b34) as u32
    }
}

/// Of intervals that all stand behind one kind.
pub fn clearance_behind(p: &Profile, two: bool, intervals: &[u16]) -> u32 {
    let bounds = bounds_behind(p, two);
    let mut nearest = Nearest::NONE;
    intervals.iter().for_each(|interval| nearest.see(*interval, bounds));
    nearest.clearance(p)
}

/// Of a list.
pub fn least_clearance(p: &Profile, intervals: &[u16]) -> u32 {
    if has_pairs(p) {
        clearance_in_turn(p, intervals)
    } else {
        clearance_behind(p, true, intervals)
    }
}

/// Kinds that are found at once.
pub const KINDS: usize = 256;

fn clearance_in_turn(p: &Profile, intervals: &[u16]) -> u32 {
    let (two, other) = (bounds_behind(p, true), bounds_behind(p, false));
    let (mut nearest, mut is_two, mut kinds) = (Nearest::NONE, true, [BEHIND_TWO; KINDS]);
    for block in intervals.chunks(KINDS) {
        let kinds = &mut kinds[..block.len()];
        is_two = kinds_before(p, is_two, block, kinds);
        for (interval, kind) in block.iter().zip(kinds) {
            let bounds = Bounds { b23: of_kind(*kind, two.b23, other.b23), b34: of_kind(*kind, two.b34, other.b34) };
            nearest.see(*interval, bounds);
        }
    }
    nearest.clearance(p)
}
