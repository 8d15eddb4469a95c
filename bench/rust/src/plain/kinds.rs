//! The kind of the interval before: of class 2, or any other.

use ism::sys::Profile;

/// The bounds between the windows of classes 2, 3 and 4, behind an interval of class 2 or behind any other.
#[derive(Clone, Copy)]
pub struct Bounds {
    pub b23: u16,
    pub b34: u16,
}

#[inline(always)]
pub fn bounds_behind(p: &Profile, two: bool) -> Bounds {
    if two {
        Bounds { b23: p.b23_short, b34: p.b34_short }
    } else {
        Bounds { b23: p.b23_long, b34: p.b34_long }
    }
}

/// Whether the kind of the interval before matters.
#[inline(always)]
pub fn has_pairs(p: &Profile) -> bool {
    p.b23_short != p.b23_long || p.b34_short != p.b34_long
}

/// Classes 1 narrow, 2, 3, 4, 5 wide. The edges of a true profile ascend, so the class is one more than the number of
/// edges that the interval reaches.
#[inline]
pub fn classify(p: &Profile, two: bool, interval: u16) -> u8 {
    let Bounds { b23, b34 } = bounds_behind(p, two);
    [p.min, b23, b34, p.rpt].iter().fold(1, |class, edge| class + u8::from(interval >= *edge))
}

/// Whether the intervals behind one of class 2 begin with these classes; each tells the kind of the one behind it.
pub fn has_classes(p: &Profile, intervals: &[u16], classes: &[u8]) -> bool {
    let befores = [2].iter().chain(classes);
    let begins = |front: &[u16]| {
        let mut all = front.iter().zip(classes).zip(befores);
        all.all(|((interval, class), before)| classify(p, *before == 2, *interval) == *class)
    };
    intervals.get(..classes.len()).is_some_and(begins)
}

/// Class 2 behind class 2 or behind any other, as one compare.
#[derive(Clone, Copy)]
pub struct Class2 {
    min: u16,
    pub width: u16,
}

impl Class2 {
    #[inline(always)]
    pub fn behind(p: &Profile, two: bool) -> Class2 {
        Class2 { min: p.min, width: bounds_behind(p, two).b23 - p.min }
    }

    #[inline(always)]
    pub fn has(&self, interval: u16) -> bool {
        interval.wrapping_sub(self.min) < self.width
    }
}

/// The kind of the interval before: of class 2; 0 for any other.
pub const BEHIND_TWO: u16 = 0xFFFF;

#[inline(always)]
fn kind(two: bool) -> u16 {
    u16::from(two).wrapping_neg()
}

/// One of two numbers by the kind of the interval before, without a jump.
#[inline(always)]
pub fn of_kind(kind: u16, behind_two: u16, behind_other: u16) -> u16 {
    behind_other ^ ((behind_two ^ behind_other) & kind)
}

/// The kind of the interval before, for each of some intervals, the first of which stands behind class 2 or not;
/// whether the last is of class 2. Where none lies between the two B23, each says by itself whether it is of class 2.
#[inline(always)]
pub fn kinds_before(p: &Profile, two: bool, intervals: &[u16], kinds: &mut [u16]) -> bool {
    let (behind_two, behind_other) = (Class2::behind(p, true), Class2::behind(p, false));
    let (low, gap) = (p.b23_short.min(p.b23_long), p.b23_short.abs_diff(p.b23_long));
    let is_unsure = |interval: &u16| interval.wrapping_sub(low) < gap;
    if intervals.iter().fold(0, |unsure, interval| unsure | u16::from(is_unsure(interval))) == 0 {
        kinds[0] = kind(two);
        for (next, interval) in kinds[1..].iter_mut().zip(intervals) {
            *next = kind(behind_two.has(*interval));
        }
        return behind_two.has(intervals[intervals.len() - 1]);
    }
    let mut is_two = two;
    for (before, interval) in kinds.iter_mut().zip(intervals) {
        *before = kind(is_two);
        is_two = if is_two { behind_two } else { behind_other }.has(*interval);
    }
    is_two
}
