//! Finder.

use ism::sys::{Answer, Profile};

use super::kinds::{classify, has_pairs, Class2};
use super::{check_profile, counted, either, refused};

const SYNC: usize = 64;
/// Of an A1 mark.
const MARK_CELLS: usize = 5;
/// Looked at one by one before spans are.
const NEAR: usize = 8;
const SPAN: usize = 16;

/// How many intervals come before the first that is one of those.
#[inline(always)]
fn before(intervals: &[u16], is_one: impl Fn(&u16) -> bool) -> usize {
    let mut rest = intervals;
    while let Some((span, others)) = rest.split_first_chunk::<SPAN>() {
        if span.iter().fold(0, |some, interval| some | u16::from(is_one(interval))) != 0 {
            break;
        }
        rest = others;
    }
    let seen = intervals.len() - rest.len();
    seen + rest.iter().position(is_one).unwrap_or(rest.len())
}

impl Class2 {
    #[inline(always)]
    fn is_other(&self, interval: &u16) -> bool {
        !self.has(*interval)
    }

    #[inline(always)]
    fn is_all_of(&self, span: &[u16; SPAN]) -> bool {
        span.iter().fold(0, |others, interval| others | u16::from(self.is_other(interval))) == 0
    }

    /// How many intervals go up to the last of another class. In data that is near the end, else far.
    #[inline(always)]
    fn before_run(&self, intervals: &[u16]) -> usize {
        let (mut far, near) = intervals.split_at(intervals.len().saturating_sub(NEAR));
        if let Some(place) = near.iter().rposition(|interval| self.is_other(interval)) {
            return far.len() + place + 1;
        }
        while let Some((rest, span)) = far.split_last_chunk::<SPAN>() {
            if !self.is_all_of(span) {
                break;
            }
            far = rest;
        }
        far.iter().rposition(|interval| self.is_other(interval)).map_or(0, |place| place + 1)
    }

    /// How many intervals come before the first of another class.
    #[inline(always)]
    fn run(&self, intervals: &[u16]) -> usize {
        before(intervals, |interval| self.is_other(interval))
    }
}

#[inline(never)]
pub fn plain_rust_find(profile: Profile, intervals: &[u16], start: u64) -> Answer {
    either(check_profile(&profile).map(|()| {
        let lock = find_lock(&profile, intervals, start);
        lock.map_or(refused(10, 0), |place| counted(place as u64))
    }))
}

/// The first lock from `start` on, under a true profile.
pub fn find_lock(p: &Profile, intervals: &[u16], start: u64) -> Option<usize> {
    let start = usize::try_from(start).unwrap_or(usize::MAX).min(intervals.len());
    if has_pairs(p) {
        Search::new(p, &intervals[start..]).find().map(|place| start + place)
    } else {
        find_alike(p, intervals, start)
    }
}

/// Equal pairs. The 64 intervals of a run that begins at `first` are looked at from the last one back. One of another
/// class rules out every run over it, and what was seen behind it is not looked at again, so no interval is seen twice.
fn find_alike(p: &Profile, intervals: &[u16], start: usize) -> Option<usize> {
    let class_2 = Class2::behind(p, true);
    let (mut first, mut seen) = (start, start);
    while first + SYNC + MARK_CELLS <= intervals.len() {
        if class_2.is_other(&intervals[first + SYNC - 1]) {
            first += SYNC;
            seen = first;
            continue;
        }
        let at = seen + class_2.before_run(&intervals[seen..first + SYNC - 1]);
        if at > seen {
            seen = first + SYNC;
            first = at;
            continue;
        }
        let end = first + SYNC + class_2.run(&intervals[first + SYNC..]);
        if is_mark(p, &intervals[end..]) {
            return Some(end);
        }
        first = end + 1;
        seen = first;
    }
    None
}

/// A search under pairs, from the first interval on.
struct Search<'a> {
    p: &'a Profile,
    behind_two: Class2,
    behind_other: Class2,
    intervals: &'a [u16],
}

impl<'a> Search<'a> {
    fn new(p: &'a Profile, intervals: &'a [u16]) -> Self {
        Search { p, behind_two: Class2::behind(p, true), behind_other: Class2::behind(p, false), intervals }
    }

    fn is_sure(&self, interval: &u16) -> bool {
        self.behind_two.has(*interval) == self.behind_other.has(*interval)
    }

    /// Whether an interval is of class 2. One that lies between the two B23 is of class 2 if the one before is, or if
    /// it is not, by which of them is the greater; so it goes back to one that does not, or to the first, which begins
    /// as behind class 2.
    fn is_two(&self, at: usize) -> bool {
        let sure = self.intervals[..=at].iter().rposition(|interval| self.is_sure(interval)).unwrap_or(0);
        let turns = self.behind_two.width < self.behind_other.width && (at - sure) % 2 == 1;
        self.behind_two.has(self.intervals[sure]) != turns
    }

    /// The first place from `at` on whose interval is of class 2, or the end: behind any other it stays so until one
    /// is.
    fn next_two(&self, at: usize) -> usize {
        if self.is_two(at) {
            return at;
        }
        at + 1 + before(&self.intervals[at + 1..], |interval| self.behind_other.has(*interval))
    }

    /// In a run all but the first stand behind class 2, so an interval that is not of class 2 there can only be the
    /// first of a run: it rules out every run over it and the one before it. Where none is ruled out, it is left to
    /// find out whether the first is of class 2.
    fn find(&self) -> Option<usize> {
        let (mut first, mut seen) = (0, 1);
        while first + SYNC + MARK_CELLS <= self.intervals.len() {
            let full = first + SYNC;
            let at = seen + self.behind_two.before_run(&self.intervals[seen..full]);
            let begin = if at == seen {
                self.next_two(first)
            } else if self.behind_other.has(self.intervals[at - 1]) {
                at - 1
            } else {
                at
            };
            if begin > first {
                first = begin;
                seen = full.max(begin + 1);
                continue;
            }
            let end = full + self.behind_two.run(&self.intervals[full..]);
            if is_mark(self.p, &self.intervals[end..]) {
                return Some(end);
            }
            first = end + 1;
            seen = first + 1;
        }
        None
    }
}

/// Three intervals of a mark, behind class 2 or not.
#[inline(always)]
fn is_3_4_3(p: &Profile, two: bool, [a, b, c]: [u16; 3]) -> bool {
    classify(p, two, a) == 3 && classify(p, false, b) == 4 && classify(p, false, c) == 3
}

/// Whether the intervals begin with an A1 mark, 3 4 3 4 3, or two C2 marks, 3 2 3 4 3 4 2 3 4 3.
fn is_mark(p: &Profile, intervals: &[u16]) -> bool {
    let Some([first, second, front @ ..]) = intervals.first_chunk::<MARK_CELLS>() else { return false };
    if classify(p, true, *first) != 3 {
        return false;
    }
    let is_second_c2 = |[a, b, behind @ ..]: &[u16; MARK_CELLS]| {
        classify(p, false, *a) == 4 && classify(p, false, *b) == 2 && is_3_4_3(p, true, *behind)
    };
    match classify(p, false, *second) {
        4 => is_3_4_3(p, false, *front),
        2 => is_3_4_3(p, true, *front) && intervals[MARK_CELLS..].first_chunk().is_some_and(is_second_c2),
        _ => false,
    }
}
