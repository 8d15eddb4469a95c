//! Finder.

use ism::sys::{Answer, Profile};

use crate::plain::kinds::{has_classes, has_pairs, Class2};
use crate::plain::{check_profile, counted, either, refused};

const SYNC: usize = 64;
const LOCKS: [&[u8]; 2] = [&[3, 4, 3, 4, 3], &[3, 2, 3, 4, 3, 4, 2, 3, 4, 3]];

fn has_mark(p: &Profile, intervals: &[u16]) -> bool {
    LOCKS.into_iter().any(|classes| has_classes(p, intervals, classes))
}

/// The first lock from `start` on, under a true profile.
pub fn find_lock(p: &Profile, intervals: &[u16], start: u64) -> Option<usize> {
    let start = usize::try_from(start).ok()?;
    if has_pairs(p) {
        find_run::<true>(p, intervals, start)
    } else {
        find_run::<false>(p, intervals, start)
    }
}

/// `first` is where a run of class 2 begins. As far as it may be full, another interval only moves that place. What
/// stands behind a run stands behind class 2.
fn find_run<const PAIRS: bool>(p: &Profile, intervals: &[u16], start: usize) -> Option<usize> {
    let behind = [Class2::behind(p, false), Class2::behind(p, true)];
    let (mut first, mut k, mut two) = (start, start, true);
    loop {
        let full = first.checked_add(SYNC)?;
        for interval in intervals.get(k..full)? {
            k += 1;
            two = behind[if PAIRS { usize::from(two) } else { 1 }].has(*interval);
            first = if two { first } else { k };
        }
        if k == first + SYNC {
            k += intervals[k..].iter().take_while(|interval| behind[1].has(**interval)).count();
            if has_mark(p, &intervals[k..]) {
                return Some(k);
            }
            first = k;
        }
    }
}

#[inline(never)]
pub fn careful_rust_find(profile: Profile, intervals: &[u16], start: u64) -> Answer {
    either(check_profile(&profile).map(|()| {
        let lock = find_lock(&profile, intervals, start);
        lock.map_or(refused(10, 0), |place| counted(place as u64))
    }))
}
