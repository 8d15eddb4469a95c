//! Profiles, the margin operation and the class operation.

use super::{APART, HALFWAY, OVERLAP, PAIRED, REVERSED, WORKED};
use crate::compare::Compare;
use crate::paper::{cell_shapes, check_profile, is_true, margin, rooms, shapes_in, single_bytes, Eleven};
use crate::random::Random;

/// Each number of a profile at, below and above both ends of its range, alone and with a second one out of range.
pub fn ranges(compare: &mut Compare, random: &mut Random) {
    let numbers = [0, 1, 2, 15, 16, 17, 1022, 1023, 1024, 4094, 4095, 4096, 32768, 65535];
    for base in [WORKED, random.true_profile(), random.crossed_profile()] {
        for (first, a) in pairs(&numbers) {
            for (second, b) in pairs(&numbers) {
                let mut eleven = base;
                eleven[first] = a;
                eleven[second] = b;
                compare.margin(&eleven);
            }
        }
    }
}

fn pairs(numbers: &[u16]) -> Vec<(usize, u16)> {
    (0..11).flat_map(|which| numbers.iter().map(move |number| (which, *number))).collect()
}

/// Random profiles: true, crossed by a little, out of range, without a plan.
pub fn random_profiles(compare: &mut Compare, random: &mut Random) {
    for _ in 0..4_000 {
        let true_one = random.true_profile();
        compare.margin(&true_one);
        let by_trying = margin(&true_one).expect("a true profile") as i64;
        let by_rooms = rooms(&true_one).into_iter().min();
        compare.claim("margin by lengths and by rooms", Some(by_trying) == by_rooms);
        for eleven in [random.crossed_profile(), random.unset_profile(), random.any_profile()] {
            compare.margin(&eleven);
            compare.class(&eleven, random.next() as u16);
            let in_order = eleven[2] <= eleven[3] && eleven[3] <= eleven[4];
            let by_rooms = in_order && rooms(&eleven).iter().all(|room| *room >= 0);
            compare.claim("true by lengths and by rooms", is_true(&eleven) == by_rooms);
        }
    }
}

/// Every list of one byte shows the same cells as every list of two.
pub fn cells_written(compare: &mut Compare, _: &mut Random) {
    let bytes = single_bytes();
    let pairs = bytes.iter().flat_map(|a| bytes.iter().map(move |b| vec![*a, *b]));
    compare.claim("cells of two bytes", shapes_in(pairs) == cell_shapes());
}

/// Every interval under the worked profile; those up to 255 under profiles with unequal pairs; those about the edges
/// under random profiles, where any number tells that the interval before was of class 2.
pub fn classes(compare: &mut Compare, random: &mut Random) {
    for interval in 0..=65535 {
        compare.class(&WORKED, interval);
    }
    for eleven in [PAIRED, HALFWAY, REVERSED, APART, OVERLAP] {
        (0..256).for_each(|interval| compare.class(&eleven, interval));
    }
    for _ in 0..1_000 {
        let eleven = random.true_profile();
        for interval in about_edges(&eleven) {
            compare.class_after(&eleven, interval, 0);
            compare.class_after(&eleven, interval, random.pick(&[1, 2, 255, 1 << 8, 1 << 16, 1 << 31, u32::MAX]));
        }
    }
}

fn about_edges(eleven: &Eleven) -> Vec<u16> {
    assert!(check_profile(eleven).is_ok());
    let around = eleven[5..].iter().flat_map(|edge| [edge - 1, *edge, edge + 1]);
    around.chain([0, 65535]).collect()
}
