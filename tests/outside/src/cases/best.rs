//! The best windows: the formula, every small drive with all of its profiles, and what pairs are worth.

mod call;

use crate::compare::{profile, Compare};
use crate::paper::best::{best_windows, largest_margin, Five};
use crate::paper::{is_true, margin, rooms, Eleven, RANGES};
use crate::random::Random;
use call::library_best;

/// D and l of the five numbers.
fn shifts([_, _, early, normal, late]: Five) -> [i64; 2] {
    [early, normal].map(|point| 2 * (i64::from(late) - i64::from(point)))
}

/// Answers worked out by hand: the worked drive, and each cause of 2 with the last drive before it.
pub fn by_hand(compare: &mut Compare, _: &mut Random) {
    let mut is = |five: Five, margin: u64, six: [u16; 6]| {
        compare.best_windows(&five);
        let best = library_best(five);
        let eleven = [&five[..], &six].concat().try_into().expect("eleven numbers");
        let same = (best.number, best.margin, best.profile) == (0, margin, profile(&eleven));
        compare.claim(&format!("{five:?} gives {margin} with {six:?}"), same);
    };
    is([58, 29, 8, 10, 12], 12, [38, 75, 71, 108, 104, 137]);
    // without precompensation; an even T0, where the lower of two bounds is given
    is([58, 29, 0, 0, 0], 14, [44, 73, 73, 102, 102, 131]);
    is([58, 28, 0, 0, 0], 13, [45, 72, 72, 100, 100, 128]);
    // T1 holds the margin down, and Min is 1
    is([20, 29, 0, 2, 5], 9, [1, 37, 32, 71, 67, 98]);
    // only unequal pairs are true, the least T0 and the least T1; the largest numbers
    is([58, 8, 8, 10, 12], 1, [49, 64, 60, 76, 72, 84]);
    is([58, 5, 8, 10, 12], 0, [50, 63, 59, 72, 68, 77]);
    is([9, 29, 8, 10, 12], 0, [1, 26, 22, 59, 55, 76]);
    is([1023, 1023, 0, 15, 15], 511, [482, 1550, 1535, 2588, 2558, 3611]);
    is([1, 1, 7, 7, 7], 0, [1, 2, 2, 3, 3, 4]);
    let mut refuses = |five: Five, number: u32, place: u32| {
        compare.best_windows(&five);
        let best = library_best(five);
        compare.claim(&format!("{five:?} is refused"), (best.number, best.place) == (number, place));
    };
    for five in [[58, 4, 8, 10, 12], [8, 29, 8, 10, 12], [58, 29, 8, 12, 10], [58, 29, 10, 8, 12], [58, 29, 12, 10, 8]]
    {
        refuses(five, 2, 0);
    }
    refuses([58, 29, 8, 10, 16], 1, 5);
    refuses([0, 1024, 16, 16, 16], 1, 1);
}

/// Every drive with small numbers, the points in every order.
pub fn every_small_drive(compare: &mut Compare, _: &mut Random) {
    for t1 in 1..=11 {
        for t0 in 1..=9 {
            for points in 0..5u16.pow(3) {
                compare.best_windows(&[t1, t0, points / 25, points / 5 % 5, points % 5]);
            }
        }
    }
}

/// Every profile of some small drives, its margin found by trying: none has a larger one, one has as large a one, and
/// where none is true 2 is answered.
pub fn every_profile(compare: &mut Compare, _: &mut Random) {
    for t1 in 1..=5 {
        for t0 in 1..=4 {
            for points in 0..3u16.pow(3) {
                let five = [t1, t0, points / 9, points / 3 % 3, points % 3];
                let largest = profiles_of(five).iter().map(|eleven| margin(eleven).expect("a true profile")).max();
                let best = library_best(five);
                let told = (best.number == 0).then_some(best.margin);
                compare.claim(&format!("{five:?}: {largest:?} is the largest, told {told:?}"), told == largest);
                compare.best_windows(&five);
            }
        }
    }
}

/// All true profiles with these five numbers, Rpt up to a few half clocks from the end of where it can be.
fn profiles_of(five: Five) -> Vec<Eleven> {
    let most = five[0] + 2 * five[1] + 8;
    let mut found = vec![Vec::from(five)];
    for which in 5..11 {
        // a number on which some length is on the wrong side cannot be completed; the others do not matter to it
        let fits = |numbers: &[u16]| {
            let mut eleven: Eleven = [0; 11];
            eleven[..numbers.len()].copy_from_slice(numbers);
            let sides = [0..1, 1..3, 3..5, 5..7, 7..9, 9..10][which - 5].clone();
            rooms(&eleven)[sides].iter().all(|room| *room >= 0)
        };
        let longer =
            |numbers: &Vec<u16>| (1..=most).map(|n| [&numbers[..], &[n]].concat()).filter(|n| fits(n)).collect();
        found = found.iter().flat_map(|numbers| -> Vec<Vec<u16>> { longer(numbers) }).collect();
    }
    let eleven = |numbers: Vec<u16>| Eleven::try_from(numbers).expect("eleven numbers");
    found.into_iter().map(eleven).filter(is_true).collect()
}

/// Each of the five numbers at both ends of its range and beyond, alone and with later ones: the lowest is the place.
pub fn out_of_range(compare: &mut Compare, _: &mut Random) {
    for base in [[58, 29, 8, 10, 12], [58, 4, 8, 10, 12], [1, 1, 15, 0, 7], [1023, 1023, 0, 0, 15]] {
        for which in 0..5 {
            let (least, most) = RANGES[which];
            for number in [least.wrapping_sub(1), least, most, most + 1, 255, 256, 4096, 32_768, 65_535] {
                let [mut alone, mut with_later] = [base; 2];
                alone[which] = number;
                with_later[which..].fill(number);
                compare.best_windows(&alone);
                compare.best_windows(&with_later);
            }
        }
    }
}

/// Random drives. The formula, the margin of the profile, and that no random windows for the same drive have more.
pub fn random_drives(compare: &mut Compare, random: &mut Random) {
    for _ in 0..4_000 {
        for eleven in [random.true_profile(), random.crossed_profile(), random.unset_profile(), random.any_profile()] {
            let five: Five = eleven[..5].try_into().expect("five numbers");
            compare.best_windows(&five);
            let best = library_best(five);
            if best.number == 0 {
                let [d, l] = shifts(five);
                let formula = (i64::from(five[0]) - d - 1).min((i64::from(five[1]) - l - 1) / 2);
                compare.claim(&format!("{five:?} has {formula}"), best.margin as i64 == formula);
                let its_own = ism::margin(best.profile).map(u64::from);
                compare.claim(&format!("{five:?}: its profile has it"), its_own == Ok(best.margin));
            }
            if let Ok(has) = margin(&eleven) {
                compare.claim(&format!("{eleven:?} has no more"), best.number == 0 && has <= best.margin);
            }
        }
    }
}

/// What pairs are worth: the best margin with equal ones by a search of its own, by the formula, and beside the other.
pub fn pairs(compare: &mut Compare, random: &mut Random) {
    let worked = [58, 29, 8, 10, 12];
    compare.claim("10 with equal pairs", largest_margin(&worked, true) == Ok(10));
    let mut unequal_alone = 0;
    for _ in 0..4_000 {
        let eleven = if random.one_in(2) { random.true_profile() } else { random.equal_profile() };
        let mut five: Five = eleven[..5].try_into().expect("five numbers");
        let [d, l] = shifts(five);
        if random.one_in(2) && d > 0 {
            five[1] = random.between(l as u64, d as u64 + 2).max(1) as u16;
        }
        let [t1, t0] = [five[0], five[1]].map(i64::from);
        let with_pairs = best_windows(&five).map(|(margin, _)| margin);
        let equal = largest_margin(&five, true);
        let formula = (d < t0).then(|| (t1 - d - 1).min((t0 - d - 1) / 2) as u64);
        compare.claim(&format!("{five:?}: {equal:?} with equal pairs"), equal.ok() == formula);
        compare.claim("unequal pairs are true where l < T0", with_pairs.is_ok() == (l < t0));
        unequal_alone += u32::from(with_pairs.is_ok() && equal.is_err());
        if let (Ok(more), Ok(less)) = (with_pairs, equal) {
            let worth = ((t0 - d - 1) / 2 + i64::from(five[3] - five[2])).min(t1 - d - 1);
            compare.claim(&format!("{five:?}: {less} and {more}"), more as i64 == worth && less <= more);
        }
    }
    compare.claim("some drives have unequal pairs alone", unequal_alone > 100);
}
