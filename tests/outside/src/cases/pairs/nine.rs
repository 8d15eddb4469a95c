//! Document 01's rules for a profile of nine numbers, one B23 and one B34. Profiles with equal pairs still follow them.

use crate::paper::{Eleven, Refused};

/// T1, T0, Early, Normal, Late, Min, B23, B34, Rpt.
pub type Nine = [u16; 9];

/// B23 and B34 written twice each.
pub fn doubled(nine: &Nine) -> Eleven {
    let [t1, t0, early, normal, late, min, b23, b34, rpt] = *nine;
    [t1, t0, early, normal, late, min, b23, b23, b34, b34, rpt]
}

/// The margin, or refusal 1 or 2. The place of 1 is counted among the eleven numbers: B34 is 9 for 8, Rpt 11 for 9.
pub fn margin(nine: &Nine) -> Result<u64, Refused> {
    let most = [1023, 1023, 15, 15, 15, 4095, 4095, 4095, 4095];
    let in_range = |which: &usize| (u16::from(!(2..5).contains(which))..=most[*which]).contains(&nine[*which]);
    if let Some(which) = (0..9).find(|which| !in_range(which)) {
        return Err(Refused { number: 1, place: [1, 2, 3, 4, 5, 6, 7, 9, 11][which] });
    }
    let [_, _, early, normal, late, ..] = *nine;
    let least = rooms(nine).into_iter().min().expect("six rooms");
    match u64::try_from(least) {
        Ok(margin) if early <= normal && normal <= late => Ok(margin),
        _ => Err(Refused { number: 2, place: 0 }),
    }
}

/// Min <= T1 - D, T1 < B23 <= T1 + T0, T1 + T0 + D < B34 <= T1 + 2 T0, T1 + 2 T0 + D < Rpt: how far inside each.
fn rooms(nine: &Nine) -> [i64; 6] {
    let [t1, t0, early, _, late, min, b23, b34, rpt] = nine.map(i64::from);
    let d = 2 * (late - early);
    [t1 - d - min, b23 - t1 - 1, t1 + t0 - b23, b34 - (t1 + t0 + d) - 1, t1 + 2 * t0 - b34, rpt - (t1 + 2 * t0 + d) - 1]
}

/// The class: 1 narrow, 2, 3, 4, 5 wide.
pub fn class(nine: &Nine, interval: u16) -> u64 {
    match interval {
        d if d < nine[5] => 1,
        d if d < nine[6] => 2,
        d if d < nine[7] => 3,
        d if d < nine[8] => 4,
        _ => 5,
    }
}
