//! Profile, class and margin, with the windows of request (ix): after an interval of class 2, and after any other.

use super::{cell_shapes, refuse, Refused};

/// The eleven numbers of a profile in document 02's order: T1, T0, Early, Normal, Late, Min, B23 after class 2, B23
/// after any other, B34 after class 2, B34 after any other, Rpt.
pub type Eleven = [u16; 11];

/// The least and the most that each may be.
pub const RANGES: [(u16, u16); 11] =
    [(1, 1023), (1, 1023), (0, 15), (0, 15), (0, 15), (1, 4095), (1, 4095), (1, 4095), (1, 4095), (1, 4095), (1, 4095)];

/// Refusals 1 and 2.
pub fn check_profile(eleven: &Eleven) -> Result<(), Refused> {
    for (which, (number, (least, most))) in eleven.iter().zip(RANGES).enumerate() {
        if *number < least || *number > most {
            return refuse(1, which + 1);
        }
    }
    if is_true(eleven) {
        Ok(())
    } else {
        refuse(2, 0)
    }
}

/// Whether the points are in order and each length that can be written after each kind of cell is in its window.
pub fn is_true(eleven: &Eleven) -> bool {
    let [early, normal, late] = [eleven[2], eleven[3], eleven[4]];
    let in_window = |shape: &super::CellShape| {
        class_letter(eleven, shape.after_short, shape.length(eleven)) == ['2', '3', '4'][shape.zeros]
    };
    early <= normal && normal <= late && cell_shapes().iter().all(in_window)
}

/// The room at each side of an edge, below zero where a length is on the wrong side: Min; B23 after class 2, from the
/// lengths below it and from those above, and after any other; B34 so too; Rpt. A second opinion on `is_true` and
/// `margin`, from the lengths next to each edge.
pub fn rooms(eleven: &Eleven) -> [i64; 10] {
    let [t1, t0, early, normal, late, min, b23_short, b23_long, b34_short, b34_long, rpt] = eleven.map(i64::from);
    let (e, l) = (2 * (normal - early), 2 * (late - normal));
    let d = e + l;
    [
        t1 - d - min,
        b23_short - 1 - t1,
        t1 + t0 + e - b23_short,
        b23_long - 1 - (t1 - l),
        t1 + t0 - b23_long,
        b34_short - 1 - (t1 + t0 + d),
        t1 + 2 * t0 + e - b34_short,
        b34_long - 1 - (t1 + t0 + l),
        t1 + 2 * t0 - b34_long,
        rpt - 1 - (t1 + 2 * t0 + d),
    ]
}

/// The class of an interval as a letter: `n` narrow, `2`, `3`, `4`, `w` wide. `after_short` tells whether the interval
/// before it is of class 2.
pub fn class_letter(eleven: &Eleven, after_short: bool, interval: i64) -> char {
    let [min, b23_short, b23_long, b34_short, b34_long, rpt] = eleven[5..].try_into().expect("six edges");
    let (b23, b34) = if after_short { (b23_short, b34_short) } else { (b23_long, b34_long) };
    let edges: [(u16, char); 4] = [(min, 'n'), (b23, '2'), (b34, '3'), (rpt, '4')];
    let below = edges.iter().find(|(edge, _)| interval < i64::from(*edge));
    below.map_or('w', |(_, letter)| *letter)
}

/// Whether what comes behind intervals of these classes comes after class 2; the first of all does.
pub fn ends_short(letters: &str) -> bool {
    letters.is_empty() || letters.ends_with('2')
}

/// The classes of a list of intervals, a letter each; corrected numbers (request (xi)) are of any size.
pub fn classes<N: Copy + Into<i64>>(eleven: &Eleven, intervals: &[N]) -> String {
    let mut letters = String::new();
    for interval in intervals {
        letters.push(class_letter(eleven, ends_short(&letters), (*interval).into()));
    }
    letters
}

/// How far an interval is inside its window: the most half clocks by which it could move either way and keep its class;
/// 0 for narrow and wide.
pub fn clearance(eleven: &Eleven, after_short: bool, interval: u16) -> u32 {
    (1..).take_while(|by| keeps(eleven, after_short, interval.into(), *by)).count() as u32
}

/// The least of these over a list of intervals: ever longer moves are tried on all of them.
pub fn least_clearance<N: Copy + Into<i64>>(eleven: &Eleven, intervals: &[N]) -> u32 {
    let letters = classes(eleven, intervals);
    let kept = |by: i64| {
        let one = |(place, interval): (usize, &N)| keeps(eleven, ends_short(&letters[..place]), (*interval).into(), by);
        intervals.iter().enumerate().all(one)
    };
    (1..).take_while(|by| kept(*by)).count() as u32
}

/// Whether an interval is of class 2, 3 or 4 and of the same class when moved either way.
fn keeps(eleven: &Eleven, after_short: bool, d: i64, by: i64) -> bool {
    let [class, lower, upper] = [d, d - by, d + by].map(|e| class_letter(eleven, after_short, e));
    !"nw".contains(class) && lower == class && upper == class
}

/// The class operation; the number given is 1 narrow, 2, 3, 4, 5 wide.
pub fn class(eleven: &Eleven, after_short: bool, interval: u16) -> Result<u64, Refused> {
    check_profile(eleven)?;
    let letter = class_letter(eleven, after_short, i64::from(interval));
    Ok(1 + "n234w".find(letter).expect("a class letter") as u64)
}

/// The margin by trying 0, 1, 2, ... on every length that a cell can have after either kind of cell.
pub fn margin(eleven: &Eleven) -> Result<u64, Refused> {
    check_profile(eleven)?;
    let lengths: Vec<(bool, i64)> = cell_shapes().iter().map(|s| (s.after_short, s.length(eleven))).collect();
    let keeps = |m: i64| {
        let class = |after_short: bool, d: i64| class_letter(eleven, after_short, d);
        let kept = |(two, d): &(bool, i64)| [d - m, d + m].map(|e| class(*two, e)) == [class(*two, *d); 2];
        lengths.iter().all(kept)
    };
    let refused_at = (0..).find(|m| !keeps(*m)).expect("every window ends somewhere");
    Ok(refused_at as u64 - 1)
}
