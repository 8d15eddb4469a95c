//! The drive report: one list, two reports added, and an afternoon of lists joined.

mod call;

use super::faults::{building_profile, profile_with, Faults};
use super::{APART, HALFWAY, WORKED};
use crate::compare::Compare;
use crate::paper::report::{rows_of, Row, Rows};
use crate::paper::{classes, ends_short, stream_of, Eleven, MOST_INTERVALS};
use crate::random::Random;
use call::{ism_drive_report, library_report, library_sum, Report};

const CLASSES: [char; 5] = ['n', '2', '3', '4', 'w'];
const ZEROS: Row = [0; 4];

/// Small lists with their figures counted by hand.
pub fn by_hand(compare: &mut Compare, _: &mut Random) {
    let edges = [35, 36, 72, 73, 105, 106, 138, 139, 65535, 0];
    let figures = [[2, 0, 35, 35], [2, 36, 72, 108], [2, 73, 105, 178], [2, 106, 138, 244], [2, 139, 65535, 65674]];
    let lists: [(&[u16], Rows); 4] = [
        (&edges, figures),
        (&[], [ZEROS; 5]),
        (&[0, 0], [[2, 0, 0, 0], ZEROS, ZEROS, ZEROS, ZEROS]),
        (&[91, 116, 87, 116, 87, 91], [ZEROS, ZEROS, [4, 87, 91, 356], [2, 116, 116, 232], ZEROS]),
    ];
    for (intervals, rows) in lists {
        has_rows(compare, &WORKED, intervals, rows);
    }
    // 80 is class 2 at the beginning and after class 2, and class 3 after narrow, 3, 4 and wide
    let rows = |two: Row, three: Row| [ZEROS, two, three, ZEROS, ZEROS];
    has_rows(compare, &APART, &[80, 80, 80], rows([3, 80, 80, 240], ZEROS));
    has_rows(compare, &APART, &[95, 80, 80], rows(ZEROS, [3, 80, 95, 255]));
    has_rows(compare, &APART, &[95, 72, 80], rows([2, 72, 80, 152], [1, 95, 95, 95]));
    has_rows(compare, &APART, &[30, 80], [[1, 30, 30, 30], ZEROS, [1, 80, 80, 80], ZEROS, ZEROS]);
    has_rows(compare, &APART, &[200, 80], [ZEROS, ZEROS, [1, 80, 80, 80], ZEROS, [1, 200, 200, 200]]);
    has_rows(compare, &APART, &[120, 80], [ZEROS, ZEROS, [1, 80, 80, 80], [1, 120, 120, 120], ZEROS]);
    // SAFETY: the length of the null pointer is 0
    let answer = unsafe { ism_drive_report(crate::compare::profile(&WORKED), std::ptr::null(), 0) };
    compare.claim("a null pointer of length 0 is an empty list", answer == Report::under(0, 0, &[ZEROS; 5]));
}

fn has_rows(compare: &mut Compare, eleven: &Eleven, intervals: &[u16], rows: Rows) {
    compare.drive_report(eleven, intervals);
    let answer = library_report(eleven, intervals);
    compare.claim(&format!("{intervals:?} has the rows {rows:?}"), answer == Report::under(0, 0, &rows));
}

/// Lists about 51,202 intervals, of one length each and of any lengths.
pub fn limits(compare: &mut Compare, random: &mut Random) {
    for count in [MOST_INTERVALS - 1, MOST_INTERVALS, MOST_INTERVALS + 1, 65_536, 65_538, 131_072] {
        for interval in [0, 35, 36, 73, 106, 139, 65535] {
            compare.drive_report(&WORKED, &vec![interval; count]);
        }
        let any: Vec<u16> = (0..count).map(|_| random.between(0, 200) as u16).collect();
        compare.drive_report(&HALFWAY, &any);
    }
}

/// Every combination of the faults 1, 2 and 4.
pub fn faults(compare: &mut Compare, random: &mut Random) {
    const OVERLONG: u32 = 2;
    for faults in (0..1 << 3).map(Faults) {
        for _ in 0..20 {
            let eleven = profile_with(faults, random);
            let building = building_profile(&eleven, random);
            let mut intervals = random.intervals(&building, "n234w");
            if faults.has(OVERLONG) {
                intervals.resize(MOST_INTERVALS + 1 + random.index(3), building[0]);
            }
            compare.drive_report(&eleven, &intervals);
        }
    }
}

/// Random lists of every choice of classes, so that every row is empty beside every other; streams of written lists.
pub fn random_lists(compare: &mut Compare, random: &mut Random) {
    for round in 0..8_000 {
        let eleven = random.true_profile();
        let length = random.length(400);
        let intervals = random_list(&eleven, round % 32, length, random);
        compare.drive_report(&eleven, &intervals);
        let length = random.length(40);
        let items = random.items(length);
        compare.drive_report(&eleven, &stream_of(&eleven, &items));
    }
}

/// Intervals of the classes whose bits are set; none if no bit is.
fn random_list(eleven: &Eleven, choice: usize, length: usize, random: &mut Random) -> Vec<u16> {
    let chosen: Vec<char> = (0..5).filter(|bit| choice & (1 << bit) != 0).map(|bit| CLASSES[bit]).collect();
    let length = if chosen.is_empty() { 0 } else { length };
    let letters: String = (0..length).map(|_| random.pick(&chosen)).collect();
    random.intervals(eleven, &letters)
}

/// The reports of two lists, added, are the report of the lists joined where the first is empty or ends in class 2, or
/// where the pairs are equal. Elsewhere they need not be.
pub fn joined(compare: &mut Compare, random: &mut Random) {
    let apart = [&[120][..], &[90]].map(|list| library_report(&APART, list));
    let whole = library_report(&APART, &[120, 90]);
    compare.claim("a list that ends in class 4 before another", library_sum(apart[0], apart[1]) != whole);
    let [mut alike, mut unlike] = [0, 0];
    for round in 0..6_000 {
        let eleven = random.true_profile();
        let lengths = [random.length(200), random.length(200)];
        let first = random_list(&eleven, round % 32, lengths[0], random);
        let second = random_list(&eleven, round / 32 % 32, lengths[1], random);
        let [a, b] = [&first, &second].map(|list| library_report(&eleven, list));
        compare.add_reports(a, b);
        let same = library_sum(a, b) == library_report(&eleven, &[&first[..], &second].concat());
        let equal_pairs = eleven[6] == eleven[7] && eleven[8] == eleven[9];
        if equal_pairs || ends_short(&classes(&eleven, &first)) {
            compare.claim("reports added and lists joined", same);
            alike += 1;
        } else {
            compare.drive_report(&eleven, &[first, second].concat());
            unlike += u32::from(!same);
        }
    }
    compare.claim(&format!("the rule holds {alike} times, and {unlike} times it would not"), alike.min(unlike) > 100);
}

/// An afternoon: lists that are longer together than any list may be, in every order of adding.
pub fn afternoon(compare: &mut Compare, random: &mut Random) {
    for eleven in [WORKED, HALFWAY] {
        let mut lists: Vec<Vec<u16>> = (0..4).map(|_| random_list(&eleven, 31, MOST_INTERVALS, random)).collect();
        // class 2 after either kind
        lists.iter_mut().for_each(|list| *list.last_mut().expect("a long list") = eleven[5]);
        added_in_every_order(compare, &eleven, &lists);
    }
}

fn added_in_every_order(compare: &mut Compare, eleven: &Eleven, lists: &[Vec<u16>]) {
    let reports: Vec<Report> = lists.iter().map(|list| library_report(eleven, list)).collect();
    let whole = Report::under(0, 0, &rows_of(eleven, &lists.concat()));
    let in_turn = reports.iter().copied().reduce(library_sum);
    compare.claim("four lists added in turn", in_turn == Some(whole));
    let in_turn = reports.iter().rev().copied().reduce(library_sum);
    compare.claim("four lists added backwards", in_turn == Some(whole));
    let pairs = [[0, 1], [2, 3]].map(|[a, b]| library_sum(reports[a], reports[b]));
    compare.claim("four lists added by pairs", library_sum(pairs[0], pairs[1]) == whole);
}

/// Counts and sums that meet 2^64 exactly, one below and one above, in each row, alone and two rows at once.
pub fn overflow(compare: &mut Compare, random: &mut Random) {
    let ends = [(u64::MAX, 1), (u64::MAX, 2), (u64::MAX - 1, 1), (1 << 63, 1 << 63), ((1 << 63) - 1, 1 << 63)];
    for place in 0..5 {
        for which in [0, 3] {
            for (x, y) in ends.into_iter().chain([(u64::MAX, u64::MAX)]) {
                let mut rows = [[[1, 50, 60, 55]; 5]; 2];
                rows[0][place][which] = x;
                rows[1][place][which] = y;
                added_both_ways(compare, &rows, random);
                rows[0][random.index(5)] = [u64::MAX, 0, 9, 1];
                added_both_ways(compare, &rows, random);
            }
        }
    }
}

/// The two reports added in either order, under numbers and places that must not matter.
fn added_both_ways(compare: &mut Compare, rows: &[Rows; 2], random: &mut Random) {
    let mut number = || random.pick(&[0, 0, 1, 4, 99, u32::MAX]);
    let [a, b] = [0, 1].map(|which| Report::under(number(), number(), &rows[which]));
    compare.add_reports(a, b);
    compare.add_reports(b, a);
}

/// Rows of count 0 that hold other numbers are passed over: beside a row that counts, and beside their like.
pub fn passed_over(compare: &mut Compare, random: &mut Random) {
    let held = [0, 1, 17, 1 << 63, u64::MAX];
    for place in 0..5 {
        for least in held {
            for sum in held {
                let idle = [0, least, random.pick(&held), sum];
                for other in [ZEROS, [0, 9, 8, 7], [3, 40, 60, u64::MAX], [u64::MAX, 9, 2, 1], [1, 0, 0, 0]] {
                    let mut rows = [[[2, 10, 20, 30]; 5]; 2];
                    rows[0][place] = idle;
                    rows[1][place] = other;
                    added_both_ways(compare, &rows, random);
                }
            }
        }
    }
}

/// Rows without a plan: counts of 0 often, least above greatest, numbers about 0 and 2^64.
pub fn random_rows(compare: &mut Compare, random: &mut Random) {
    for _ in 0..20_000 {
        let small = random.one_in(2);
        let mut number = || match (random.between(0, 3), small) {
            (0, _) => 0,
            (1, false) => random.between_with_edges(0, u64::MAX),
            (2, false) => random.pick(&[1 << 32, 1 << 63, u64::MAX / 2, u64::MAX]),
            _ => random.between(0, 1000),
        };
        let rows: [Rows; 2] = [(); 2].map(|_| [(); 5].map(|_| [(); 4].map(|_| number())));
        added_both_ways(compare, &rows, random);
    }
}
