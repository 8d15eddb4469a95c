//! Compensation stretches no track, request (viii): where T1 is twice T0, the intervals of a list of n written bytes
//! add up to (16n + 4) T0 and twice the last compare point less the first.

use super::WORKED;
use crate::compare::{profile, Compare};
use crate::paper::{shapes_of, single_bytes, symbols_of, written_bytes, written_count};
use crate::paper::{Eleven, CHECK_ORDER, MOST_BYTES, MOST_INTERVALS};
use crate::random::Random;

/// The sum of the intervals that the library writes for a list.
fn library_sum(eleven: &Eleven, items: &[u16]) -> i64 {
    let mut stream = vec![0; (8 * written_count(items) + 2).min(MOST_INTERVALS)];
    let count = ism::write(profile(eleven), items, &mut stream).expect("a list within the limit");
    stream[..count].iter().map(|d| i64::from(*d)).sum()
}

/// The first and the last compare point of a list in clocks, from its symbols.
fn end_points(eleven: &Eleven, items: &[u16]) -> [i64; 2] {
    let cells = shapes_of(&symbols_of(&written_bytes(items)));
    let clocks = |point| i64::from(eleven[2 + point as usize]);
    [clocks(cells[0].start), clocks(cells[cells.len() - 1].end)]
}

/// The same from the bits: the first point is Early if the first bit is 1, the last is Late if the last bit is 1.
fn end_points_from_bits(eleven: &Eleven, items: &[u16]) -> [i64; 2] {
    let [early, normal, late] = [eleven[2], eleven[3], eleven[4]].map(i64::from);
    let written = written_bytes(items);
    let first = written.first().is_some_and(|w| w.byte >= 128);
    let last = written.last().is_some_and(|w| w.byte % 2 == 1);
    [if first { early } else { normal }, if last { late } else { normal }]
}

/// The law on one list; gives its sum.
fn adds_up(compare: &mut Compare, eleven: &Eleven, items: &[u16]) -> i64 {
    let [first, last] = end_points(eleven, items);
    compare.claim("end points from symbols and bits", [first, last] == end_points_from_bits(eleven, items));
    let n = written_count(items) as i64;
    let sum = library_sum(eleven, items);
    let law = (16 * n + 4) * i64::from(eleven[1]) + 2 * (last - first);
    compare.claim(&format!("{eleven:?}: {items:03X?} adds up to {sum}, by the law {law}"), sum == law);
    sum
}

/// The law on two lists of equally many written bytes.
fn nearly_equal(compare: &mut Compare, eleven: &Eleven, lists: [&[u16]; 2]) {
    let [a, b] = lists.map(|items| adds_up(compare, eleven, items));
    let most = 2 * i64::from(eleven[4] - eleven[2]);
    compare.claim(&format!("{eleven:?}: {a} and {b} differ by at most {most}"), (a - b).abs() <= most);
}

/// The empty list, every single item, and pairs of them under the worked profile, whose T1 is twice its T0.
pub fn every_short_list(compare: &mut Compare, random: &mut Random) {
    let items = [single_bytes(), vec![CHECK_ORDER]].concat();
    for eleven in [WORKED, random.even_profile(), random.even_profile()] {
        let none = adds_up(compare, &eleven, &[]);
        compare.claim("the empty list is four units long", none == 4 * i64::from(eleven[1]));
        for first in &items {
            adds_up(compare, &eleven, &[*first]);
        }
    }
    for first in &items {
        for second in items.iter().step_by(7).chain([&0x1A1, &0x1C2, &CHECK_ORDER]) {
            adds_up(compare, &WORKED, &[*first, *second]);
        }
    }
}

/// Random lists by pairs of equally many written bytes.
pub fn random_lists(compare: &mut Compare, random: &mut Random) {
    for _ in 0..4_000 {
        let eleven = random.even_profile();
        let length = random.length(100);
        let first = random.items(length);
        let mut second = random.items(length);
        // a check order is two bytes
        let [a, b] = [&first, &second].map(|items| written_count(items));
        second.extend(vec![random.pick(&[0xFF, 0x01, 0x00]); a.saturating_sub(b)]);
        while written_count(&second) > a {
            let place = second.iter().position(|item| *item == CHECK_ORDER).expect("what counts two");
            second[place] = 0x1A1;
        }
        nearly_equal(compare, &eleven, [&first, &second]);
    }
}

/// Lists of 6,400 written bytes.
pub fn longest(compare: &mut Compare, random: &mut Random) {
    let orders = vec![CHECK_ORDER; MOST_BYTES / 2];
    let some: Vec<u16> = random.bytes(MOST_BYTES).into_iter().map(u16::from).collect();
    for eleven in [WORKED, random.even_profile(), random.even_profile()] {
        for items in [&orders, &some, &vec![0xFF; MOST_BYTES], &vec![0x1A1; MOST_BYTES], &vec![0x1C2; MOST_BYTES]] {
            nearly_equal(compare, &eleven, [items, &vec![0; MOST_BYTES]]);
        }
    }
}
