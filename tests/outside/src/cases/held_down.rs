//! What holds the margin down, request (xii): which sides are named, and that their evidence is one.

mod call;

use super::{APART, HALFWAY, OVERLAP, PAIRED, REVERSED, WORKED};
use crate::compare::{profile, Compare};
use crate::paper::held::sides;
use crate::paper::{shapes_of, stream_of, symbols_of, written_bytes, Eleven};
use crate::random::{last_on_side, Random, EDGE_SIDES};
use call::{library_limits, LimitNumbers};

const DRAWING: &str = include_str!("../../../../docs/windows.svg");
const DRAWN: &str = include_str!("../../../../examples/windows.strip");

/// The numbers edge, after and above of the ten sides, in document 02's order.
const MIN: [u16; 3] = [1, 0, 1];
const B23: [[u16; 3]; 4] = [[2, 1, 0], [2, 1, 1], [2, 2, 0], [2, 2, 1]];
const B34: [[u16; 3]; 4] = [[3, 1, 0], [3, 1, 1], [3, 2, 0], [3, 2, 1]];
const RPT: [u16; 3] = [4, 0, 0];

/// A side, the item that shows it, the interval in its stream, and that interval's length when moved.
fn limit([edge, after, above]: [u16; 3], item: u16, interval: u16, moved: u16) -> LimitNumbers {
    LimitNumbers { edge, after, above, item, interval, moved }
}

/// Answers worked out by hand. The cells in units: 00 has ten of 2; 01 seven of 2, then 3 3; 02 six of 2, 3 3 2; 03 six
/// of 2, 3 2 3; 05 five of 2, 3 4 3; 09 four of 2, 3 3 3 3; 0D four of 2, 3 2 4 3; 1B three of 2, 3 2 4 2 3.
pub fn by_hand(compare: &mut Compare, _: &mut Random) {
    let mut is = |eleven: &Eleven, expected: &[LimitNumbers]| {
        compare.margin_limits(eleven);
        let named = library_limits(eleven);
        compare.claim(&format!("{eleven:?} is held down by {expected:?}"), named.named() == expected);
    };
    is(&WORKED, &[limit(B34[0], 0x03, 6, 106), limit(B34[3], 0x05, 6, 105)]);
    let both_sides = [limit(B34[0], 0x03, 6, 108), limit(B34[1], 0x0D, 6, 107)];
    is(&PAIRED, &[&both_sides[..], &[limit(B34[2], 0x01, 8, 104), limit(B34[3], 0x05, 6, 103)]].concat());

    // the worked drive with one edge as near as it can be: each side alone, with the lengths that the points give
    let with = |which: usize, number: u16| {
        let mut eleven = WORKED;
        eleven[which] = number;
        eleven
    };
    is(&with(5, 50), &[limit(MIN, 0x03, 7, 49)]);
    is(&with(6, 59), &[limit(B23[0], 0x00, 0, 59)]);
    is(&with(6, 91), &[limit(B23[1], 0x01, 7, 90)]);
    is(&with(7, 55), &[limit(B23[2], 0x02, 8, 55)]);
    is(&with(7, 87), &[limit(B23[3], 0x09, 5, 86)]);
    is(&with(8, 96), &[limit(B34[0], 0x03, 6, 96)]);
    is(&with(8, 120), &[limit(B34[1], 0x0D, 6, 119)]);
    is(&with(9, 92), &[limit(B34[2], 0x01, 8, 92)]);
    is(&with(9, 116), &[limit(B34[3], 0x05, 6, 115)]);
    is(&with(10, 125), &[limit(RPT, 0x1B, 5, 125)]);

    // without precompensation every cell of so many units is as long, and lower lists show most sides: all ten tie
    let level = [58, 29, 0, 0, 0, 44, 73, 73, 102, 102, 131];
    let b23 = [limit(B23[0], 0, 0, 73), limit(B23[1], 1, 7, 72), limit(B23[2], 2, 8, 73), limit(B23[3], 1, 8, 72)];
    let b34 =
        [limit(B34[0], 1, 7, 102), limit(B34[1], 0x0D, 6, 101), limit(B34[2], 1, 8, 102), limit(B34[3], 5, 6, 101)];
    is(&level, &[&[limit(MIN, 0, 0, 43)], &b23[..], &b34, &[limit(RPT, 5, 6, 131)]].concat());
}

/// Each of the ten sides with a room that is the margin's, one less or one more; so sides tie, or nearly.
pub fn every_side(compare: &mut Compare, random: &mut Random) {
    let fixed = [WORKED, PAIRED, HALFWAY, REVERSED, APART, OVERLAP];
    let profiles: Vec<Eleven> = fixed.into_iter().chain((0..200).map(|_| random.true_profile())).collect();
    for base in profiles {
        let margin = ism::margin(profile(&base)).expect("a true profile") as i64;
        for (side, (which, from_above)) in EDGE_SIDES.into_iter().enumerate() {
            let (_, last) = last_on_side(&base, side);
            for room in [margin - 1, margin, margin + 1] {
                let number = if from_above { last - room } else { last + room };
                if (1..=4095).contains(&number) {
                    let mut eleven = base;
                    eleven[which] = number as u16;
                    compare.margin_limits(&eleven);
                }
            }
        }
    }
}

/// Every order and tie of the three points, with each B23 and B34 at both ends and in the middle of where it can be, and
/// Min and Rpt up to two half clocks from the end of theirs.
pub fn every_tie(compare: &mut Compare, _: &mut Random) {
    let points = (0..3u16)
        .flat_map(|early| (early..3).flat_map(move |normal| (normal..3).map(move |late| [early, normal, late])));
    for [early, normal, late] in points {
        for (t1, t0) in [(9, 9), (12, 10)] {
            let (e, l) = (2 * (normal - early), 2 * (late - normal));
            let (d, three, four) = (e + l, t1 + t0, t1 + 2 * t0);
            for choice in 0..3u16.pow(6) {
                let step = |digit: u32| choice / 3u16.pow(digit) % 3;
                let near = |digit: u32, least: u16, most: u16| [least, (least + most) / 2, most][step(digit) as usize];
                let eleven = [
                    t1,
                    t0,
                    early,
                    normal,
                    late,
                    t1 - d - step(0).min(t1 - d - 1),
                    near(1, t1 + 1, three + e),
                    near(2, t1 - l + 1, three),
                    near(3, three + d + 1, four + e),
                    near(4, three + l + 1, four),
                    four + d + 1 + step(5),
                ];
                compare.margin_limits(&eleven);
            }
        }
    }
}

/// Random profiles: true, crossed by a little, out of range, without a plan.
pub fn random_profiles(compare: &mut Compare, random: &mut Random) {
    for _ in 0..4_000 {
        compare.margin_limits(&random.true_profile());
        compare.margin_limits(&random.equal_profile());
        for eleven in [random.crossed_profile(), random.unset_profile(), random.any_profile()] {
            compare.margin_limits(&eleven);
        }
    }
}

/// What a limit shows: its item's stream with that one interval moved by exactly margin + 1 is refused or read as
/// another list; and there is always a limit.
pub fn evidence(compare: &mut Compare, random: &mut Random) {
    for _ in 0..2_000 {
        let eleven = random.true_profile();
        let margin = ism::margin(profile(&eleven)).expect("a true profile");
        let answer = library_limits(&eleven);
        compare.claim("some side holds the margin down", answer.count > 0);
        for l in answer.named() {
            let mut stream = stream_of(&eleven, &[l.item]);
            let written = std::mem::replace(&mut stream[usize::from(l.interval)], l.moved);
            let by = i64::from(l.moved) - i64::from(written);
            let towards = if l.above == 1 { -1 } else { 1 };
            compare.claim("moved by margin + 1 towards the edge", by == towards * (margin as i64 + 1));
            compare.read(&eleven, &stream, 2);
            let mut out = [0; 2];
            let read = ism::read(profile(&eleven), &stream, &mut out).map(|strip| strip.items);
            compare.claim("the changed stream loses the byte", read != Ok(1) || out[0] != l.item);
        }
    }
}

/// Longer lists: a side is named if some length of theirs on that side crosses its edge, and no list has one otherwise.
pub fn longer_lists(compare: &mut Compare, random: &mut Random) {
    for _ in 0..1_000 {
        let eleven = random.true_profile();
        let by = ism::margin(profile(&eleven)).expect("a true profile") as i64 + 1;
        let answer = library_limits(&eleven);
        let items = random.items(300);
        let shapes = shapes_of(&symbols_of(&written_bytes(&items)));
        let crossed = sides().into_iter().filter(|side| side.first_crossing(&eleven, &shapes, by).is_some());
        let crossed: Vec<String> = crossed.map(|side| side_name(side.edge, side.after, side.above)).collect();
        let named: Vec<String> = answer.named().iter().map(name_of).collect();
        // 300 items have every cell after every kind, so the other way round it holds too
        compare.claim(&format!("{eleven:?}: {crossed:?} are {named:?}"), crossed == named);
    }
}

fn side_name(edge: &str, after: &str, above: bool) -> String {
    let kind = match after {
        "short" => " after class 2",
        "long" => " after any other",
        _ => "",
    };
    format!("{} {edge}{kind}", if above { "above" } else { "below" })
}

fn name_of(l: &LimitNumbers) -> String {
    let edge = ["Min", "B23", "B34", "Rpt"][usize::from(l.edge) - 1];
    side_name(edge, ["both", "short", "long"][usize::from(l.after)], l.above == 1)
}

/// The drawing of the windows marks the sides that the library names.
pub fn drawing(compare: &mut Compare, _: &mut Random) {
    let line = DRAWN.lines().next().expect("a profile line");
    let numbers: Vec<u16> = line.split('\t').skip(1).map(|n| n.parse().expect("a number")).collect();
    let eleven: Eleven = numbers.try_into().expect("eleven numbers");
    let title = |part: &str| part.split_once(" holds the margin down</title>").map(|(side, _)| side.to_string());
    let mut drawn: Vec<String> = DRAWING.split("<title>").filter_map(title).collect();
    let mut named: Vec<String> = library_limits(&eleven).named().iter().map(name_of).collect();
    drawn.sort();
    named.sort();
    compare.claim(&format!("drawn {drawn:?}, named {named:?}"), drawn == named && !drawn.is_empty());
}
