//! How near an interval comes to the edges of its window: the class operation, both readers, and what is promised of a
//! written strip and of a sector's fields.

use super::{margins::moved_by, APART, WORKED};
use crate::compare::{profile, Compare};
use crate::paper::{classes, ends_short, sector_items, single_bytes, stream_of, written_count, Eleven, CHECK_ORDER};
use crate::random::Random;

/// Intervals with their clearances, counted by hand under the worked profile: windows 36 to 72, 73 to 105, 106 to 138.
pub fn by_hand(compare: &mut Compare, _: &mut Random) {
    let narrow_and_wide = [(0, 0), (35, 0), (139, 0), (65535, 0)];
    let at_edges = [(36, 0), (37, 1), (71, 1), (72, 0), (73, 0), (105, 0), (106, 0), (138, 0)];
    let inside = [(54, 18), (53, 17), (55, 17), (58, 14), (87, 14), (89, 16), (116, 10), (122, 16)];
    for (interval, clearance) in [&narrow_and_wide[..], &at_edges, &inside].concat() {
        for after_short in [true, false] {
            clears_by(compare, &WORKED, after_short, interval, clearance);
        }
    }
    // windows 36 to 94, 95 to 119, 120 to 138 after class 2, and 36 to 72, 73 to 105, 106 to 138 after any other
    let both_kinds = [(80, 14, 7), (94, 0, 11), (95, 0, 10), (73, 21, 0), (72, 22, 0), (100, 5, 5), (105, 10, 0)];
    let more = [(106, 11, 0), (119, 0, 13), (120, 0, 14), (125, 5, 13), (58, 22, 14), (35, 0, 0), (139, 0, 0)];
    for (interval, short, long) in [both_kinds, more].concat() {
        clears_by(compare, &APART, true, interval, short);
        clears_by(compare, &APART, false, interval, long);
    }
    // a strip of ten 58; the least of it with one interval near either edge
    for (interval, clearance) in [(58, 14), (37, 1), (70, 2), (72, 0)] {
        let mut strip = [58; 10];
        strip[7] = interval;
        compare.read(&WORKED, &strip, 1);
        let read = ism::read(profile(&WORKED), &strip, &mut [0]).expect("one byte");
        compare.claim("least clearance of a strip", read.clearance == clearance);
    }
}

/// The clearance of an interval after class 2 or after any other.
fn clears_by(compare: &mut Compare, eleven: &Eleven, after_short: bool, interval: u16, clearance: u32) {
    compare.class_after(eleven, interval, u32::from(after_short));
    let classed = ism::classify(profile(eleven), interval, after_short).expect("a true profile");
    compare.claim(&format!("clearance of {interval}, {after_short}"), classed.clearance == clearance);
}

/// An interval that a field does not use has no influence, however near it is; the last that it uses has.
pub fn used_intervals(compare: &mut Compare, random: &mut Random) {
    for _ in 0..2_000 {
        let eleven = random.true_profile();
        let length = 1 + random.length(20);
        let mut items = random.items(length);
        items.push(CHECK_ORDER);
        let bytes = written_count(&items) as u64;
        let mut stream = stream_of(&eleven, &items);
        let room = bytes as usize;
        let read = |stream: &[u16]| ism::read_field(profile(&eleven), stream, room, &mut vec![0; room]);
        let field = read(&stream).expect("the stream of a list");
        let edges = [eleven[5], eleven[6] - 1, eleven[7], eleven[8] - 1, eleven[9], eleven[10], 0];
        stream.truncate(field.used);
        stream.push(random.pick(&edges));
        compare.field(&eleven, &stream, bytes, room);
        compare.claim("unused intervals do not count", read(&stream) == Ok(field));
        // the nearest interval of the same class: each class begins at its edge
        let last = field.used - 1;
        let kind = usize::from(!ends_short(&classes(&eleven, &stream[..last])));
        let edges = [eleven[5], eleven[6 + kind], eleven[8 + kind]];
        stream[last] = *edges.iter().rfind(|edge| **edge <= stream[last]).expect("a class of a cell");
        compare.field(&eleven, &stream, bytes, room);
        compare.claim("the last used interval counts", read(&stream).map(|field| field.clearance) == Ok(0));
    }
}

/// Strips as written, and with each interval changed by at most c: margin - c at least.
pub fn changed_strips(compare: &mut Compare, random: &mut Random) {
    for _ in 0..4_000 {
        let eleven = random.true_profile();
        let length = random.length(60);
        let items = random.items(length);
        let stream = stream_of(&eleven, &items);
        let margin = u64::from(ism::margin(profile(&eleven)).expect("a true profile"));
        for c in [0, random.between_with_edges(0, margin)] {
            let changed = moved_by(c, &stream, random);
            let room = written_count(&items);
            compare.read(&eleven, &changed, room);
            let read = ism::read(profile(&eleven), &changed, &mut vec![0; room]).expect("within the margin");
            compare.claim("at least margin - c", u64::from(read.clearance) >= margin - c);
        }
    }
}

/// Some one-byte list's stream has exactly the margin, and none has less.
pub fn exactly_the_margin(compare: &mut Compare, random: &mut Random) {
    for _ in 0..300 {
        let eleven = random.true_profile();
        let margin = u64::from(ism::margin(profile(&eleven)).expect("a true profile"));
        let least = single_bytes().into_iter().map(|item| {
            let stream = stream_of(&eleven, &[item]);
            compare.read(&eleven, &stream, 1);
            let read = ism::read(profile(&eleven), &stream, &mut [0]).expect("the stream of a list");
            u64::from(read.clearance)
        });
        let least = least.min();
        compare.claim("the least of all bytes is the margin", least == Some(margin));
    }
}

/// Both fields of a sector as written, and with each interval changed by at most c.
pub fn changed_sectors(compare: &mut Compare, random: &mut Random) {
    for _ in 0..200 {
        let eleven = random.true_profile();
        let data = random.bytes(128);
        let items = sector_items([random.byte(), 0, random.byte(), 0], &data);
        let stream = stream_of(&eleven, &items);
        let margin = u64::from(ism::margin(profile(&eleven)).expect("a true profile"));
        for c in [0, random.between_with_edges(0, margin)] {
            let track = moved_by(c, &stream, random);
            let used = clears(compare, &eleven, &track, 0, 10, margin - c);
            clears(compare, &eleven, &track, used, 134, margin - c);
        }
    }
}

/// The field at the first lock from `start` on has this clearance at least; answers the place after its intervals.
fn clears(compare: &mut Compare, eleven: &Eleven, track: &[u16], start: usize, bytes: u64, least: u64) -> usize {
    let place = ism::find_lock(profile(eleven), track, start).expect("the next field's lock");
    let room = bytes as usize;
    compare.field(eleven, &track[place..], bytes, room);
    let field = ism::read_field(profile(eleven), &track[place..], room, &mut vec![0; room]).expect("a whole field");
    compare.claim("a field has at least margin - c", u64::from(field.clearance) >= least);
    place + field.used
}
