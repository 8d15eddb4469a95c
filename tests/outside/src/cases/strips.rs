//! Writer and strip reader: everything short, and random lists whole and damaged.

use std::collections::HashMap;

use super::{APART, HALFWAY, OVERLAP, PAIRED, REVERSED, WORKED};
use crate::compare::Compare;
use crate::paper::{self, classes, is_item, single_bytes, stream_of, Eleven, CHECK_ORDER};
use crate::random::Random;

/// Every list of at most two items, under the worked profile.
pub fn every_short_list(compare: &mut Compare, _: &mut Random) {
    let mut items = single_bytes();
    items.push(CHECK_ORDER);
    compare.write(&WORKED, &[], 2);
    for first in &items {
        compare.write(&WORKED, &[*first], 18);
        for second in &items {
            compare.write(&WORKED, &[*first, *second], 34);
        }
    }
}

/// Every number as the one item of a list.
pub fn every_number(compare: &mut Compare, _: &mut Random) {
    for number in 0..=65535 {
        compare.write(&WORKED, &[number], 18);
    }
}

/// Every row of at most ten classes, to the strip reader and to the field reader. The strip reader must also agree with
/// a search among the streams of all lists of at most two bytes.
pub fn every_short_stream(compare: &mut Compare, random: &mut Random) {
    let written = streams_of_two_bytes();
    for length in 0..=10 {
        for number in 0..3_u32.pow(length) {
            let letters = row_of_classes(number, length);
            let eleven = random.pick(&[WORKED, PAIRED, HALFWAY, REVERSED, APART, OVERLAP]);
            let intervals = random.intervals(&eleven, &letters);
            compare.read(&eleven, &intervals, 2);
            let read = paper::read(&eleven, &intervals, 2).ok();
            let searched = written.get(&letters);
            compare.claim(&format!("reading and search on classes {letters}"), read.as_ref() == searched);
            compare.field(&eleven, &intervals, 1, 1);
        }
    }
}

fn row_of_classes(number: u32, length: u32) -> String {
    let digits = (0..length).map(|place| number / 3_u32.pow(place) % 3);
    digits.map(|digit| char::from(b'2' + digit as u8)).collect()
}

fn streams_of_two_bytes() -> HashMap<String, Vec<u16>> {
    let bytes = single_bytes();
    let singles = bytes.iter().map(|b| vec![*b]);
    let pairs = bytes.iter().flat_map(|a| bytes.iter().map(move |b| vec![*a, *b]));
    let lists: Vec<Vec<u16>> = [vec![]].into_iter().chain(singles).chain(pairs).collect();
    let count = lists.len();
    let streams: HashMap<_, _> =
        lists.into_iter().map(|list| (classes(&WORKED, &stream_of(&WORKED, &list)), list)).collect();
    assert_eq!(streams.len(), count, "different lists have different streams");
    streams
}

/// Random lists: mostly items, now and then a foreign number; the room exact, short or ample.
pub fn random_lists(compare: &mut Compare, random: &mut Random) {
    for _ in 0..15_000 {
        let eleven = random.true_profile();
        let length = random.length(120);
        let mut items = random.items(length);
        if random.one_in(4) && length > 0 {
            for _ in 0..random.between(1, 3) {
                items[random.index(length)] = random.foreign();
            }
        }
        let exact = if items.iter().all(|i| is_item(*i)) { stream_of(&eleven, &items).len() } else { 8 * length };
        let room = random.room(exact);
        compare.write(&eleven, &items, room);
    }
}

/// Streams of random lists, each with some damage.
pub fn damaged_streams(compare: &mut Compare, random: &mut Random) {
    for _ in 0..25_000 {
        let eleven = random.true_profile();
        let length = random.length(100);
        let items = random.items(length);
        let mut stream = stream_of(&eleven, &items);
        for _ in 0..random.between(0, 3) {
            damage(&eleven, &mut stream, random);
        }
        let room = random.room(paper::written_count(&items));
        compare.read(&eleven, &stream, room);
    }
}

/// One change to a stream: a class changed, intervals lost, doubled or exchanged, too narrow or wide, or such that the
/// interval before decides.
pub fn damage(eleven: &Eleven, stream: &mut Vec<u16>, random: &mut Random) {
    if stream.is_empty() {
        stream.push(random.next() as u16);
        return;
    }
    let place = random.index(stream.len());
    let other = random.index(stream.len());
    match random.between(0, 11) {
        0 => stream.truncate(place),
        1 => drop(stream.remove(place)),
        2 => stream.insert(place, stream[other]),
        3 => stream.swap(place, other),
        4 => stream[place] = random.interval(eleven, 'n'),
        5 => stream[place] = random.interval(eleven, 'w'),
        6 => stream[place] = random.next() as u16,
        // a cell of 4 after a 0 is a gap, mostly out of place
        7 => stream[place] = random.interval(eleven, '4'),
        8 => stream[place] = random.interval(eleven, '3'),
        9 => stream[place] = random.interval_between([eleven[6], eleven[7]]),
        10 => stream[place] = random.interval_between([eleven[8], eleven[9]]),
        _ => stream[place] = random.interval(eleven, '2'),
    }
}

/// Rows of classes without a plan; with many cells of 4 gaps fall in and out of place.
pub fn random_classes(compare: &mut Compare, random: &mut Random) {
    for _ in 0..25_000 {
        let eleven = random.true_profile();
        let length = random.between(0, 60);
        let among = random.pick(&["234", "2234", "3444", "22222234", "22334n", "223344w", "234nw"]);
        let among: Vec<char> = among.chars().collect();
        let letters: String = (0..length).map(|_| random.pick(&among)).collect();
        let intervals = random.intervals(&eleven, &letters);
        let room = random.room(length as usize / 5);
        compare.read(&eleven, &intervals, room);
    }
}
