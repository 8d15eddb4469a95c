//! Long lists under every kind of profile: what goes wrong far into a list, or only where a list is long, shows here.

use super::bit_images::damage as damage_words;
use super::margins::shifted;
use super::strips::damage;
use crate::compare::{profile, Compare};
use crate::paper::image::image_of;
use crate::paper::{classes, stream_of, written_bytes, written_count, Eleven};
use crate::paper::{CHECK_ORDER, LOCK_ENDS, MOST_BYTES, MOST_FIELD_BYTES, MOST_INTERVALS};
use crate::random::Random;

/// A length up to `most`, about as often in each doubling from 100 on.
fn long_length(most: usize, random: &mut Random) -> usize {
    let top = (100_usize << random.between(1, 7)).min(most);
    random.between(top as u64 / 2, top as u64) as usize
}

/// Data, marks and check orders, at most so many written bytes.
fn long_items(most: usize, random: &mut Random) -> Vec<u16> {
    let length = long_length(most, random);
    let mut items = random.items(length);
    while written_count(&items) > most {
        items.pop();
    }
    items
}

/// Lists written and made into images, some with a number or two that are no items.
pub fn written(compare: &mut Compare, random: &mut Random) {
    for _ in 0..300 {
        let eleven = random.true_profile();
        let mut items = long_items(MOST_BYTES, random);
        let (intervals, words) = (stream_of(&eleven, &items).len(), written_count(&items));
        if random.one_in(4) {
            for _ in 0..random.between(1, 2) {
                let place = random.index(items.len());
                items[place] = random.foreign();
            }
        }
        let room = random.room(intervals);
        compare.write(&eleven, &items, room);
        let room = random.room(words);
        compare.make_image(&items, room);
    }
}

/// Images of such lists, some with a word changed anywhere.
pub fn images(compare: &mut Compare, random: &mut Random) {
    for _ in 0..300 {
        let mut words = image_of(&written_bytes(&long_items(MOST_BYTES, random)));
        if random.one_in(2) {
            damage_words(&mut words, random);
        }
        let room = random.room(words.len());
        compare.read_image(&words, room);
    }
}

/// The places at which two cells of 2 are two bits 0: as one cell of 4 they are the same bits with a clock missing.
fn pairs_of_zeros(letters: &str) -> Vec<usize> {
    let mut places = Vec::new();
    let mut last = '0';
    for (place, letter) in letters.char_indices() {
        if last == '0' && letters[place..].starts_with("22") {
            places.push(place);
        }
        last = match (last, letter) {
            ('0', '3') | ('1', '2' | '4') => '1',
            _ => '0',
        };
    }
    places
}

/// The clock between two 0s taken away, at one place or at several.
fn without_clocks(letters: &str, random: &mut Random) -> String {
    let mut changed = letters.to_string();
    for _ in 0..random.between(1, 3) {
        let places = pairs_of_zeros(&changed);
        if !places.is_empty() {
            let place = random.pick(&places);
            changed.replace_range(place..place + 2, "4");
        }
    }
    changed
}

/// One interval, anywhere, longer or shorter by the margin: the nearest to an edge, and the least or the greatest.
fn with_one_moved(eleven: &Eleven, mut stream: Vec<u16>, random: &mut Random) -> Vec<u16> {
    let margin = ism::margin(profile(eleven)).expect("a true profile") as u16;
    let place = random.index(stream.len());
    stream[place] = random.pick(&[stream[place] - margin, stream[place] + margin]);
    stream
}

/// A stream in one of these forms: moved within the margin, one interval moved, clocks missing, an interval narrow or
/// wide anywhere, or one or two changed.
fn changed_stream(eleven: &Eleven, items: &[u16], random: &mut Random) -> Vec<u16> {
    let mut stream = stream_of(eleven, items);
    match random.between(0, 6) {
        0 => stream = shifted(eleven, &stream, random),
        1 => stream = with_one_moved(eleven, stream, random),
        2 | 3 => {
            let letters = without_clocks(&classes(eleven, &stream), random);
            stream = random.intervals(eleven, &letters);
        }
        4 => {
            let (place, letter) = (random.index(stream.len()), random.pick(&['n', 'w']));
            stream[place] = random.interval(eleven, letter);
        }
        times => (4..times).for_each(|_| damage(eleven, &mut stream, random)),
    }
    stream
}

/// Strips, whole and changed.
pub fn read(compare: &mut Compare, random: &mut Random) {
    for _ in 0..400 {
        let eleven = random.true_profile();
        let items = long_items(MOST_BYTES, random);
        let stream = changed_stream(&eleven, &items, random);
        let room = random.room(written_count(&items));
        compare.read(&eleven, &stream, room);
    }
}

/// Fields, whole and changed, with a check order behind them; some end early.
pub fn fields(compare: &mut Compare, random: &mut Random) {
    for _ in 0..800 {
        let eleven = random.true_profile();
        let most = MOST_FIELD_BYTES as usize;
        let mut items = long_items(most - 2, random);
        items.push(CHECK_ORDER);
        let mut stream = changed_stream(&eleven, &items, random);
        if random.one_in(8) {
            stream.truncate(random.index(stream.len()));
        }
        let bytes = written_count(&items);
        let room = random.room(bytes);
        compare.field(&eleven, &stream, bytes as u64, room);
        compare.field(&eleven, &stream, random.between(1, most as u64), most);
    }
}

/// A clock missing on the lead of strips and fields of so many bytes.
pub fn leads(compare: &mut Compare, random: &mut Random) {
    let few = (1..=130).chain((131..=1_030).step_by(29)).chain([1_029, 1_030]);
    for bytes in few.chain([1_031, 2_000, 4_000, MOST_BYTES]) {
        let eleven = random.true_profile();
        let mut items = vec![random.between(0x00, 0x3F) as u16];
        items.extend((1..bytes).map(|_| random.item()).map(|item| if item == CHECK_ORDER { 0x1A1 } else { item }));
        let mut letters = classes(&eleven, &stream_of(&eleven, &items));
        assert!(letters.starts_with("22"), "the lead and a 0 behind it");
        letters.replace_range(0..2, "4");
        let stream = random.intervals(&eleven, &letters);
        compare.read(&eleven, &stream, bytes);
        compare.field(&eleven, &stream, bytes as u64, bytes);
    }
}

/// Reports of intervals of every class, up to the most that are taken, and of streams with one interval moved.
pub fn reports(compare: &mut Compare, random: &mut Random) {
    for _ in 0..150 {
        let eleven = random.true_profile();
        let length = long_length(MOST_INTERVALS, random) * random.pick(&[1, 1, 8]);
        let among: Vec<char> = random.pick(&["2234", "22334n", "223344w", "234nw"]).chars().collect();
        let letters: String = (0..length.min(MOST_INTERVALS)).map(|_| random.pick(&among)).collect();
        let intervals = random.intervals(&eleven, &letters);
        compare.drive_report(&eleven, &intervals);
        let written = stream_of(&eleven, &long_items(MOST_BYTES, random));
        compare.drive_report(&eleven, &with_one_moved(&eleven, written, random));
    }
}

/// Locks anywhere in long tracks, searched from anywhere.
pub fn searches(compare: &mut Compare, random: &mut Random) {
    for _ in 0..150 {
        let eleven = random.true_profile();
        let mut letters = String::new();
        for _ in 0..random.between(1, 4) {
            letters += &classes(&eleven, &stream_of(&eleven, &long_items(MOST_BYTES, random)));
            letters += &"2".repeat(random.pick(&[60, 64, 70]));
            letters += random.pick(&LOCK_ENDS);
        }
        let track = random.intervals(&eleven, &letters);
        for _ in 0..4 {
            compare.find(&eleven, &track, random.between(0, track.len() as u64));
        }
    }
}
