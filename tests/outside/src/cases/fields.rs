//! Finder and field reader.

use super::strips::damage;
use crate::compare::Compare;
use crate::paper::{sector_items, stream_of, written_count, Eleven, CHECK_ORDER, LOCK_ENDS};
use crate::random::Random;

/// Tracks with sync runs about 64 long, locks whole and broken, and starts about them.
pub fn finder(compare: &mut Compare, random: &mut Random) {
    for _ in 0..8_000 {
        let eleven = random.true_profile();
        let letters = track_letters(random);
        let mut intervals = random.intervals(&eleven, &letters);
        if random.one_in(3) {
            damage(&eleven, &mut intervals, random);
        }
        let start = start_about(&letters, random);
        compare.find(&eleven, &intervals, start);
    }
}

pub fn track_letters(random: &mut Random) -> String {
    let a1 = ["34343", "34343", "3434", "34342", "34323", "43434", "3n343", "3434w", "33343", ""];
    let c2 = ["3234342343", "3234342343", "323434234", "32343423", "3234342342", "3234342333", "3234342443"];
    let half = ["32343", "3234", "32342", "3234332343", "3234343434", "3234332", "323434234w", "n234342343"];
    let marks = [a1.as_slice(), &c2, &half].concat();
    let mut letters = String::new();
    for _ in 0..random.between(0, 4) {
        let noise = random.between(0, 6);
        letters.extend((0..noise).map(|_| random.pick(&['2', '3', '4', 'n', 'w'])));
        letters += &"2".repeat(random.pick(&[0, 1, 62, 63, 64, 64, 65, 66, 100]));
        letters += random.pick(&marks);
    }
    letters
}

fn start_about(letters: &str, random: &mut Random) -> u64 {
    let length = letters.len() as u64;
    let sync_end = LOCK_ENDS.iter().find_map(|end| letters.find(end)).unwrap_or(0) as u64;
    match random.between(0, 9) {
        0..=3 => 0,
        4 => sync_end.saturating_sub(64),
        5 => sync_end.saturating_sub(63),
        6 => random.between(0, length),
        7 => length.saturating_sub(random.between(0, 70)),
        8 => u64::MAX - random.between(0, 70),
        _ => random.pick(&[length, length + 1, 1 << 32, 1 << 63, u64::MAX]),
    }
}

/// Real tracks: sectors one after the other, found one after the other and read field by field.
pub fn tracks(compare: &mut Compare, random: &mut Random) {
    for _ in 0..6 {
        let eleven = random.true_profile();
        let mut items = Vec::new();
        for sector in 1..=3 {
            let data = random.bytes(128);
            items.extend(sector_items([7, 0, sector, 0], &data));
        }
        let track = stream_of(&eleven, &items);
        let mut start = 0;
        while let Ok(place) = crate::paper::find(&eleven, &track, start) {
            compare.find(&eleven, &track, start);
            for bytes in [3, 4, 10, 11, 134, 135] {
                compare.field(&eleven, &track[place as usize..], bytes, 135);
            }
            start = place;
        }
        compare.find(&eleven, &track, start);
    }
}

/// Random fields: whole, cut short, damaged, with and without marks and check bytes; counts about the true one.
pub fn fields(compare: &mut Compare, random: &mut Random) {
    for _ in 0..30_000 {
        let eleven = random.true_profile();
        let (mut stream, bytes) = field_stream(&eleven, random);
        if random.one_in(2) {
            damage(&eleven, &mut stream, random);
        }
        let bytes = count_about(bytes, random);
        let room = random.room(bytes.min(2_000) as usize);
        compare.field(&eleven, &stream, bytes, room);
    }
}

/// The stream of a list, perhaps with marks in front and a check order behind, and its written bytes.
fn field_stream(eleven: &Eleven, random: &mut Random) -> (Vec<u16>, u64) {
    let mark = random.pick(&[0x1A1, 0x1C2]);
    let mut items = vec![mark; random.between(0, 3) as usize];
    let length = random.length(40);
    items.extend(random.items(length));
    if random.one_in(2) {
        items.push(CHECK_ORDER);
    }
    (stream_of(eleven, &items), written_count(&items) as u64)
}

fn count_about(bytes: u64, random: &mut Random) -> u64 {
    match random.between(0, 15) {
        0 => bytes.saturating_sub(1),
        1 => bytes + 1,
        2 => random.between(0, bytes + 2),
        3 => random.pick(&[0, 1, 1030, 1031, 1 << 16, 1 << 32, 1 << 61, u64::MAX / 8, u64::MAX - 1, u64::MAX]),
        _ => bytes,
    }
}
