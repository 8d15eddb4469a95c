//! The index in one order: every order of a few numbers, long tracks in the orders that sort badly, and that 15 comes
//! before the order.

use super::call::{library_index, Index};
use super::pieces::{id, items_of, places_of, small_data, Piece};
use crate::cases::margins::shifted;
use crate::cases::WORKED;
use crate::compare::Compare;
use crate::paper::index::MOST_ENTRIES;
use crate::paper::stream_of;
use crate::random::Random;

/// An ID, or an ID and its data, for each sector number.
fn pieces_of(numbers: &[u8], with_data: bool) -> Vec<Piece> {
    let short = |piece: Piece| Piece { gap: vec![0x4E; 2], ..piece };
    let one = |number: &u8| match with_data {
        true => vec![short(id(*number, 0)), short(small_data())],
        false => vec![short(id(*number, 0))],
    };
    numbers.iter().flat_map(one).collect()
}

/// Sector numbers and ID places of an index.
fn keys(index: &Index) -> Vec<(u8, u64)> {
    index.entries[..index.count as usize].iter().map(|entry| (entry.sector, entry.id_place)).collect()
}

/// The track of these numbers: each number with its place, none lost, by number and then by place.
fn check(compare: &mut Compare, numbers: &[u8], with_data: bool) {
    let pieces = pieces_of(numbers, with_data);
    let track = stream_of(&WORKED, &items_of(&pieces));
    compare.index(&WORKED, &track);
    let step = if with_data { 2 } else { 1 };
    let places = places_of(&pieces).into_iter().step_by(step).map(|place| place as u64);
    let written: Vec<(u8, u64)> = numbers.iter().copied().zip(places).collect();
    let index = library_index(&WORKED, &track);
    let keys = keys(&index);
    compare.claim("as many entries as IDs", keys.len() == numbers.len());
    compare.claim("each as it was written", written.iter().all(|key| keys.contains(key)));
    compare.claim("by number, then by place", keys.windows(2).all(|two| two[0] < two[1]));
}

/// Every list of up to four of the numbers 0, 1, 2 and 255.
pub fn few_numbers(compare: &mut Compare, _: &mut Random) {
    let numbers = [0, 1, 2, 255];
    for length in 0..=4 {
        for which in 0..4_usize.pow(length) {
            let list: Vec<u8> = (0..length).map(|digit| numbers[which / 4_usize.pow(digit) % 4]).collect();
            check(compare, &list, false);
            check(compare, &list, length < 3);
        }
    }
}

/// Up to 32 entries: ascending, descending, all of one number, two in turn, one out of its place, and in random order.
pub fn many_numbers(compare: &mut Compare, random: &mut Random) {
    for count in [2, 9, 16, 31, 32_u8] {
        let ascending: Vec<u8> = (1..=count).collect();
        let descending: Vec<u8> = ascending.iter().rev().copied().collect();
        let two: Vec<u8> = (0..count).map(|k| 7 - k % 2).collect();
        let mut last_first = ascending.clone();
        last_first.rotate_right(1);
        let mut first_last = ascending.clone();
        first_last.rotate_left(1);
        for list in [ascending, descending, two, vec![5; usize::from(count)], last_first, first_last] {
            check(compare, &list, false);
            check(compare, &list, true);
        }
        for most in [1, 3, 255] {
            let list: Vec<u8> = (0..count).map(|_| random.between(0, most) as u8).collect();
            check(compare, &list, random.one_in(2));
        }
    }
}

/// A 33rd entry is crowded whatever its number: the greatest, the lowest, one that stands already, also as the first.
pub fn crowded_before(compare: &mut Compare, _: &mut Random) {
    let full: Vec<u8> = (1..=MOST_ENTRIES as u8).collect();
    for number in [0, 1, 16, 32, 33, 255] {
        for place in [0, 1, 16, MOST_ENTRIES] {
            let mut numbers = full.clone();
            numbers.insert(place, number);
            let track = stream_of(&WORKED, &items_of(&pieces_of(&numbers, false)));
            compare.index(&WORKED, &track);
            let index = library_index(&WORKED, &track);
            compare.claim("crowded before the order", index == Index { number: 15, ..Index::default() });
        }
    }
}

/// The number of a sector decides, and neither track, side nor length code, nor whether its data was found.
pub fn other_bytes(compare: &mut Compare, random: &mut Random) {
    for _ in 0..200 {
        let eleven = random.true_profile();
        let piece = |random: &mut Random| {
            let [track, side] = [random.byte(), random.byte()].map(u16::from);
            let (sector, code) = (random.between(0, 4) as u16, random.between(0, 3) as u16);
            Piece { content: vec![track, side, sector, code], gap: vec![0x4E; 2], ..id(0, 0) }
        };
        let mut pieces = Vec::new();
        for _ in 0..random.between(1, 7) {
            pieces.push(piece(random));
            if random.one_in(2) {
                pieces.push(Piece { sum: random.one_in(2), gap: vec![0x4E; 2], ..small_data() });
            }
        }
        let track = shifted(&eleven, &stream_of(&eleven, &items_of(&pieces)), random);
        compare.index(&eleven, &track);
        let keys = keys(&library_index(&eleven, &track));
        compare.claim("by number, then by place", keys.windows(2).all(|two| two[0] < two[1]));
    }
}
