//! Locks behind plain data, request (ii): a C2 lock needs its second mark, and no lock stands in data bytes alone.

use ism::Refusal;

use super::margins::shifted;
use super::WORKED;
use crate::compare::{profile, Compare};
use crate::paper::{classes, sector_items, stream_of, Eleven, CHECK_ORDER};
use crate::random::Random;

/// Bits as data bytes, 0s behind them up to a whole byte.
fn bytes_of(bits: &str) -> Vec<u8> {
    let padded = format!("{bits}{}", "0".repeat(bits.len().next_multiple_of(8) - bits.len()));
    let byte = |at: usize| u8::from_str_radix(&padded[at..at + 8], 2).expect("eight bits");
    (0..padded.len()).step_by(8).map(byte).collect()
}

fn items_of(bits: &str) -> Vec<u16> {
    bytes_of(bits).into_iter().map(u16::from).collect()
}

/// No lock stands from `start` on.
fn unlocked(compare: &mut Compare, eleven: &Eleven, stream: &[u16], start: u64) {
    compare.find(eleven, stream, start);
    let found = ism::find_lock(profile(eleven), stream, start as usize);
    compare.claim(&format!("no lock from {start} on in {stream:?}"), found == Err(Refusal::NoLock));
}

/// The first lock from `start` on stands at `place`.
fn locked(compare: &mut Compare, stream: &[u16], start: u64, place: usize) {
    compare.find(&WORKED, stream, start);
    let found = ism::find_lock(profile(&WORKED), stream, start as usize);
    compare.claim(&format!("a lock at {place} in {stream:?}, found {found:?}"), found == Ok(place));
}

/// The customer's page: 65 ones and more, then the bits 0 0 0 1 0 1 0 0, at each bit of a byte.
pub fn full_page(compare: &mut Compare, _: &mut Random) {
    for lead in 0..8 {
        for ones in 62..=80 {
            let bits = "0".repeat(lead) + &"1".repeat(ones) + "00010100";
            let stream = stream_of(&WORKED, &items_of(&bits));
            let trap = classes(&WORKED, &stream).contains(&("2".repeat(64) + "32343"));
            compare.claim(&format!("{ones} ones read like sync and a mark C2"), trap == (ones >= 65));
            for start in 0..10 {
                unlocked(compare, &WORKED, &stream, start);
            }
        }
    }
}

/// A sector of FF in which a byte after some ends the ones so: its two locks are found, and no other.
pub fn full_sector(compare: &mut Compare, random: &mut Random) {
    for _ in 0..60 {
        let code = random.between(0, 3) as u8;
        let mut data = vec![0xFF; 128 << code];
        for _ in 0..random.between(1, 4) {
            let place = random.between(9, data.len() as u64 - 3) as usize;
            let end = bytes_of(&("1".repeat(random.between(0, 7) as usize) + "00010100"));
            data[place..place + end.len()].copy_from_slice(&end);
        }
        let stream = stream_of(&WORKED, &sector_items([1, 0, 1, code], &data));
        let ends = classes(&WORKED, &stream);
        let marks: Vec<usize> = ends.match_indices(&("2".repeat(64) + "34343")).map(|(place, _)| place + 64).collect();
        compare.claim("a sector has two fields", marks.len() == 2);
        locked(compare, &stream, 0, marks[0]);
        locked(compare, &stream, marks[0] as u64, marks[1]);
        unlocked(compare, &WORKED, &stream, marks[1] as u64 - 63);
        unlocked(compare, &WORKED, &stream, marks[1] as u64);
    }
}

/// A run of ones or of zeros, long enough for a lock, and every row of eleven bits behind it.
pub fn every_tail(compare: &mut Compare, _: &mut Random) {
    for run in ["1", "0"] {
        for tail in 0..1 << 11 {
            let bits = run.repeat(69) + &format!("{tail:011b}");
            unlocked(compare, &WORKED, &stream_of(&WORKED, &items_of(&bits)), 0);
        }
    }
}

/// Data bytes and check orders with long runs, their streams as written and moved within the margin.
pub fn data_alone(compare: &mut Compare, random: &mut Random) {
    for _ in 0..3_000 {
        let eleven = random.true_profile();
        let stream = stream_of(&eleven, &data_items(5, random));
        let moved = shifted(&eleven, &stream, random);
        let start = random.between(0, stream.len() as u64);
        for stream in [&stream, &moved] {
            unlocked(compare, &eleven, stream, 0);
            unlocked(compare, &eleven, stream, start);
        }
    }
}

/// The same searched from every start: it counts as coming after class 2, whatever was written before it.
pub fn data_from_every_start(compare: &mut Compare, random: &mut Random) {
    for _ in 0..150 {
        let eleven = random.true_profile();
        let stream = shifted(&eleven, &stream_of(&eleven, &data_items(2, random)), random);
        (0..=stream.len() as u64).for_each(|start| unlocked(compare, &eleven, &stream, start));
    }
}

/// Some pieces of data.
fn data_items(most: u64, random: &mut Random) -> Vec<u16> {
    (0..random.between(1, most)).flat_map(|_| data_piece(random)).collect()
}

/// A run of equal bits with some other bits behind it, bytes of any kind, or check orders.
fn data_piece(random: &mut Random) -> Vec<u16> {
    let length = random.between(0, 20) as usize;
    match random.between(0, 5) {
        0 => random.bytes(length).into_iter().map(u16::from).collect(),
        1 => vec![CHECK_ORDER; random.between(1, 6) as usize],
        2 => vec![random.pick(&[0xA1, 0xC2, 0x4E, 0xAA, 0x55]); length],
        _ => {
            let lead = "0".repeat(random.between(0, 7) as usize);
            let run = random.pick(&["0", "1"]).repeat(random.between(60, 80) as usize);
            let tail = random.pick(&["00010100", "0001010", "10000101", "11000010", "10100001", "00010100100"]);
            let more = format!("{:08b}", random.byte());
            items_of(&(lead + &run + tail + &more))
        }
    }
}

/// Sync and then marks: one C2 is no lock whatever follows, two are; one A1 is.
pub fn marks(compare: &mut Compare, random: &mut Random) {
    for sync in [7, 8, 9, 12, 20] {
        let front = vec![0x00; sync];
        let list = |behind: &[u16]| stream_of(&WORKED, &[front.clone(), behind.to_vec()].concat());
        // the lead 0 and the zeros of the sync are cells of 2, but for the last 0, which begins the mark
        let place = 8 * sync;
        for next in (0..256).chain([0x1A1, CHECK_ORDER]) {
            unlocked(compare, &WORKED, &list(&[0x1C2, next, next]), 0);
        }
        let pairs = [[0x1C2, 0x1C2, 0xFC], [0x1C2, 0x1C2, 0x1C2], [0x1A1, 0x4E, 0x4E], [0x1A1, 0x1C2, 0x00]];
        for behind in pairs {
            let stream = list(&behind);
            if sync < 8 {
                unlocked(compare, &WORKED, &stream, 0);
            } else {
                locked(compare, &stream, 0, place);
                locked(compare, &stream, place as u64 - 64, place);
                unlocked(compare, &WORKED, &stream, place as u64 - 63);
            }
        }
        unlocked(compare, &WORKED, &list(&[0x1C2]), 0);
    }
    // a lock need not be a mark: here the classes 3 4 3 4 3 stand behind 64 of class 2, and no A1 was written
    let behind_ones = [vec![0xFF; 9], vec![0x1C2, 0x80, 0x00]].concat();
    locked(compare, &stream_of(&WORKED, &behind_ones), 0, 74);
    for _ in 0..2_000 {
        let eleven = random.true_profile();
        let behind = [(); 4].map(|_| random.pick(&[0x1C2, 0x1C2, 0x1A1, 0xC2, 0xA1, 0xFF, 0x00]));
        let items = [vec![random.pick(&[0x00, 0xFF]); 9], behind.to_vec()].concat();
        let moved = shifted(&eleven, &stream_of(&eleven, &items), random);
        compare.find(&eleven, &moved, random.between(0, 9));
    }
}
