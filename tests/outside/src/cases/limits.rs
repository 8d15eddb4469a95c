//! Every limit of the paper from both sides, and outputs exact, one short and empty.

use super::{APART, HALFWAY, REVERSED, WORKED};
use crate::compare::Compare;
use crate::paper::{stream_of, written_count, Eleven, CHECK_ORDER, LOCK_ENDS, MOST_BYTES, MOST_INTERVALS};
use crate::random::Random;

/// Lists about 6,400 items and written bytes.
pub fn written(compare: &mut Compare, random: &mut Random) {
    let mut lists = Vec::new();
    for count in [MOST_BYTES - 1, MOST_BYTES, MOST_BYTES + 1] {
        for item in [0x00, 0xFF, 0xAA, 0x1A1, 0x1C2] {
            lists.push(vec![item; count]);
        }
        lists.push((0..count).map(|_| u16::from(random.byte())).collect());
        lists.push(with_check_orders(vec![0x4E; count - 2], 1));
        lists.push(with_check_orders(vec![0x4E; count - 1], 1));
        lists.push(with_check_orders(vec![], count / 2));
        lists.push(with_check_orders(vec![], count / 2 + 1));
        // numbers that are no items count one each
        lists.push(vec![65535; count]);
        lists.push(with_check_orders(vec![300; count - 2], 1));
    }
    lists.push(vec![0; 65_536]);
    lists.push(vec![CHECK_ORDER; 65_537]);
    for list in lists {
        let exact = if written_count(&list) > MOST_BYTES { MOST_INTERVALS } else { stream_of(&WORKED, &list).len() };
        for room in [exact, exact - 1, exact + 1, 0] {
            compare.write(&WORKED, &list, room);
        }
    }
}

fn with_check_orders(mut list: Vec<u16>, count: usize) -> Vec<u16> {
    list.extend(vec![CHECK_ORDER; count]);
    list
}

/// Streams about 51,202 intervals and about 6,400 bytes.
pub fn read(compare: &mut Compare, random: &mut Random) {
    let shortest = WORKED[0];
    for count in [MOST_INTERVALS - 8, MOST_INTERVALS - 1, MOST_INTERVALS, MOST_INTERVALS + 1, 65_536, 65_538, 131_074] {
        let mut stream = vec![shortest; count];
        read_in_rooms(compare, &WORKED, &stream);
        for interval in [0, 65535] {
            stream[random.index(count)] = interval;
            read_in_rooms(compare, &HALFWAY, &stream);
        }
    }
    for count in [MOST_BYTES - 1, MOST_BYTES, MOST_BYTES + 1, MOST_BYTES + 300] {
        for (item, eleven) in [0x00, 0xFF, 0xAA, 0x55, 0x1A1, 0x1C2, 0xEE].into_iter().zip(profiles()) {
            read_in_rooms(compare, &eleven, &stream_of(&eleven, &vec![item; count]));
        }
        let mut stream = stream_of(&WORKED, &vec![0xAA; count]);
        stream.pop();
        read_in_rooms(compare, &WORKED, &stream);
        stream.push(WORKED[8]);
        read_in_rooms(compare, &WORKED, &stream);
    }
}

fn read_in_rooms(compare: &mut Compare, eleven: &Eleven, stream: &[u16]) {
    for room in [MOST_BYTES, MOST_BYTES - 1, MOST_BYTES + 1, 0] {
        compare.read(eleven, stream, room);
    }
}

/// Equal and unequal pairs in turn.
fn profiles() -> impl Iterator<Item = Eleven> {
    [WORKED, HALFWAY, APART, REVERSED].into_iter().cycle()
}

/// Field counts about 0, 1,030 and the largest numbers, on lists long enough, one short, and empty.
pub fn field(compare: &mut Compare, random: &mut Random) {
    // counts that look small when cut to 16 or 32 bits, or once multiplied by 8
    let wrapping = [16, 32, 61].map(|power| (1 << power) + 2);
    let huge = [1 << 16, 1 << 32, 1 << 61, u64::MAX / 8, u64::MAX / 8 + 1, u64::MAX];
    for bytes in [0, 1, 2, 1029, 1030, 1031, 1032, 2000].into_iter().chain(wrapping).chain(huge) {
        let length = bytes.min(2_000) as usize;
        let lists = [vec![0; length], vec![0xFF; length], vec![0x1A1; length], random.items(length)];
        for (items, eleven) in lists.into_iter().zip(profiles()) {
            let items = if written_count(&items) > length { vec![0x55; length] } else { items };
            let stream = stream_of(&eleven, &items);
            for end in [stream.len(), stream.len() - 1, stream.len() - 2, stream.len() / 2, 0] {
                for room in [length, length.saturating_sub(1), length + 1, 0] {
                    compare.field(&eleven, &stream[..end], bytes, room);
                }
            }
        }
    }
}

/// Long tracks with the lock at the very front, at the very end, cut off by one, and none.
pub fn finder(compare: &mut Compare, random: &mut Random) {
    for end in LOCK_ENDS {
        let lock = "2".repeat(64) + end;
        let cut = &lock[..lock.len() - 1];
        let gap = "3".repeat(100_000);
        let huge = [100_000, 100_001, 99_999, 100_069, 100_070, 1 << 32, (1 << 32) + 100_000, u64::MAX - 63, u64::MAX];
        let tracks = [lock.clone(), lock.clone() + &gap, gap.clone() + &lock, gap.clone(), gap.clone() + cut];
        for (letters, eleven) in tracks.iter().zip(profiles()) {
            let intervals = random.intervals(&eleven, letters);
            for start in [0, 1, 2].into_iter().chain(huge) {
                compare.find(&eleven, &intervals, start);
            }
        }
        for (length, eleven) in (60..80).zip(profiles()) {
            let intervals = random.intervals(&eleven, &(lock.clone() + &lock)[..length]);
            compare.find(&eleven, &intervals, 0);
        }
    }
}

/// A length of 0 with a null pointer, for each pointer of the C interface.
pub fn null_pointers(compare: &mut Compare, _: &mut Random) {
    use ism::sys::*;
    use std::ptr::{null, null_mut};
    let p = crate::compare::profile(&WORKED);
    let mut out = [7; 4];
    let (front, room) = (out.as_mut_ptr(), out.len());
    // SAFETY: the lengths of the null pointers are 0, `front` comes with the length of its array
    let numbers = unsafe {
        [
            ism_write(p, null(), 0, front, room).number,
            ism_write(p, null(), 0, null_mut(), 0).number,
            ism_read(p, null(), 0, null_mut(), 0).number,
            ism_find(p, null(), 0, 0).number,
            ism_read_field(p, null(), 0, 1, null_mut(), 0).number,
            ism_make_sector(0, 0, 0, 0, null(), 0, null_mut(), 0).number,
            ism_read_corrected(p, null(), 0, 0, 1, null_mut(), 0).number,
        ]
    };
    for (number, expected) in numbers.into_iter().zip([0, 9, 7, 10, 11, 13, 10]) {
        compare.claim(&format!("null pointers of length 0 give {numbers:?}"), number == expected);
    }
    compare.claim("no items are two intervals", out == [58, 58, 7, 7]);
}
