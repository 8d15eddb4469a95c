//! Drives that run slow, request (xi): the speed by the 64 intervals before a lock, and the field corrected by it.

mod call;

use super::faults::{building_profile, profile_with, room_with, Faults};
use super::margins::moved_by;
use super::{APART, PAIRED, WORKED};
use crate::compare::{profile, Compare};
use crate::paper::{sector_items, slow::sums, stream_of, written_count, Eleven, CHECK_ORDER};
use crate::random::Random;
use call::{library_corrected, CorrectedAnswer};

/// A list read by the library into room enough, compared with the paper on the way.
fn read(compare: &mut Compare, eleven: &Eleven, list: &[u16], start: u64, bytes: u64) -> (CorrectedAnswer, Vec<u16>) {
    let room = bytes.min(1_030) as usize;
    compare.corrected(eleven, list, start, bytes, room);
    let mut out = vec![0; room];
    let answer = library_corrected(eleven, list, start, bytes, &mut out);
    (answer, out)
}

/// A sync field, three A1 marks, a data mark and some bytes with their sum.
fn field_items(random: &mut Random, length: usize) -> Vec<u16> {
    let mut items = vec![0x00; 12];
    items.extend([0x1A1, 0x1A1, 0x1A1, 0xFB]);
    items.extend(random.bytes(length).iter().map(|byte| u16::from(*byte)));
    items.extend([CHECK_ORDER, 0x4E, 0x4E]);
    items
}

/// Each interval longer by so many thousandths, rounded down.
fn slowed(list: &[u16], thousandths: i64) -> Vec<u16> {
    list.iter().map(|d| (i64::from(*d) * (1_000 + thousandths) / 1_000).min(65_535) as u16).collect()
}

/// Answers worked out by hand under the worked profile: 32 x T1 is 1,856. The field is three A1 marks and FE: with 64 of
/// 58 before it S0 and S1 are nominal.
pub fn by_hand(compare: &mut Compare, _: &mut Random) {
    let marks = [91, 116, 87, 116, 91, 50, 120, 87, 116, 91, 50, 120, 87, 116, 91];
    let mark = [&marks[..], &[54, 58, 58, 58, 58, 58, 54, 91, 87, 87, 91]].concat();
    let with_sync = |even: u16, odd: u16| [[even, odd].repeat(32), mark.clone()].concat();
    let (answer, items) = read(compare, &WORKED, &with_sync(58, 58), 0, 4);
    let plain = CorrectedAnswer { lock: 64, count: 4, used: 23, clearance: 10, ..CorrectedAnswer::default() };
    compare.claim("nominal speed", answer == CorrectedAnswer { holds: answer.holds, ..plain });
    compare.claim("three marks and FE", items == [0x1A1, 0x1A1, 0x1A1, 0xFE]);
    // S0 = 1,920, S1 = 1,792: 91 becomes 87, 116 at an odd place 120, 58 at an even place 56
    let (answer, items) = read(compare, &WORKED, &with_sync(60, 56), 0, 4);
    compare.claim("halves of a pair", (answer.even, answer.odd, items[3]) == (64, -64, 0xFE));
    // the limit: a difference of 116 passes, 117 does not
    for (first, last, expected) in [(0, 116, 0), (0, 117, 18), (1, 116, 0), (1, 117, 18)] {
        for sign in [1, -1] {
            let mut list = with_sync(58, 58);
            (0..29).for_each(|k| list[2 * k + first] = (58 + 4 * sign) as u16);
            list[2 * 29 + first] = (58 + sign * (last - 116)) as u16;
            let (answer, _) = read(compare, &WORKED, &list, 0, 4);
            let place = if expected == 18 { first as u32 } else { 0 };
            compare.claim("the limit of speed", (answer.number, answer.place) == (expected, place));
        }
    }
    // both halves off: the lower
    let (answer, _) = read(compare, &WORKED, &with_sync(62, 62), 0, 4);
    compare.claim("both off speed", answer == CorrectedAnswer { number: 18, ..CorrectedAnswer::default() });
    // a corrected number above 65,535 is wide and does not wrap: with S1 = 1,854 it is 65,605, and 69 would be class 2
    let mut list = with_sync(58, 58);
    (list[1], list[3], list[64 + 5]) = (57, 57, 65_535);
    let (answer, _) = read(compare, &WORKED, &list, 0, 4);
    compare.claim("above 65,535", (answer.number, answer.place) == (6, 5));
    unlike_the_field_reader(compare);
}

/// Corrected reading is not at least as good: the last of the 64 ends Early as written.
fn unlike_the_field_reader(compare: &mut Compare) {
    let eleven = [51, 1023, 0, 15, 15, 1, 1000, 1000, 1600, 1600, 2148];
    let items = [&[0x00; 12][..], &[0x1A1, 0x1A1, 0x1A1, 0xFB], &[0x1B; 6], &[0x4E]].concat();
    let list = stream_of(&eleven, &items);
    let lock = ism::find_lock(profile(&eleven), &list, 0).expect("a lock");
    compare.field(&eleven, &list[lock..], 10, 10);
    let plain = ism::read_field(profile(&eleven), &list[lock..], 10, &mut [0; 10]);
    let (answer, _) = read(compare, &eleven, &list, 0, 10);
    compare.claim("the field reader reads", plain.is_ok());
    compare.claim("the corrected reader refuses", (answer.number, answer.place) == (6, 11));
    // where the cell before the lock was not written as a 2
    let eleven = [58, 29, 8, 10, 12, 36, 91, 73, 106, 106, 139];
    let items = [&[0xFF; 8][..], &[0xFC, 0x1A1, 0x1A1, 0x1A1, 0xFE, 1, 2, 3, 0x4E]].concat();
    let list = stream_of(&eleven, &items);
    for bytes in 1..=9 {
        read(compare, &eleven, &list, 0, bytes);
    }
}

/// Sums about each limit of speed, under profiles of every T1.
pub fn limits(compare: &mut Compare, random: &mut Random) {
    for _ in 0..2_000 {
        let eleven = random.true_profile();
        let items = field_items(random, 4);
        let written = stream_of(&eleven, &items);
        let Ok(lock) = ism::find_lock(profile(&eleven), &written, 0) else { continue };
        let nominal = 32 * i64::from(eleven[0]);
        for half in [0, 1] {
            for sign in [-1, 1] {
                let mut list = written.clone();
                let target = nominal + sign * (nominal / 16 + random.between(0, 2) as i64 - 1);
                reach(&mut list[lock - 64..lock], half, target);
                let start = random.pick(&[0, lock as u64 - 64]);
                compare.corrected(&eleven, &list, start, 8, 8);
            }
        }
    }
}

/// Every second interval of a run moved so that they add up to a sum, if it can be.
fn reach(run: &mut [u16], half: usize, target: i64) {
    let mut left = target - sums(run)[half];
    for (k, d) in run.iter_mut().enumerate().filter(|(k, _)| k % 2 == half) {
        let turns = (64 - k as i64 + 1) / 2;
        let by = if left >= 0 { (left + turns - 1) / turns } else { (left - turns + 1) / turns };
        *d = (i64::from(*d) + by).clamp(0, 65_535) as u16;
        left -= by;
    }
}

/// Every combination of faults at once.
pub fn faults(compare: &mut Compare, random: &mut Random) {
    const ADRIFT: u32 = 2;
    const OFF_SPEED: u32 = 3;
    const MISCOUNT: u32 = 4;
    const BAD_INTERVAL: u32 = 5;
    const SHORT: u32 = 6;
    const STRAY: u32 = 7;
    const FULL: u32 = 8;
    for faults in (0..1 << 9).map(Faults) {
        for _ in 0..20 {
            let eleven = profile_with(faults, random);
            let building = building_profile(&eleven, random);
            let length = random.between(1, 12) as usize;
            let items = field_items(random, length);
            let mut list = stream_of(&building, &items);
            let lock = ism::find_lock(profile(&building), &list, 0).unwrap_or(70);
            if faults.has(STRAY) {
                // two cells of 2 become a gap
                let place = (lock + 16..list.len() - 2).find(|k| list[*k] == building[0] && list[k + 1] == building[0]);
                if let Some(place) = place {
                    list[place] = building[0] + 2 * building[1];
                    list.remove(place + 1);
                }
            }
            if faults.has(BAD_INTERVAL) {
                let place = (lock + random.between(5, 60) as usize).min(list.len() - 1);
                list[place] = random.pick(&[0, building[5] / 2, building[10], building[10] + 200, 65_535]);
            }
            if faults.has(OFF_SPEED) {
                let half = random.index(2);
                let nominal = 32 * i64::from(building[0]);
                let sign = random.pick(&[-1, 1]);
                reach(&mut list[lock - 64..lock], half, nominal + sign * (nominal / 16 + 1));
            }
            let bytes = 4 + length as u64 + 2;
            if faults.has(SHORT) {
                list.truncate(lock + 6 + random.index(30).min(list.len() - lock - 6));
            }
            if faults.has(ADRIFT) {
                let place = lock - 1 - random.index(64);
                list[place] = 0;
            }
            let asked = if faults.has(MISCOUNT) { random.pick(&[0, 1_031, 1 << 32, u64::MAX]) } else { bytes };
            let room = room_with(faults.has(FULL), bytes as usize, random);
            compare.corrected(&eleven, &list, 0, asked, room);
        }
    }
}

/// Sectors on drives of many speeds, moved a little: ID and data from each start.
pub fn tracks(compare: &mut Compare, random: &mut Random) {
    for _ in 0..300 {
        let any = random.true_profile();
        let eleven = random.pick(&[WORKED, PAIRED, APART, any]);
        let data = random.bytes(128);
        let items = sector_items([1, 0, random.byte(), 0], &data);
        let by = random.between(0, 6);
        let written = moved_by(by.min(u64::from(eleven[5])), &stream_of(&eleven, &items), random);
        let list = slowed(&written, random.pick(&[-70, -62, -30, 0, 0, 30, 45, 60, 63, 70]));
        let mut start = 0;
        for bytes in [10, 134] {
            compare.corrected(&eleven, &list, start, bytes, bytes as usize);
            compare.corrected(&eleven, &list, start, bytes + 1, 135);
            let Ok(lock) = ism::find_lock(profile(&eleven), &list, start as usize) else { break };
            start = lock as u64 + 1;
        }
    }
}

/// Lists, starts, counts and rooms without a plan; intervals of every size behind the lock.
pub fn random_lists(compare: &mut Compare, random: &mut Random) {
    for _ in 0..20_000 {
        let eleven = random.true_profile();
        let length = random.length(40);
        let items = field_items(random, length);
        let mut list = stream_of(&eleven, &items);
        let Ok(lock) = ism::find_lock(profile(&eleven), &list, 0) else { continue };
        list = slowed(&list, random.between(0, 130) as i64 - 65);
        for _ in 0..random.between(0, 3) {
            let place = random.index(list.len());
            let any = random.next() as u16;
            list[place] = random.pick(&[any, list[place].saturating_add(1), list[place] / 2, 65_535, 61_440, 61_439]);
        }
        let exact = written_count(&items) as u64 - 12;
        let any = random.between(0, exact + 3);
        let bytes = random.pick(&[exact, exact, exact, 1, exact + 1, any]);
        let any = random.between(0, 200);
        let start = random.pick(&[0, 0, lock as u64 - 64, lock as u64 - 63, any]);
        let room = random.room(bytes as usize);
        compare.corrected(&eleven, &list, start, bytes, room);
    }
}

/// With S0 and S1 both 32 x T1 the answer is in every part that of the field reader at the lock.
pub fn nominal(compare: &mut Compare, random: &mut Random) {
    for _ in 0..5_000 {
        let eleven = random.true_profile();
        let length = random.length(40);
        let items = field_items(random, length);
        let mut list = stream_of(&eleven, &items);
        let Ok(lock) = ism::find_lock(profile(&eleven), &list, 0) else { continue };
        for half in [0, 1] {
            reach(&mut list[lock - 64..lock], half, 32 * i64::from(eleven[0]));
        }
        if random.one_in(2) {
            let place = lock + random.index(list.len() - lock);
            list[place] = random.next() as u16;
        }
        let bytes = written_count(&items) as u64 - 14;
        let room = random.room(bytes as usize);
        compare.corrected(&eleven, &list, 0, bytes, room);
        let Ok(lock) = ism::find_lock(profile(&eleven), &list, 0) else { continue };
        let mut out = vec![7; room];
        let mut plain_out = out.clone();
        let read = ism::read_corrected(profile(&eleven), &list, 0, bytes as usize, &mut out);
        let plain = ism::read_field(profile(&eleven), &list[lock..], bytes as usize, &mut plain_out);
        let same = if sums(&list[lock - 64..lock]) == [32 * i64::from(eleven[0]); 2] {
            read.map(|read| (read.lock, read.field, read.even, read.odd)) == plain.map(|field| (lock, field, 0, 0))
                && out == plain_out
        } else {
            true
        };
        compare.claim("nominal speed changes nothing", same);
    }
}

/// Two lists of which one is the other by an exact ratio give the same but for the differences.
pub fn speed_drops_out(compare: &mut Compare, random: &mut Random) {
    let eleven = [660, 330, 0, 0, 0, 330, 825, 825, 1155, 1155, 1650];
    for _ in 0..3_000 {
        let length = random.length(30);
        let items = field_items(random, length);
        let units = stream_of(&[20, 10, 0, 0, 0, 10, 25, 25, 35, 35, 50], &items);
        let units: Vec<u16> = moved_by(random.between(0, 2), &units, random);
        let bytes = written_count(&items) as u64 - 14;
        let by = |factor: u16| -> Vec<u16> { units.iter().map(|d| d * factor).collect() };
        let room = bytes as usize;
        let mut told = [32, 33, 34].map(|factor| {
            let list = by(factor);
            compare.corrected(&eleven, &list, 0, bytes, room);
            let mut out = vec![0; room];
            let answer = library_corrected(&eleven, &list, 0, bytes, &mut out);
            (answer, out)
        });
        let plain = |answer: CorrectedAnswer| CorrectedAnswer { even: 0, odd: 0, ..answer };
        told.iter_mut().for_each(|(answer, _)| *answer = plain(*answer));
        let on_speed: Vec<_> = told.iter().filter(|(answer, _)| ![10, 18].contains(&answer.number)).collect();
        compare.claim("speed drops out", on_speed.windows(2).all(|pair| pair[0] == pair[1]));
    }
}

/// Fields of every length up to three blocks and of the most bytes, on a drive that is 3 percent slow.
pub fn every_length(compare: &mut Compare, random: &mut Random) {
    for length in (0..80).chain([250, 500, 1_019, 1_024]) {
        let items = field_items(random, length);
        let list = slowed(&stream_of(&PAIRED, &items), 30);
        let bytes = length as u64 + 6;
        for bytes in [bytes - 1, bytes, bytes + 1] {
            compare.corrected(&PAIRED, &list, 0, bytes, bytes as usize);
        }
        let (answer, _) = read(compare, &PAIRED, &list, 0, bytes.min(1_030));
        compare.claim("a slow drive reads", answer.number == 0 && (answer.holds == 1 || bytes > 1_030));
        for cut in [1, 2, 63, 64, 65] {
            let end = list.len().saturating_sub(cut);
            compare.corrected(&PAIRED, &list[..end], 0, bytes, bytes as usize);
        }
    }
}
