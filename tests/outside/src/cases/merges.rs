//! Two passes merged: every choice between copies, every refusal, sets of every size.

mod call;
mod sets;

use ism::sys::Answer;

use super::faults::{room_with, Faults};
use crate::call::ACCEPTED;
use crate::compare::Compare;
use crate::paper::merge::{merge, Sector, MOST_SECTORS};
use crate::random::Random;
use call::{ism_merge, library_merge};
use sets::{agree_mostly, crowd, fitting_sets, numbers, put_at_odds, sector, sectors, set_of, SIZES};

/// How long the merged set is, or about how long it would be.
fn exact_room(first: &[u8], second: &[u8]) -> usize {
    merge(first, second, usize::MAX).map_or(first.len(), |(_, bytes)| bytes.len())
}

fn in_rooms(compare: &mut Compare, first: &[u8], second: &[u8]) {
    let exact = exact_room(first, second);
    for room in [exact, exact.saturating_sub(1), exact + 5, 0] {
        compare.merge(first, second, room);
    }
}

/// Small sets with their merged set written out.
pub fn by_hand(compare: &mut Compare, _: &mut Random) {
    let small = |number: u8, sum: u8, fill: u8| [vec![number, 0, sum], vec![fill; 128]].concat();
    let first = [small(2, 0, 0xAA), small(200, 9, 0x11), small(4, 0, 0x44), small(6, 255, 0x66)].concat();
    let second = [small(6, 1, 0x66), small(3, 0, 0xCC), small(4, 0, 0x55), small(2, 128, 0xBB)].concat();
    let merged =
        [small(2, 1, 0xBB), small(3, 0, 0xCC), small(4, 0, 0x44), small(6, 1, 0x66), small(200, 1, 0x11)].concat();
    in_rooms(compare, &first, &second);
    let mut out = vec![0; merged.len()];
    let answer = library_merge(&first, &second, &mut out);
    compare.claim("each number's copy is taken, in order", out == merged);
    compare.claim("sectors and bytes are counted", answer == Answer { count: 5, used: 5 * 131, ..ACCEPTED });
    let odd = [small(9, 0, 0), small(7, 0, 0), small(9, 0, 0), small(7, 0, 0), small(2, 1, 0xEE)].concat();
    for (other, place) in [(&second, 2), (&first, 7)] {
        compare.merge(&odd, other, 2_000);
        let refused = library_merge(&odd, other, &mut []);
        compare.claim("the lowest number at odds", refused == Answer { number: 17, place, ..ACCEPTED });
    }
}

/// One number: absent or in any form in the first set, and so in the second; a neighbour on each side.
pub fn every_choice(compare: &mut Compare, random: &mut Random) {
    let long = random.bytes(256);
    let mut copies = vec![None];
    for sum in [0, 1, 255] {
        // alike, another first or last byte, and a longer one with the same beginning
        for (code, change) in [(0, None), (0, Some(0)), (0, Some(127)), (1, None), (1, Some(255)), (1, Some(128))] {
            let mut data = long[..SIZES[usize::from(code)]].to_vec();
            if let Some(place) = change {
                data[place] ^= 1 << random.between(0, 7);
            }
            copies.push(Some([vec![7, code, sum], data].concat()));
        }
    }
    let neighbours = [sector(8, 0, true, random).bytes(), sector(6, 0, false, random).bytes()];
    for a in &copies {
        for b in &copies {
            let [first, second] = [a, b].map(|copy| copy.clone().unwrap_or_default());
            in_rooms(compare, &first, &second);
            in_rooms(compare, &[neighbours[0].clone(), first].concat(), &[second, neighbours[1].clone()].concat());
        }
    }
    // SAFETY: the lengths of the null pointers are 0
    let answer = unsafe { ism_merge(std::ptr::null(), 0, std::ptr::null(), 0, std::ptr::null_mut(), 0) };
    compare.claim("two empty sets are an empty set", answer == ACCEPTED);
}

/// Sets of 0 to 34 sectors each, none, some or all of their numbers in common.
pub fn every_size(compare: &mut Compare, random: &mut Random) {
    for n in 0..=34 {
        for m in 0..=34 {
            let some = random.between(0, n.min(m) as u64) as usize;
            let common = random.pick(&[0, n.min(m), some]);
            let all = numbers(n + m - common, random);
            let first = sectors(&all[..n], random);
            let mut second = sectors(&all[n - common..], random);
            agree_mostly(&first, &mut second, random);
            let [first, second] = [&first, &second].map(|set| set_of(set, random));
            let room = random.room(exact_room(&first, &second));
            compare.merge(&first, &second, room);
        }
    }
}

/// The largest sets: 32 sectors of code 3 in each, and a 33rd.
pub fn largest(compare: &mut Compare, random: &mut Random) {
    let mut full: Vec<Sector> = Vec::new();
    for number in numbers(MOST_SECTORS, random) {
        full.push(sector(number, 3, true, random));
    }
    let set = set_of(&full, random);
    full.reverse();
    let backwards = set_of(&full, random);
    in_rooms(compare, &set, &backwards);
    in_rooms(compare, &set, &[]);
    in_rooms(compare, &[], &backwards);
    // a 33rd number in the other set; one twice; one with a misfit behind it
    let new = (0..=255).find(|number| full.iter().all(|s| s.number != *number)).expect("more than 32 numbers");
    for more in [sector(new, 0, true, random), full[0].clone()] {
        in_rooms(compare, &set, &more.bytes());
        in_rooms(compare, &[set.clone(), more.bytes()].concat(), &[]);
        in_rooms(compare, &[], &[more.bytes(), set.clone()].concat());
        in_rooms(compare, &[set.clone(), more.bytes(), vec![0, 4, 0]].concat(), &set);
    }
}

/// Two good copies of a sector of each size, one bit of the second changed: at the front, at the end or anywhere.
pub fn one_bit_apart(compare: &mut Compare, random: &mut Random) {
    for code in 0..=3 {
        let size = SIZES[usize::from(code)];
        let anywhere = [(); 40].map(|_| random.index(size));
        for place in [0, size - 1].into_iter().chain(anywhere) {
            let first = sector(random.byte(), code, true, random);
            let mut second = first.clone();
            second.data[place] ^= 1 << random.between(0, 7);
            compare.merge(&first.bytes(), &second.bytes(), 3 + size);
            second.holds = false;
            compare.merge(&first.bytes(), &second.bytes(), 3 + size);
            compare.merge(&second.bytes(), &first.bytes(), 3 + size);
        }
    }
}

/// Sets that do not parse to their end, alone and as the other set, short and beyond the 32nd sector.
pub fn misfits(compare: &mut Compare, random: &mut Random) {
    for count in [0, 1, 31, 32, 33, 40] {
        let whole = set_of(&sectors(&numbers(count, random), random), random);
        let next = sector(random.byte(), 0, true, random).bytes();
        let code = |code: u8| [vec![next[0], code], next[2..].to_vec()].concat();
        let mut tails: Vec<Vec<u8>> = [4, 5, 128, 255].map(code).to_vec();
        tails.extend([0, 1, 2, 3, 4, 130].map(|length| next[..length].to_vec()));
        tails.extend([[next.clone(), vec![9]].concat(), [next.clone(), vec![9, 0]].concat(), code(1), code(3)]);
        for tail in tails {
            let set = [whole.clone(), tail].concat();
            in_rooms(compare, &set, &[]);
            in_rooms(compare, &[], &set);
            compare.merge(&whole, &set, 40_000);
            compare.merge(&set, &whole, 40_000);
        }
    }
}

/// Every combination of 13, 15, 17 and 9 at once.
pub fn faults(compare: &mut Compare, random: &mut Random) {
    const MISFIT: u32 = 0;
    const CROWDED: u32 = 1;
    const AT_ODDS: u32 = 2;
    const FULL: u32 = 3;
    for faults in (0..1 << 4).map(Faults) {
        for _ in 0..60 {
            let mut sets = fitting_sets(random);
            if faults.has(AT_ODDS) {
                (0..random.between(1, 4)).for_each(|_| put_at_odds(&mut sets, random));
            }
            if faults.has(CROWDED) {
                crowd(&mut sets, random);
            }
            let mut lists = sets.map(|set| set_of(&set, random));
            if faults.has(MISFIT) {
                let which = random.index(2);
                lists[which].extend(random.pick(&[vec![1], vec![1, 0], vec![1, 0, 1, 0], vec![1, 4, 0]]));
            }
            let room = room_with(faults.has(FULL), exact_room(&lists[0], &lists[1]), random);
            compare.merge(&lists[0], &lists[1], room);
        }
    }
}

/// Random sets of few numbers, so that most are in both; a number is now and then in a set twice.
pub fn random_sets(compare: &mut Compare, random: &mut Random) {
    for _ in 0..4_000 {
        let pool = numbers(7, random);
        let sets = [(); 2].map(|_| {
            let mut some: Vec<u8> = pool.iter().copied().filter(|_| random.one_in(2)).collect();
            if random.one_in(9) && !some.is_empty() {
                some.push(random.pick(&some));
            }
            sectors(&some, random)
        });
        let [first, mut second] = sets;
        agree_mostly(&first, &mut second, random);
        let [first, second] = [&first, &second].map(|set| set_of(set, random));
        let room = random.room(exact_room(&first, &second));
        compare.merge(&first, &second, room);
    }
}
