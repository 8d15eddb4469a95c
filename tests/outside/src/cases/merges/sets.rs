//! Sets of sectors for the merge, fitting and with faults put in.

use crate::paper::merge::Sector;
use crate::random::Random;

pub const SIZES: [usize; 4] = [128, 256, 512, 1024];

/// A set of sectors as a list of bytes. A sum that holds is any number but 0.
pub fn set_of(sectors: &[Sector], random: &mut Random) -> Vec<u8> {
    let mut bytes = Vec::new();
    for sector in sectors {
        let mut more = sector.bytes();
        if sector.holds {
            more[2] = random.pick(&[1, 1, 2, 127, 128, 254, 255]);
        }
        bytes.extend(more);
    }
    bytes
}

pub fn sector(number: u8, code: u8, holds: bool, random: &mut Random) -> Sector {
    Sector { number, code, holds, data: random.bytes(SIZES[usize::from(code)]) }
}

/// Small sectors of different numbers without an order.
pub fn sectors(numbers: &[u8], random: &mut Random) -> Vec<Sector> {
    let mut made = Vec::new();
    for number in numbers {
        let code = if random.one_in(12) { random.between(1, 3) as u8 } else { 0 };
        let holds = random.one_in(2);
        made.insert(random.index(made.len() + 1), sector(*number, code, holds, random));
    }
    made
}

/// So many different numbers.
pub fn numbers(count: usize, random: &mut Random) -> Vec<u8> {
    let mut all: Vec<u8> = (0..=255).collect();
    (0..count).map(|_| all.swap_remove(random.index(all.len()))).collect()
}

/// Where both sums hold and `choose` says so, the second copy becomes the first.
fn agree(first: &[Sector], second: &mut [Sector], mut choose: impl FnMut(&Sector) -> bool) {
    for other in second {
        let same = first.iter().find(|one| one.number == other.number && one.holds && other.holds);
        if let Some(one) = same.filter(|one| choose(one)) {
            *other = one.clone();
        }
    }
}

/// Copies with good sums agree, but for one in thirty.
pub fn agree_mostly(first: &[Sector], second: &mut [Sector], random: &mut Random) {
    agree(first, second, |_| !random.one_in(30));
}

/// Two sets with at least two numbers each, some in common, that can be merged.
pub fn fitting_sets(random: &mut Random) -> [Vec<Sector>; 2] {
    let all = numbers(12, random);
    let first = sectors(&all[..random.between(2, 8) as usize], random);
    let mut second = sectors(&all[random.between(0, 8) as usize..], random);
    agree(&first, &mut second, |_| true);
    [first, second]
}

/// A number twice in one set, or in both with good sums and unlike bytes.
pub fn put_at_odds(sets: &mut [Vec<Sector>; 2], random: &mut Random) {
    let from = random.index(2);
    let chosen = random.index(sets[from].len());
    if random.one_in(2) {
        let again = Sector { holds: random.one_in(2), ..sets[from][chosen].clone() };
        sets[from].push(again);
    } else {
        sets[from][chosen].holds = true;
        let number = sets[from][chosen].number;
        sets[1 - from].retain(|sector| sector.number != number);
        let code = random.between(0, 1) as u8;
        sets[1 - from].insert(0, sector(number, code, true, random));
    }
}

/// More than 32 sectors in the first set, in the second, or in different numbers of both.
pub fn crowd(sets: &mut [Vec<Sector>; 2], random: &mut Random) {
    let new: Vec<u8> =
        numbers(100, random).into_iter().filter(|n| sets.iter().flatten().all(|s| s.number != *n)).collect();
    let halves = [(33, 0), (0, 33), (17, 16)];
    let (a, b) = random.pick(&halves);
    sets[0].extend(sectors(&new[..a], random));
    sets[1].extend(sectors(&new[a..a + b], random));
}
