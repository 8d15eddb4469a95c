//! Inputs with every combination of faults at once: the paper's order says which is answered.

use crate::compare::Compare;
use crate::paper::{classes, stream_of, written_count, Eleven, CHECK_ORDER, LOCK_ENDS, MOST_BYTES, MOST_INTERVALS};
use crate::random::Random;

/// A choice among the faults of a function, one bit for each.
#[derive(Clone, Copy)]
pub struct Faults(pub u32);

impl Faults {
    pub fn has(self, which: u32) -> bool {
        self.0 & (1 << which) != 0
    }
}

pub const UNSET: u32 = 0;
pub const CROSSED: u32 = 1;

pub fn profile_with(faults: Faults, random: &mut Random) -> Eleven {
    match (faults.has(UNSET), faults.has(CROSSED)) {
        (true, false) => random.unset_profile(),
        (false, false) => random.true_profile(),
        (false, true) => random.crossed_profile(),
        (true, true) => {
            let mut eleven = random.crossed_profile();
            eleven[random.index(11)] = 5000;
            eleven
        }
    }
}

/// A true profile to build intervals with, whatever profile the call gets.
pub fn building_profile(eleven: &Eleven, random: &mut Random) -> Eleven {
    if crate::paper::check_profile(eleven).is_ok() {
        *eleven
    } else {
        random.true_profile()
    }
}

/// A room for so many elements, or too short a one.
pub fn room_with(short: bool, exact: usize, random: &mut Random) -> usize {
    match (short, random.one_in(2)) {
        (true, true) => 0,
        (true, false) => exact.saturating_sub(1),
        (false, _) => exact + random.between(0, 2) as usize,
    }
}

pub fn writer(compare: &mut Compare, random: &mut Random) {
    const OVERLONG: u32 = 2;
    const FOREIGN: u32 = 3;
    const FULL: u32 = 4;
    for faults in (0..1 << 5).map(Faults) {
        for _ in 0..40 {
            let eleven = profile_with(faults, random);
            let length = random.between(1, 30) as usize;
            let mut items = random.items(length);
            if faults.has(OVERLONG) {
                let filler = if random.one_in(2) { 0x4E } else { CHECK_ORDER };
                items.extend(vec![filler; MOST_BYTES]);
            }
            let exact = if faults.has(OVERLONG) { 200 } else { 8 * written_count(&items) + 2 };
            if faults.has(FOREIGN) {
                items[random.index(length)] = random.foreign();
                *items.last_mut().expect("at least one item") = random.foreign();
            }
            let room = if faults.has(FULL) { room_with(true, exact / 3, random) } else { exact };
            compare.write(&eleven, &items, room);
        }
    }
}

pub fn reader(compare: &mut Compare, random: &mut Random) {
    const MANY_INTERVALS: u32 = 2;
    const NARROW: u32 = 3;
    const WIDE: u32 = 4;
    const RAGGED: u32 = 5;
    const MANY_BYTES: u32 = 6;
    const STRAY: u32 = 7;
    const FULL: u32 = 8;
    for faults in (0..1 << 9).map(Faults) {
        let long = faults.has(MANY_INTERVALS) || faults.has(MANY_BYTES);
        for _ in 0..if long { 2 } else { 30 } {
            let eleven = profile_with(faults, random);
            let building = building_profile(&eleven, random);
            let mut items = vec![0x00];
            let length = random.between(0, 8) as usize;
            items.extend(random.items(length));
            if faults.has(MANY_BYTES) {
                items.extend(vec![0xAA; MOST_BYTES]);
            }
            let mut letters = classes(&building, &stream_of(&building, &items));
            if faults.has(MANY_INTERVALS) {
                letters.insert_str(0, &"2".repeat((MOST_INTERVALS + 6) / 8 * 8));
            }
            if faults.has(STRAY) {
                put_gap_in_first_byte(&mut letters, random);
            }
            if faults.has(RAGGED) {
                make_ragged(&mut letters, random);
            }
            let intervals = with_faulty_intervals(&building, &letters, faults.has(NARROW), faults.has(WIDE), random);
            let room = room_with(faults.has(FULL), written_count(&items).min(MOST_BYTES), random);
            compare.read(&eleven, &intervals, room);
        }
    }
}

/// The stream begins with a byte 00: two of its cells of 2 become one gap, the bits stay as they are.
fn put_gap_in_first_byte(letters: &mut String, random: &mut Random) {
    let place = random.index(7);
    assert_eq!(&letters[place..place + 2], "22");
    letters.replace_range(place..place + 2, "4");
}

/// A surplus of bits, or a last bit 1.
fn make_ragged(letters: &mut String, random: &mut Random) {
    if letters.ends_with('3') && random.one_in(2) {
        letters.pop();
        letters.push('2');
    } else {
        letters.push_str(&"2".repeat(random.between(1, 7) as usize));
    }
}

fn with_faulty_intervals(eleven: &Eleven, letters: &str, narrow: bool, wide: bool, random: &mut Random) -> Vec<u16> {
    let mut intervals = random.intervals(eleven, letters);
    let first = random.index(intervals.len());
    let second = (first + 1 + random.index(intervals.len() - 1)) % intervals.len();
    if narrow {
        intervals[first] = random.interval(eleven, 'n');
    }
    if wide {
        intervals[second] = random.interval(eleven, 'w');
    }
    intervals
}

pub fn finder(compare: &mut Compare, random: &mut Random) {
    const ADRIFT: u32 = 2;
    for faults in (0..1 << 3).map(Faults) {
        for _ in 0..60 {
            let eleven = profile_with(faults, random);
            let building = building_profile(&eleven, random);
            let sync = if faults.has(ADRIFT) { 63 } else { 64 };
            let letters = "4".to_string() + &"2".repeat(sync) + random.pick(&LOCK_ENDS);
            let intervals = random.intervals(&building, &letters);
            compare.find(&eleven, &intervals, random.between(0, 1));
        }
    }
}

pub fn field(compare: &mut Compare, random: &mut Random) {
    const MISCOUNT: u32 = 2;
    const NARROW: u32 = 3;
    const WIDE: u32 = 4;
    const SHORT: u32 = 5;
    const STRAY: u32 = 6;
    const FULL: u32 = 7;
    for faults in (0..1 << 8).map(Faults) {
        for _ in 0..40 {
            let eleven = profile_with(faults, random);
            let building = building_profile(&eleven, random);
            let mut items = vec![0x00];
            let length = random.between(0, 8) as usize;
            items.extend(random.items(length));
            let mut letters = classes(&building, &stream_of(&building, &items));
            if faults.has(STRAY) {
                put_gap_in_first_byte(&mut letters, random);
            }
            if faults.has(SHORT) {
                letters.truncate(letters.len() - random.between(3, 6) as usize);
            }
            let intervals = with_faulty_intervals(&building, &letters, faults.has(NARROW), faults.has(WIDE), random);
            let bytes = written_count(&items) as u64;
            let room = room_with(faults.has(FULL), bytes as usize, random);
            let bytes = if faults.has(MISCOUNT) { random.pick(&[0, 1031, (1 << 32) + 1, u64::MAX]) } else { bytes };
            compare.field(&eleven, &intervals, bytes, room);
        }
    }
}

pub fn maker(compare: &mut Compare, random: &mut Random) {
    const CODE_0: u32 = 0;
    const MISFIT: u32 = 1;
    const FULL: u32 = 2;
    for faults in (0..1 << 3).map(Faults) {
        for _ in 0..60 {
            let code = if faults.has(CODE_0) { 0 } else { random.between(1, 3) as u8 };
            let size = 128 << code;
            let length = if faults.has(MISFIT) { random.pick(&[0, size - 1, size + 1, 2 * size]) } else { size };
            let data = random.bytes(length);
            let room = room_with(faults.has(FULL), size + 114, random);
            compare.sector([random.byte(), random.byte(), random.byte(), code], &data, room);
        }
    }
}

/// A narrow or a wide interval at each place of a stream of some hundred, alone and before another one, for the strip
/// reader and for fields that end about it: what comes after a field's intervals is not looked at.
pub fn at_each_place(compare: &mut Compare, random: &mut Random) {
    for _ in 0..6 {
        let eleven = random.true_profile();
        let items = random.items(40);
        let stream = stream_of(&eleven, &items);
        let written = written_count(&items);
        for place in 0..stream.len() {
            let mut changed = stream.clone();
            let letter = random.pick(&['n', 'w']);
            changed[place] = random.interval(&eleven, letter);
            if random.one_in(3) {
                let later = place + random.index(stream.len() - place);
                let letter = random.pick(&['n', 'w', '4']);
                changed[later] = random.interval(&eleven, letter);
            }
            compare.read(&eleven, &changed, written);
            let before = (place as u64 * written as u64 / stream.len() as u64).max(1);
            for bytes in [before.saturating_sub(1).max(1), before, before + 1, before + 2] {
                compare.field(&eleven, &changed, bytes, written + 2);
            }
        }
    }
}
