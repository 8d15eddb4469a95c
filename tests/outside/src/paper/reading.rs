//! Strip reader, finder and field reader.

use super::{check_profile, class_letter, classes, ends_short, fit, least_clearance, refuse};
use super::{Eleven, Refused, Register, Written, MOST_BYTES, MOST_FIELD_BYTES, MOST_INTERVALS};

/// Bits as read, and each mark's gap with the bit at which it starts and the interval that gave it.
#[derive(Default)]
struct Reading {
    bits: String,
    gaps: Vec<(usize, usize)>,
}

impl Reading {
    /// Takes the interval at `place`, of class `letter`.
    fn take(&mut self, letter: char, place: usize) {
        let last = self.bits.chars().last().unwrap_or('0');
        if (last, letter) == ('0', '4') {
            self.gaps.push((self.bits.len(), place));
        }
        self.bits.push_str(match (last, letter) {
            ('0', '2') => "0",
            ('0', '3') => "01",
            ('0', '4') => "00",
            ('1', '2') => "1",
            ('1', '3') => "0",
            ('1', '4') => "01",
            _ => panic!("class {letter} gives no bits"),
        });
    }

    /// The first `n` bytes behind the lead 0, or the lowest interval whose gap is in none of their proper places.
    fn bytes(&self, n: usize) -> Result<Vec<Written>, Refused> {
        let text = |byte: usize| &self.bits[1 + 8 * byte..9 + 8 * byte];
        let mut written: Vec<Written> = Vec::new();
        for byte in 0..n {
            let value = u8::from_str_radix(text(byte), 2).expect("eight bits");
            written.push(Written { byte: value, mark: false });
        }
        for (start, place) in &self.gaps {
            let proper = |byte: usize| match written[byte].byte {
                0xA1 => 1 + 8 * byte + 4 == *start,
                0xC2 => 1 + 8 * byte + 3 == *start,
                _ => false,
            };
            match start.checked_sub(1).map(|bit| bit / 8) {
                Some(byte) if byte < n && proper(byte) => written[byte].mark = true,
                _ => return refuse(8, *place),
            }
        }
        Ok(written)
    }
}

fn items_of(written: &[Written]) -> Vec<u16> {
    written.iter().map(|w| w.item()).collect()
}

/// Refusals 5 and 6 for one interval.
fn check_letter(letter: char, place: usize) -> Result<(), Refused> {
    match letter {
        'n' => refuse(5, place),
        'w' => refuse(6, place),
        _ => Ok(()),
    }
}

/// The strip reader.
pub fn read(eleven: &Eleven, intervals: &[u16], room: usize) -> Result<Vec<u16>, Refused> {
    check_profile(eleven)?;
    if intervals.len() > MOST_INTERVALS {
        return refuse(4, 0);
    }
    let letters = classes(eleven, intervals);
    for (place, letter) in letters.chars().enumerate() {
        check_letter(letter, place)?;
    }
    let mut reading = Reading::default();
    letters.chars().enumerate().for_each(|(place, letter)| reading.take(letter, place));
    if reading.bits.len() % 8 != 2 || reading.bits.ends_with('1') {
        return refuse(7, 0);
    }
    let n = reading.bits.len() / 8;
    if n > MOST_BYTES {
        return refuse(4, 0);
    }
    fit(items_of(&reading.bytes(n)?), room)
}

/// The classes behind the 64 of a lock: those of a mark A1, or those of two marks C2 (request (ii)).
pub const LOCK_ENDS: [&str; 2] = ["34343", "3234342343"];

/// The smallest place at which a lock stands in a list, classed from its beginning on as far as that place needs.
pub fn first_lock(eleven: &Eleven, intervals: &[u16]) -> Option<usize> {
    let locks = LOCK_ENDS.map(|end| "2".repeat(64) + end);
    let mut letters = String::new();
    for interval in intervals {
        letters.push(class_letter(eleven, ends_short(&letters), i64::from(*interval)));
        // no lock ends within the end of another: its 64 would have to stand there
        if let Some(lock) = locks.iter().find(|lock| letters.ends_with(*lock)) {
            return Some(letters.len() - lock.len() + 64);
        }
    }
    None
}

/// The finder. A search begins anew at its start: it is one of the rest of the list.
pub fn find(eleven: &Eleven, intervals: &[u16], start: u64) -> Result<u64, Refused> {
    check_profile(eleven)?;
    let rest = usize::try_from(start).ok().and_then(|start| intervals.get(start..));
    match rest.and_then(|rest| first_lock(eleven, rest)) {
        Some(place) => Ok(start + place as u64),
        None => refuse(10, 0),
    }
}

/// What the field reader gives.
#[derive(Clone, Debug, PartialEq, Eq)]
pub struct Field {
    pub items: Vec<u16>,
    pub used: usize,
    pub holds: bool,
    pub clearance: u32,
}

/// The field reader.
pub fn read_field<N: Copy + Into<i64>>(
    eleven: &Eleven,
    intervals: &[N],
    n: u64,
    room: usize,
) -> Result<Field, Refused> {
    check_profile(eleven)?;
    if !(1..=MOST_FIELD_BYTES).contains(&n) {
        return refuse(12, 0);
    }
    let n = n as usize;
    let mut reading = Reading::default();
    let mut letters = String::new();
    while reading.bits.len() < 1 + 8 * n {
        let used = letters.len();
        let Some(interval) = intervals.get(used) else {
            return refuse(11, 0);
        };
        let letter = class_letter(eleven, ends_short(&letters), (*interval).into());
        check_letter(letter, used)?;
        reading.take(letter, used);
        letters.push(letter);
    }
    let used = letters.len();
    let written = reading.bytes(n)?;
    let mut register = Register::all_ones();
    written.iter().for_each(|w| register.pass(*w));
    let items = fit(items_of(&written), room)?;
    Ok(Field { items, used, holds: register.value() == 0, clearance: least_clearance(eleven, &intervals[..used]) })
}
