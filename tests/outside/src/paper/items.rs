//! Items, written bytes and the check register.

use super::{refuse, Refused};

pub const CHECK_ORDER: u16 = 512;

/// A byte as it goes to the disk.
#[derive(Clone, Copy, Debug, PartialEq, Eq)]
pub struct Written {
    pub byte: u8,
    pub mark: bool,
}

impl Written {
    pub fn item(self) -> u16 {
        u16::from(self.byte) + if self.mark { 256 } else { 0 }
    }
}

pub fn is_mark(item: u16) -> bool {
    [0x1A1, 0x1C2].contains(&item)
}

pub fn is_item(number: u16) -> bool {
    number < 256 || is_mark(number) || number == CHECK_ORDER
}

/// How many written bytes a list counts, whether its numbers are items or not.
pub fn written_count(items: &[u16]) -> usize {
    items.len() + items.iter().filter(|i| **i == CHECK_ORDER).count()
}

/// The CRC register, one bit for each power of x from 15 down to 0.
#[derive(Clone, Debug, PartialEq, Eq)]
pub struct Register {
    bits: Vec<bool>,
    after_mark: bool,
}

impl Register {
    pub fn all_ones() -> Self {
        Register { bits: vec![true; 16], after_mark: false }
    }

    /// Passes one byte through; a mark byte that does not follow a mark byte finds all ones.
    pub fn pass(&mut self, w: Written) {
        if w.mark && !self.after_mark {
            self.bits = vec![true; 16];
        }
        self.after_mark = w.mark;
        for bit in format!("{:08b}", w.byte).chars() {
            self.shift(bit == '1');
        }
    }

    fn shift(&mut self, bit: bool) {
        let feedback = self.bits.remove(0) != bit;
        self.bits.push(false);
        for power in [12, 5, 0] {
            self.bits[15 - power] ^= feedback;
        }
    }

    pub fn value(&self) -> u16 {
        self.bits.iter().fold(0, |value, bit| 2 * value + u16::from(*bit))
    }
}

/// The register after a string of data bytes.
pub fn crc_of(bytes: &[u8]) -> u16 {
    let mut register = Register::all_ones();
    for byte in bytes {
        register.pass(Written { byte: *byte, mark: false });
    }
    register.value()
}

/// The data and mark bytes of a list of items, each check order turned into two bytes.
pub fn written_bytes(items: &[u16]) -> Vec<Written> {
    let mut register = Register::all_ones();
    let mut written = Vec::new();
    for item in items {
        let bytes = match *item {
            CHECK_ORDER => register.value().to_be_bytes().map(|byte| Written { byte, mark: false }).to_vec(),
            other => vec![Written { byte: (other % 256) as u8, mark: is_mark(other) }],
        };
        bytes.iter().for_each(|w| register.pass(*w));
        written.extend(bytes);
    }
    written
}

/// Refusals 4 and 3, for a limit of so many written bytes.
pub fn check_items(items: &[u16], most: usize) -> Result<(), Refused> {
    if items.len() > most || written_count(items) > most {
        return refuse(4, 0);
    }
    match items.iter().position(|i| !is_item(*i)) {
        Some(place) => refuse(3, place),
        None => Ok(()),
    }
}
