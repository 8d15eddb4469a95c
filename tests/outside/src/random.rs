//! Random numbers from a fixed seed (SplitMix64), and the random inputs that several groups of cases share.

mod profiles;

pub use profiles::{last_on_side, EDGE_SIDES};

use crate::paper::{Eleven, CHECK_ORDER};

pub struct Random {
    state: u64,
}

impl Random {
    pub fn new(seed: u64) -> Self {
        Random { state: seed }
    }

    pub fn next(&mut self) -> u64 {
        self.state = self.state.wrapping_add(0x9E37_79B9_7F4A_7C15);
        let mut z = self.state;
        z = (z ^ (z >> 30)).wrapping_mul(0xBF58_476D_1CE4_E5B9);
        z = (z ^ (z >> 27)).wrapping_mul(0x94D0_49BB_1331_11EB);
        z ^ (z >> 31)
    }

    /// A number from `least` to `most`, both included.
    pub fn between(&mut self, least: u64, most: u64) -> u64 {
        match (most - least).checked_add(1) {
            Some(count) => least + self.next() % count,
            None => self.next(),
        }
    }

    /// As `between`; one time in four an end of the range or its neighbour.
    pub fn between_with_edges(&mut self, least: u64, most: u64) -> u64 {
        let near = self.between(0, 1).min(most - least);
        match self.between(0, 7) {
            0 => least + near,
            1 => most - near,
            _ => self.between(least, most),
        }
    }

    pub fn one_in(&mut self, times: u64) -> bool {
        self.between(1, times) == 1
    }

    pub fn pick<T: Clone>(&mut self, list: &[T]) -> T {
        list[self.between(0, list.len() as u64 - 1) as usize].clone()
    }

    pub fn index(&mut self, length: usize) -> usize {
        self.between(0, length as u64 - 1) as usize
    }

    pub fn byte(&mut self) -> u8 {
        self.next() as u8
    }

    pub fn bytes(&mut self, count: usize) -> Vec<u8> {
        (0..count).map(|_| self.byte()).collect()
    }

    /// A data byte, a mark or a check order.
    pub fn item(&mut self) -> u16 {
        match self.between(0, 15) {
            0 => 0x1A1,
            1 => 0x1C2,
            2 => CHECK_ORDER,
            3..=7 => self.pick(&[0x00, 0xFF, 0xA1, 0xC2, 0x4E, 0x0A, 0x50, 0x80, 0x01, 0xAA, 0x55, 0x8B, 0xEE]),
            _ => u16::from(self.byte()),
        }
    }

    pub fn items(&mut self, count: usize) -> Vec<u16> {
        (0..count).map(|_| self.item()).collect()
    }

    /// A number that is no item.
    pub fn foreign(&mut self) -> u16 {
        let any = self.next() as u16;
        let number =
            self.pick(&[256, 257, 0x1A0, 0x1A2, 0x1C1, 0x1C3, 511, 513, 0x2A1, 0x300, 0x3A1, 1024, 65535, any]);
        if crate::paper::is_item(number) {
            256
        } else {
            number
        }
    }

    /// A short length, with 0 and 1 often among them.
    pub fn length(&mut self, most: u64) -> usize {
        let most = if self.one_in(8) { most } else { most.min(12) };
        self.between_with_edges(0, most) as usize
    }

    /// An interval of a class after class 2 or after another, often at the edge of its window.
    pub fn interval_after(&mut self, eleven: &Eleven, after_short: bool, letter: char) -> u16 {
        let [min, b23_short, b23_long, b34_short, b34_long, rpt] =
            [5, 6, 7, 8, 9, 10].map(|which| u64::from(eleven[which]));
        let (b23, b34) = if after_short { (b23_short, b34_short) } else { (b23_long, b34_long) };
        let (least, most) = match letter {
            'n' => (0, min - 1),
            '2' => (min, b23 - 1),
            '3' => (b23, b34 - 1),
            '4' => (b34, rpt - 1),
            _ => (rpt, 65535),
        };
        self.between_with_edges(least, most) as u16
    }

    /// As `interval_after`, after either.
    pub fn interval(&mut self, eleven: &Eleven, letter: char) -> u16 {
        let after_short = self.one_in(2);
        self.interval_after(eleven, after_short, letter)
    }

    /// An interval at or between the two numbers of a pair, whose class the interval before decides if they differ.
    pub fn interval_between(&mut self, [short, long]: [u16; 2]) -> u16 {
        self.between_with_edges(u64::from(short.min(long)) - 1, u64::from(short.max(long))) as u16
    }

    /// Intervals that have these classes one after the other, the first after class 2.
    pub fn intervals(&mut self, eleven: &Eleven, letters: &str) -> Vec<u16> {
        let before = "2".chars().chain(letters.chars());
        letters.chars().zip(before).map(|(letter, b)| self.interval_after(eleven, b == '2', letter)).collect()
    }

    /// A room for a result of so many elements: exact, one short, none, larger, or any.
    pub fn room(&mut self, exact: usize) -> usize {
        match self.between(0, 9) {
            0 => exact.saturating_sub(1),
            1 => 0,
            2..=4 => exact,
            5 => self.between(0, exact as u64 + 3) as usize,
            _ => exact + self.between(1, 5) as usize,
        }
    }
}
