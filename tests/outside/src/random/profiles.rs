//! Random profiles: true ones with pairs of every kind, and ones that are refused.

use super::Random;
use crate::cases::{APART, HALFWAY, OVERLAP, PAIRED, REVERSED, WORKED};
use crate::paper::{rooms, Eleven};

impl Random {
    /// A true profile; windows and precompensation reach their ends often. Its pairs are equal, differ by any number in
    /// either direction, or are those of a fixed profile.
    pub fn true_profile(&mut self) -> Eleven {
        if self.one_in(16) {
            return self.pick(&[WORKED, PAIRED, HALFWAY, REVERSED, APART, OVERLAP]);
        }
        let points = self.points();
        let equal = self.one_in(4);
        let t1 = self.between_with_edges(2 * (points[2] - points[0]) + 1, 1023);
        let t0 = self.between_with_edges(least_t0(points, equal), 1023);
        self.windows(t1, t0, points, equal)
    }

    /// As `true_profile`, each B23 and each B34 one number for both kinds of cell before.
    pub fn equal_profile(&mut self) -> Eleven {
        let points = self.points();
        let least = 2 * (points[2] - points[0]) + 1;
        let t1 = self.between_with_edges(least, 1023);
        let t0 = self.between_with_edges(least, 1023);
        self.windows(t1, t0, points, true)
    }

    /// As `true_profile`, with T1 twice T0.
    pub fn even_profile(&mut self) -> Eleven {
        let points = self.points();
        let equal = self.one_in(4);
        let least = least_t0(points, equal).max(points[2] - points[0] + 1);
        let t0 = self.between_with_edges(least, 511);
        self.windows(2 * t0, t0, points, equal)
    }

    /// Early, Normal, Late.
    fn points(&mut self) -> [u64; 3] {
        let early = self.between_with_edges(0, 15);
        let late = self.between_with_edges(early, 15);
        [early, self.between_with_edges(early, late), late]
    }

    /// The profile with windows for these lengths.
    fn windows(&mut self, t1: u64, t0: u64, [early, normal, late]: [u64; 3], equal: bool) -> Eleven {
        let (e, l) = (2 * (normal - early), 2 * (late - normal));
        let d = e + l;
        let min = self.between_with_edges(1, t1 - d);
        let rpt = self.between_with_edges(t1 + 2 * t0 + d + 1, 4095);
        let [b23_short, b23_long, b34_short, b34_long] = if equal {
            let b23 = self.between_with_edges(t1 + 1, t1 + t0);
            let b34 = self.between_with_edges(t1 + t0 + d + 1, t1 + 2 * t0);
            [b23, b23, b34, b34]
        } else {
            [
                self.between_with_edges(t1 + 1, t1 + t0 + e),
                self.between_with_edges(t1 - l + 1, t1 + t0),
                self.between_with_edges(t1 + t0 + d + 1, t1 + 2 * t0 + e),
                self.between_with_edges(t1 + t0 + l + 1, t1 + 2 * t0),
            ]
        };
        let numbers = [t1, t0, early, normal, late, min, b23_short, b23_long, b34_short, b34_long, rpt];
        numbers.map(|number| number as u16)
    }

    /// A profile in range of which one side of an edge fails by a little, or the points are out of order.
    pub fn crossed_profile(&mut self) -> Eleven {
        let mut eleven = self.true_profile();
        let by = 1 + self.between(0, 2) as i64;
        match self.between(0, 12) {
            10 => eleven.swap(2, 4),
            11 => eleven[3] = self.between(0, 15) as u16,
            12 => eleven.swap(3, 4),
            side => {
                let (which, last) = last_on_side(&eleven, side as usize);
                let outwards = if EDGE_SIDES[side as usize].1 { by } else { -by };
                eleven[which] = (last + outwards).max(1) as u16;
            }
        }
        eleven
    }

    /// Some of the eleven numbers out of range, at the edges or far off.
    pub fn unset_profile(&mut self) -> Eleven {
        let mut eleven = if self.one_in(2) { self.true_profile() } else { self.crossed_profile() };
        for _ in 0..self.between(1, 3) {
            let which = self.index(11);
            eleven[which] = match which {
                2..=4 => self.pick(&[16, 17, 255, 256, 65535]),
                0 | 1 => self.pick(&[0, 1024, 1025, 65535]),
                _ => self.pick(&[0, 4096, 4097, 65535]),
            };
        }
        eleven
    }

    /// Eleven numbers with no plan, in range or nearly so.
    pub fn any_profile(&mut self) -> Eleven {
        let most = [1024, 1024, 16, 16, 16, 4096, 4096, 4096, 4096, 4096, 4096];
        most.map(|m| self.between_with_edges(0, m) as u16)
    }
}

/// The least T0 for which windows can be drawn: a B34 that serves both kinds of cell before needs more.
fn least_t0([early, normal, late]: [u64; 3], equal: bool) -> u64 {
    2 * (late - if equal { early } else { normal }) + 1
}

/// The ten sides of an edge in the order of `paper::rooms`: which number of the profile the edge is, and whether the
/// lengths on that side bound it from above.
pub const EDGE_SIDES: [(usize, bool); 10] = [
    (5, true),
    (6, false),
    (6, true),
    (7, false),
    (7, true),
    (8, false),
    (8, true),
    (9, false),
    (9, true),
    (10, false),
];

/// A number of a profile, and the last value that it can have at this side before the profile is crossed.
pub fn last_on_side(eleven: &Eleven, side: usize) -> (usize, i64) {
    let (which, from_above) = EDGE_SIDES[side];
    let room = rooms(eleven)[side];
    let number = i64::from(eleven[which]);
    (which, if from_above { number + room } else { number - room })
}
