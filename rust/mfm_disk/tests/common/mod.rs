//! What the tests share: random bytes, disks made from them, and the way back.
#![allow(dead_code)]

use mfm_disk::assemble::{assemble, Image};
use mfm_disk::disk::{Disk, Turn};
use mfm_disk::format::Format;
use mfm_disk::geometry::{Geometry, Wanted};
use mfm_disk::make;
use mfm_disk::read::{profile_of, read_disk};

pub const FORMATS: [Format; 3] = [Format::Hfe, Format::Mfm, Format::Dmk];

/// Random numbers that are the same on each run.
pub struct Random(pub u64);

impl Random {
    pub fn next(&mut self) -> u64 {
        self.0 ^= self.0 << 13;
        self.0 ^= self.0 >> 7;
        self.0 ^= self.0 << 17;
        self.0.wrapping_mul(0x2545_F491_4F6C_DD1D)
    }

    pub fn below(&mut self, limit: usize) -> usize {
        (self.next() >> 11) as usize % limit
    }

    pub fn bytes(&mut self, count: usize) -> Vec<u8> {
        (0..count).map(|_| (self.next() >> 56) as u8).collect()
    }
}

/// A random raw image and its disk.
pub fn random_disk(random: &mut Random, geometry: &Geometry) -> (Vec<u8>, Disk) {
    let image = random.bytes(geometry.image_bytes());
    let disk = make::disk_of(geometry, &image).expect("a geometry that fits");
    (image, disk)
}

/// The geometry and the raw image that a disk gives by itself.
pub fn image_of(disk: &Disk) -> Option<(Geometry, Image)> {
    let read = read_disk(disk, profile_of(disk, None), "");
    let geometry = Geometry::found(&[&read], Wanted::default())?;
    Some((geometry, assemble(&geometry, &[&read])))
}

/// The turn begun so many half cells later.
pub fn begun_later(turn: &Turn, half_cells: usize) -> Turn {
    let half_cells = half_cells % turn.len();
    let words = (0..turn.cells.len()).map(|i| turn.word((half_cells + 8 * i) % turn.len()));
    Turn::of(words.map(|word| (word >> 8) as u8).collect())
}
