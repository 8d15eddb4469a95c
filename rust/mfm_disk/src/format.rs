//! The containers that emulators take, told by the ending of a file's name.

use std::path::Path;

use ism::Profile;

use crate::disk::Disk;
use crate::{dmk, hfe, mfm};

/// A container of tracks.
#[derive(Clone, Copy, Debug, PartialEq, Eq)]
pub enum Format {
    Hfe,
    Mfm,
    Dmk,
}

impl Format {
    /// The container of a file name; none is a raw image.
    pub fn of(path: &Path) -> Option<Format> {
        match path.extension()?.to_str()?.to_ascii_lowercase().as_str() {
            "hfe" => Some(Format::Hfe),
            "mfm" => Some(Format::Mfm),
            "dmk" => Some(Format::Dmk),
            _ => None,
        }
    }

    /// Its name.
    pub fn name(self) -> &'static str {
        match self {
            Format::Hfe => "HFE",
            Format::Mfm => "HxC MFM",
            Format::Dmk => "DMK",
        }
    }

    /// The disk of a file.
    pub fn parse(self, file: &[u8]) -> Result<Disk, String> {
        match self {
            Format::Hfe => hfe::parse(file),
            Format::Mfm => mfm::parse(file),
            Format::Dmk => dmk::parse(file),
        }
    }

    /// The file of a disk. The profile is for DMK, whose bytes begin where the library finds locks.
    pub fn build(self, disk: &Disk, profile: Profile) -> Result<Vec<u8>, String> {
        match self {
            Format::Hfe => hfe::build(disk),
            Format::Mfm => mfm::build(disk),
            Format::Dmk => {
                let tracks: Vec<_> = disk.turns.iter().map(|turn| dmk::decode(turn, profile)).collect();
                dmk::build(disk.sides, &tracks)
            }
        }
    }
}

#[cfg(test)]
mod tests {
    use super::*;

    #[test]
    fn the_ending_tells_the_container() {
        let of = |name: &str| Format::of(Path::new(name));
        assert_eq!(
            [of("a.hfe"), of("b/c.MFM"), of("d.dmk")],
            [Some(Format::Hfe), Some(Format::Mfm), Some(Format::Dmk)]
        );
        assert_eq!([of("a.img"), of("hfe"), of("a.hfe.gz"), of(".hfe")], [None; 4]);
    }
}
