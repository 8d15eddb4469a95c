//! A disk whose tracks were read.

use ism::{Profile, Refusal};

use crate::disk::{Disk, Place};
use crate::progress::Progress;
use crate::timing::{profile_for, Lengths};
use crate::track::{Data, Found, Window};

/// What one track gave on one side.
pub struct ReadTrack {
    pub place: Place,
    /// the sectors by number, or the library's refusal
    pub sectors: Result<Vec<Found>, Refusal>,
    /// IDs of single density, which are not read
    pub single_density: usize,
}

/// What all tracks gave, in the order of the disk.
pub struct ReadDisk {
    pub tracks: Vec<ReadTrack>,
}

impl ReadDisk {
    /// The tracks on which an ID was read.
    pub fn ids(&self) -> impl Iterator<Item = (Place, &[Found])> {
        self.tracks.iter().filter_map(|track| match &track.sectors {
            Ok(sectors) if !sectors.is_empty() => Some((track.place, sectors.as_slice())),
            _ => None,
        })
    }

    /// What was read at a track and side, if the disk has it.
    pub fn at(&self, place: Place) -> Option<&ReadTrack> {
        self.tracks.iter().find(|track| track.place == place)
    }
}

/// The profile for a disk: the one given, or one made for its cells.
pub fn profile_of(disk: &Disk, given: Option<Profile>) -> Profile {
    given.unwrap_or_else(|| profile_for(disk.rate))
}

/// Every window of a disk in its order, with the progress shown.
pub fn each_window(disk: &Disk, profile: Profile, what: &str, mut look: impl FnMut(Place, usize, Window)) {
    let lengths = Lengths::of(profile);
    let mut progress = Progress::new(what, disk.turns.len());
    for (place, turn) in disk.places() {
        progress.step(place);
        look(place, turn.single_density, Window::of(turn, profile, &lengths));
    }
}

/// The sectors of every track.
pub fn read_disk(disk: &Disk, profile: Profile, what: &str) -> ReadDisk {
    let mut tracks = Vec::with_capacity(disk.turns.len());
    each_window(disk, profile, what, |place, single_density, window| {
        tracks.push(ReadTrack { place, sectors: window.sectors(), single_density });
    });
    ReadDisk { tracks }
}

impl ReadTrack {
    /// The numbers of the sectors that only one of two tracks gives so, wherever they stand on the track.
    pub fn unlike(&self, other: &ReadTrack) -> Vec<u8> {
        let sectors = |track: &ReadTrack| track.sectors.clone().unwrap_or_default();
        let (one, two) = (sectors(self), sectors(other));
        let lacks = |some: &[Found], sector: &Found| !some.iter().any(|other| alike(sector, other));
        let here = one.iter().filter(|sector| lacks(&two, sector));
        let there = two.iter().filter(|sector| lacks(&one, sector));
        let mut numbers: Vec<u8> = here.chain(there).map(|sector| sector.id.sector).collect();
        numbers.sort_unstable();
        numbers.dedup();
        numbers
    }
}

fn alike(one: &Found, two: &Found) -> bool {
    one.id == two.id
        && match (&one.data, &two.data) {
            (Data::Own { holds: a, bytes: x, .. }, Data::Own { holds: b, bytes: y, .. }) => a == b && x == y,
            (one, two) => std::mem::discriminant(one) == std::mem::discriminant(two),
        }
}

#[cfg(test)]
mod tests {
    use super::*;
    use ism::SectorId;

    fn track(sectors: &[(u8, u8, bool)]) -> ReadTrack {
        let found = |(sector, byte, holds): &(u8, u8, bool)| Found {
            id: SectorId { track: 0, side: 0, sector: *sector, code: 0 },
            at: usize::from(*byte),
            data: Data::Own { at: 300, holds: *holds, bytes: vec![*byte; 128] },
        };
        let sectors = Ok(sectors.iter().map(found).collect());
        ReadTrack { place: Place { track: 0, side: 0 }, sectors, single_density: 0 }
    }

    #[test]
    fn tracks_differ_in_the_sectors_that_one_lacks() {
        let one = track(&[(1, 5, true), (2, 6, true), (3, 7, true), (4, 8, true)]);
        assert_eq!(one.unlike(&track(&[(1, 5, true), (2, 6, false), (4, 9, true), (5, 1, true)])), [2, 3, 4, 5]);
        assert_eq!(one.unlike(&one), []);
    }
}
