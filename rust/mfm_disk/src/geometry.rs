//! Which sectors a raw image has, and in which order: track by track, side by side, sector by sector.

use crate::disk::Place;
use crate::read::ReadDisk;
use crate::track::size_of;

/// The sectors of a disk whose tracks are all alike.
#[derive(Clone, Copy, Debug, PartialEq, Eq)]
pub struct Geometry {
    pub sides: usize,
    pub tracks: usize,
    /// sectors on a track
    pub sectors: usize,
    /// length code
    pub code: u8,
    /// the lowest sector number
    pub first: u8,
}

/// The numbers that the command line gives.
#[derive(Clone, Copy, Debug, Default, PartialEq, Eq)]
pub struct Wanted {
    pub sides: Option<usize>,
    pub tracks: Option<usize>,
    pub sectors: Option<usize>,
    pub code: Option<u8>,
    pub first: Option<u8>,
}

impl Geometry {
    /// The bytes of data in a sector.
    pub fn size(&self) -> usize {
        size_of(self.code)
    }

    /// The bytes of data on one side of a track.
    pub fn track_bytes(&self) -> usize {
        self.sectors * self.size()
    }

    /// The bytes of the raw image.
    pub fn image_bytes(&self) -> usize {
        self.sides * self.tracks * self.track_bytes()
    }

    /// The tracks and sides in the order of the raw image.
    pub fn places(&self) -> impl Iterator<Item = Place> {
        let sides = self.sides;
        (0..self.tracks * sides).map(move |i| Place { track: i / sides, side: i % sides })
    }

    /// Which sector of its track a number is, from 0.
    pub fn place_of(&self, number: u8) -> Option<usize> {
        let place = usize::from(number.checked_sub(self.first)?);
        (place < self.sectors).then_some(place)
    }

    /// The geometry that the sectors read have, the command line's numbers first: the tracks and sides up to the last
    /// with an ID, the length code that most IDs have, and the numbers that are on a quarter of the tracks at least.
    /// None where nothing was read that could say it.
    pub fn found(disks: &[&ReadDisk], wanted: Wanted) -> Option<Geometry> {
        let mut last = Place { track: 0, side: 0 };
        let (mut codes, mut formatted) = ([0_usize; 4], 0);
        for (place, sectors) in disks.iter().flat_map(|disk| disk.ids()) {
            last = Place { track: last.track.max(place.track), side: last.side.max(place.side) };
            formatted += 1;
            for sector in sectors {
                codes[usize::from(sector.id.code & 3)] += 1;
            }
        }
        let most = (0..4).max_by_key(|code| (codes[*code], *code)).filter(|code| codes[*code] > 0);
        let code = wanted.code.or(most.map(|code| code as u8))?;
        let (low, high) = numbers(disks, code, formatted).or(wanted.first.zip(wanted.first))?;
        let first = wanted.first.unwrap_or(low);
        Some(Geometry {
            sides: wanted.sides.unwrap_or(last.side + 1),
            tracks: wanted.tracks.unwrap_or(last.track + 1),
            sectors: wanted.sectors.unwrap_or(usize::from(high.saturating_sub(first)) + 1),
            code,
            first,
        })
    }
}

/// The lowest and the highest sector number of a length code that is on a quarter of the formatted tracks at least.
fn numbers(disks: &[&ReadDisk], code: u8, formatted: usize) -> Option<(u8, u8)> {
    let mut tracks = [0_usize; 256];
    for (_, sectors) in disks.iter().flat_map(|disk| disk.ids()) {
        let mut seen = [false; 256];
        for sector in sectors.iter().filter(|sector| sector.id.code == code) {
            let number = usize::from(sector.id.sector);
            tracks[number] += usize::from(!seen[number]);
            seen[number] = true;
        }
    }
    let mut common = (0..=255).filter(|number| tracks[usize::from(*number)] * 4 >= formatted.max(1));
    let low = common.next()?;
    Some((low, common.next_back().unwrap_or(low)))
}

#[cfg(test)]
mod tests {
    use super::*;
    use crate::read::ReadTrack;
    use crate::track::{Data, Found};
    use ism::SectorId;

    /// A disk whose tracks, on one side, have these sectors of these codes.
    fn disk(tracks: &[&[(u8, u8)]]) -> ReadDisk {
        let found = |track: usize, (sector, code): &(u8, u8)| Found {
            id: SectorId { track: track as u8, side: 0, sector: *sector, code: *code },
            at: 0,
            data: Data::Missing { refusal: None },
        };
        let read = |(track, sectors): (usize, &&[(u8, u8)])| ReadTrack {
            place: Place { track, side: 0 },
            sectors: Ok(sectors.iter().map(|sector| found(track, sector)).collect()),
            single_density: 0,
        };
        ReadDisk { tracks: tracks.iter().enumerate().map(read).collect() }
    }

    fn found(tracks: &[&[(u8, u8)]], wanted: Wanted) -> Option<Geometry> {
        Geometry::found(&[&disk(tracks)], wanted)
    }

    #[test]
    fn what_most_tracks_have_decides() {
        let usual: &[(u8, u8)] = &[(1, 2), (2, 2), (3, 2)];
        let tracks = [usual, &[(1, 2), (3, 2)], usual, &[(1, 2), (2, 2), (3, 2), (99, 2), (4, 3)], usual, &[]];
        let expected = Geometry { sides: 1, tracks: 5, sectors: 3, code: 2, first: 1 };
        assert_eq!(found(&tracks, Wanted::default()), Some(expected));
    }

    #[test]
    fn the_command_line_comes_first() {
        let wanted = Wanted { sides: Some(2), tracks: Some(9), sectors: Some(4), code: Some(1), first: Some(0) };
        let expected = Geometry { sides: 2, tracks: 9, sectors: 4, code: 1, first: 0 };
        assert_eq!(found(&[&[(1, 2)]], wanted), Some(expected));
        assert_eq!(found(&[], wanted), Some(expected));
        let wanted = Wanted { first: Some(0), ..Wanted::default() };
        assert_eq!(found(&[&[(1, 2), (2, 2)]], wanted).map(|geometry| geometry.sectors), Some(3));
    }

    #[test]
    fn a_disk_without_ids_has_no_geometry() {
        assert_eq!(found(&[&[], &[]], Wanted::default()), None);
    }

    #[test]
    fn a_sector_number_has_its_place() {
        let geometry = Geometry { sides: 1, tracks: 1, sectors: 3, code: 3, first: 254 };
        assert_eq!([253, 254, 255, 0].map(|number| geometry.place_of(number)), [None, Some(0), Some(1), None]);
        assert_eq!((geometry.size(), geometry.image_bytes()), (1_024, 3_072));
    }
}
