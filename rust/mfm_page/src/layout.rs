//! Where pages stand: sectors 1 to 16 of length code 3 on side 0, from track 0 on, numbered on from track to track.

use mfm_disk::disk::{Disk, Place, DOUBLE_DENSITY, HIGH_DENSITY};
use mfm_disk::failure::refused;
use mfm_disk::geometry::Geometry;
use mfm_disk::make::turn_of;
use mfm_disk::progress::Progress;

use crate::page::Page;
use crate::pages;
use crate::words::page_refused;

/// How dense a master is.
#[derive(Clone, Copy, Debug, Default, PartialEq, Eq)]
pub enum Density {
    #[default]
    Double,
    High,
}

impl Density {
    /// Pages on a track.
    pub fn pages(self) -> usize {
        match self {
            Density::Double => 5,
            Density::High => 10,
        }
    }

    /// Thousand data bits in a second.
    fn rate(self) -> u16 {
        match self {
            Density::Double => DOUBLE_DENSITY,
            Density::High => HIGH_DENSITY,
        }
    }
}

/// The master of pages, with as many tracks as they need.
pub fn disk_of(pages: &[Page], density: Density) -> Result<Disk, String> {
    let set = pages::set_of(pages).map_err(page_refused)?;
    let sectors: Vec<ism::Sector<'_>> = ism::sectors(&set).collect();
    let tracks = sectors.chunks(density.pages());
    let mut progress = Progress::new("pack", tracks.len());
    let mut turns = Vec::with_capacity(tracks.len());
    for (track, sectors) in tracks.enumerate() {
        let place = Place { track, side: 0 };
        progress.step(place);
        let first = &sectors[0];
        let geometry = Geometry { sides: 1, tracks: 1, sectors: sectors.len(), code: first.code, first: first.number };
        let data: Vec<u8> = sectors.iter().flat_map(|sector| sector.data.iter().copied()).collect();
        let turn = turn_of(&geometry, place, density.rate(), &data);
        turns.push(turn.map_err(|(sector, refusal)| format!("{place}, sector {sector}: {}", refused(refusal)))?);
    }
    Ok(Disk { sides: 1, rate: density.rate(), turns })
}

#[cfg(test)]
mod tests {
    use super::*;
    use mfm_disk::read::{profile_of, read_disk};

    /// The sectors of each track.
    fn layout(pages: usize, density: Density) -> Vec<Vec<(u8, u8)>> {
        let disk = disk_of(&vec![Page([9; 1000]); pages], density).unwrap();
        let read = read_disk(&disk, profile_of(&disk, None), "");
        let ids = |(place, sectors): (Place, &[mfm_disk::track::Found])| {
            assert!(sectors.iter().all(|sector| (usize::from(sector.id.track), sector.id.side) == (place.track, 0)));
            sectors.iter().map(|sector| (sector.id.sector, sector.id.code)).collect()
        };
        read.ids().map(ids).collect()
    }

    #[test]
    fn five_or_ten_pages_stand_on_a_track() {
        for pages in 1..=16_u8 {
            for density in [Density::Double, Density::High] {
                let numbers: Vec<u8> = (1..=pages).collect();
                let codes = |numbers: &[u8]| numbers.iter().map(|number| (*number, 3)).collect::<Vec<_>>();
                let expected: Vec<_> = numbers.chunks(density.pages()).map(codes).collect();
                assert_eq!(layout(usize::from(pages), density), expected);
            }
        }
    }

    #[test]
    fn no_page_is_a_refusal() {
        assert_eq!(disk_of(&[], Density::Double).unwrap_err(), "miscount (refusal 12): a master has 1 to 16 pages");
    }
}
