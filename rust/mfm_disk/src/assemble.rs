//! A raw image from the sectors that one or more passes read.

use ism::{Refusal, Sector, SectorSet};

use crate::disk::Place;
use crate::failure::refused;
use crate::geometry::Geometry;
use crate::read::{ReadDisk, ReadTrack};
use crate::track::{Data, Found};
use crate::unread::Unread;

/// What stands in a raw image for a sector of which nothing was read, as after formatting.
const UNREAD_BYTE: u8 = 0xF6;

/// A raw image, and the sectors in it that were not read.
pub struct Image {
    pub bytes: Vec<u8>,
    pub unread: Vec<Unread>,
}

/// The image of a geometry from the passes over one disk.
pub fn assemble(geometry: &Geometry, passes: &[&ReadDisk]) -> Image {
    let mut image = Image { bytes: Vec::with_capacity(geometry.image_bytes()), unread: Vec::new() };
    for place in geometry.places() {
        let begin = image.bytes.len();
        image.bytes.resize(begin + geometry.track_bytes(), UNREAD_BYTE);
        let tracks: Vec<&ReadTrack> = passes.iter().filter_map(|pass| pass.at(place)).collect();
        image.unread.extend(track(geometry, place, &tracks, &mut image.bytes[begin..]));
    }
    image
}

/// Puts the sectors of one track in their places and gives those that were not read.
fn track(geometry: &Geometry, place: Place, tracks: &[&ReadTrack], out: &mut [u8]) -> Vec<Unread> {
    let mut why: Vec<Option<String>> = vec![Some(nothing_read(tracks)); geometry.sectors];
    let mut copies = Vec::new();
    for found in tracks.iter().filter_map(|track| track.sectors.as_ref().ok()).flatten() {
        let Some(sector) = geometry.place_of(found.id.sector) else { continue };
        match copy_of(found, geometry, place) {
            Ok(copy) => copies.push(copy),
            Err(reason) => why[sector] = Some(reason),
        }
    }
    let (buffer, at_odds) = merge_all(copies);
    for (number, refusal) in at_odds {
        let sector = usize::from(number - geometry.first);
        why[sector] = Some(refused(refusal));
    }
    for sector in ism::sectors(&buffer) {
        let i = usize::from(sector.number - geometry.first);
        out[i * geometry.size()..][..geometry.size()].copy_from_slice(sector.data);
        why[i] = (!sector.holds).then(|| "the sum of its data fails".to_string());
    }
    let unread = why.into_iter().enumerate().filter_map(|(i, why)| Some((geometry.first + i as u8, why?)));
    unread.map(|(number, why)| Unread { place, number, why }).collect()
}

/// Why a sector of which there is no ID was not read.
pub fn nothing_read(tracks: &[&ReadTrack]) -> String {
    if let Some(refusal) = tracks.iter().find_map(|track| track.sectors.as_ref().err()) {
        return refused(*refusal);
    }
    match tracks.iter().map(|track| track.single_density).max() {
        None => "the disk has no such track".to_string(),
        Some(0) => "no ID of it was read".to_string(),
        Some(count) => format!("no ID of it was read; {count} IDs are of single density (FM), which is not read"),
    }
}

/// The sector if it belongs here and has its data, else why it has not.
fn copy_of<'a>(found: &'a Found, geometry: &Geometry, place: Place) -> Result<Sector<'a>, String> {
    let (code, here) = (found.id.code, usize::from(found.id.track) == place.track);
    if here && code != geometry.code {
        return Err(format!("it has length code {code}, not {}", geometry.code));
    }
    sector_of(found, place)
}

/// The sector if its ID names the track where it stands and has its data, else why not.
pub fn sector_of(found: &Found, place: Place) -> Result<Sector<'_>, String> {
    let id = found.id;
    if usize::from(id.track) != place.track {
        return Err(format!("its ID names track {}", id.track));
    }
    match &found.data {
        Data::Missing { refusal: Some(refusal) } => Err(format!("no data: {}", refused(*refusal))),
        Data::Missing { refusal: None } => Err("no data: another field stands behind its ID".to_string()),
        Data::NotItsOwn { .. } => Err("data not its own: the lock of its data is lost".to_string()),
        Data::Own { holds, bytes, .. } => Ok(Sector { number: id.sector, code: id.code, holds: *holds, data: bytes }),
    }
}

/// The copies merged by the library, as a set, and the numbers whose good copies differ. A number that one pass has
/// twice counts as read in two passes.
fn merge_all(mut copies: Vec<Sector<'_>>) -> (Vec<u8>, Vec<(u8, Refusal)>) {
    let mut at_odds = Vec::new();
    loop {
        match merge_passes(&copies) {
            Ok(set) => return (set, at_odds),
            Err(refusal @ Refusal::SectorsAtOdds { sector }) if at_odds.len() < 256 => {
                at_odds.push((sector, refusal));
                copies.retain(|copy| copy.number != sector);
            }
            // more than 32 numbers cannot be, since a geometry has at most 32
            Err(_) => return (Vec::new(), at_odds),
        }
    }
}

fn merge_passes(copies: &[Sector<'_>]) -> Result<Vec<u8>, Refusal> {
    let mut merged = Vec::new();
    let mut rest = copies.to_vec();
    while !rest.is_empty() {
        let (mut buffer, mut out) = ([0; ism::MAX_SET_BYTES], [0; ism::MAX_SET_BYTES]);
        let mut set = SectorSet::new(&mut buffer);
        let mut taken = [false; 256];
        let mut later = Vec::new();
        for sector in rest {
            if std::mem::replace(&mut taken[usize::from(sector.number)], true) {
                later.push(sector);
            } else {
                set.push(sector)?;
            }
        }
        let sectors = ism::merge(&merged, set.bytes(), &mut out)?;
        let bytes = sectors.map(|sector| 3 + sector.data.len()).sum();
        merged = out[..bytes].to_vec();
        rest = later;
    }
    Ok(merged)
}

#[cfg(test)]
mod tests {
    use super::*;
    use ism::SectorId;

    const GEOMETRY: Geometry = Geometry { sides: 1, tracks: 1, sectors: 3, code: 1, first: 1 };
    const HERE: Place = Place { track: 0, side: 0 };

    fn found(number: u8, byte: u8, holds: bool) -> Found {
        let id = SectorId { track: 0, side: 0, sector: number, code: 1 };
        Found { id, at: 0, data: Data::Own { at: 280, holds, bytes: vec![byte; 256] } }
    }

    fn pass(sectors: Vec<Found>) -> ReadDisk {
        ReadDisk { tracks: vec![ReadTrack { place: HERE, sectors: Ok(sectors), single_density: 0 }] }
    }

    fn bytes(image: &Image) -> [u8; 3] {
        [0, 1, 2].map(|sector| image.bytes[256 * sector])
    }

    fn whys(image: &Image) -> Vec<(u8, &str)> {
        image.unread.iter().map(|unread| (unread.number, unread.why.as_str())).collect()
    }

    #[test]
    fn a_second_pass_gives_what_the_first_lost() {
        let first = pass(vec![found(1, 11, true), found(2, 12, false)]);
        let second = pass(vec![found(2, 22, true), found(3, 23, true)]);
        let image = assemble(&GEOMETRY, &[&first, &second]);
        assert_eq!((bytes(&image), image.unread), ([11, 22, 23], vec![]));
    }

    #[test]
    fn what_was_not_read_has_its_reason() {
        let mut other = found(2, 12, true);
        other.id.track = 7;
        let mut alone = found(3, 13, true);
        alone.data = Data::NotItsOwn { at: 2_000 };
        let image = assemble(&GEOMETRY, &[&pass(vec![found(1, 11, false), other, alone])]);
        assert_eq!(bytes(&image), [11, UNREAD_BYTE, UNREAD_BYTE]);
        let expected = [
            (1, "the sum of its data fails"),
            (2, "its ID names track 7"),
            (3, "data not its own: the lock of its data is lost"),
        ];
        assert_eq!(whys(&image), expected);
    }

    #[test]
    fn a_sector_of_another_length_code_is_not_taken() {
        let mut longer = found(2, 12, true);
        longer.id.code = 2;
        longer.data = Data::Own { at: 280, holds: true, bytes: vec![12; 512] };
        let image = assemble(&GEOMETRY, &[&pass(vec![found(1, 11, true), longer, found(3, 13, true)])]);
        assert_eq!((bytes(&image), whys(&image)), ([11, UNREAD_BYTE, 13], vec![(2, "it has length code 2, not 1")]));
    }

    #[test]
    fn good_copies_that_differ_are_at_odds_and_the_others_are_kept() {
        let image = assemble(
            &GEOMETRY,
            &[&pass(vec![found(1, 11, true), found(2, 12, true), found(3, 13, true)]), &pass(vec![found(2, 99, true)])],
        );
        assert_eq!(bytes(&image), [11, UNREAD_BYTE, 13]);
        assert!(whys(&image)[0].1.starts_with("at odds (refusal 17)"));
    }

    #[test]
    fn a_number_twice_in_one_pass_is_two_passes() {
        let image = assemble(&GEOMETRY, &[&pass(vec![found(1, 1, false), found(1, 2, true), found(1, 2, true)])]);
        assert_eq!(bytes(&image)[0], 2);
        assert_eq!(whys(&image), [(2, "no ID of it was read"), (3, "no ID of it was read")]);
    }

    #[test]
    fn a_refused_track_and_a_missing_one_say_so() {
        let track = ReadTrack { place: HERE, sectors: Err(Refusal::TooManySectors), single_density: 0 };
        let image = assemble(&GEOMETRY, &[&ReadDisk { tracks: vec![track] }]);
        assert_eq!(whys(&image)[2], (3, "crowded (refusal 15): more than 32 sectors"));
        let image = assemble(&GEOMETRY, &[&ReadDisk { tracks: vec![] }]);
        assert_eq!(whys(&image)[0], (1, "the disk has no such track"));
    }
}
