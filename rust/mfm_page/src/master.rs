//! The pages of a master that was read in one pass or in two.

use ism::{Profile, Refusal, Sector, SectorSet};
use mfm_disk::assemble::{nothing_read, sector_of};
use mfm_disk::disk::{Disk, Place};
use mfm_disk::failure::{refused, word_of};
use mfm_disk::read::{each_window, ReadDisk, ReadTrack};
use mfm_disk::track::{Found, Window};

use crate::page::MOST_PAGES;
use crate::pages::{self, Read};
use crate::words::page_refused;

/// One pass over all tracks, and the tracks with fields that belong to no sector, with their count.
pub struct Pass {
    read: ReadDisk,
    strays: Vec<(Place, usize)>,
}

impl Pass {
    /// Reads all tracks, and shows each sector that was read.
    pub fn of(disk: &Disk, profile: Profile, what: &str, mut look: impl FnMut(Place, &Window, &Found)) -> Pass {
        let mut pass = Pass { read: ReadDisk { tracks: Vec::with_capacity(disk.turns.len()) }, strays: Vec::new() };
        each_window(disk, profile, what, |place, single_density, window| {
            let sectors = window.sectors();
            if let Ok(found) = &sectors {
                found.iter().for_each(|found| look(place, &window, found));
                let strays = window.strays(found);
                if strays > 0 {
                    pass.strays.push((place, strays));
                }
            }
            pass.read.tracks.push(ReadTrack { place, sectors, single_density });
        });
        pass
    }
}

/// The merged sectors of all passes, and the passes.
pub struct Master {
    passes: Vec<Pass>,
    set: Vec<u8>,
}

impl Master {
    /// The master of one or two passes, or the library's refusal of their sectors.
    pub fn of(passes: Vec<Pass>) -> Result<Master, String> {
        let mut master = Master { passes, set: Vec::new() };
        for pass in &master.passes {
            let set = set_of(&pass.read)?;
            let mut out = vec![0; ism::MAX_SET_BYTES];
            let sectors = ism::merge(&master.set, &set, &mut out).map_err(|refusal| master.merge_refused(refusal))?;
            let bytes = sectors.map(|sector| 3 + sector.data.len()).sum();
            out.truncate(bytes);
            master.set = out;
        }
        Ok(master)
    }

    /// The highest page of which an ID was read; 1 where there is none.
    pub fn highest(&self) -> usize {
        let numbers = self.found().map(|(_, found)| usize::from(found.id.sector));
        numbers.filter(|number| *number <= MOST_PAGES).max().unwrap_or(1).max(1)
    }

    /// All pages, where it is certain how many they are. A last page that is lost with its ID leaves a field behind
    /// that belongs to no sector; where every pass has such fields, it is not certain.
    pub fn all_pages(&self) -> Result<Vec<Read>, Vec<String>> {
        let count = self.highest();
        let pages = self.pages(count)?;
        if self.passes.iter().any(|pass| pass.strays.is_empty()) {
            return Ok(pages);
        }
        let strays = self.passes.iter().flat_map(|pass| &pass.strays);
        let told = |(place, strays): &(Place, usize)| format!("{place}: {strays} field(s) that belong to no page read");
        let mut lines: Vec<String> = strays.map(told).collect();
        lines.push(format!("{count} page(s) were read, and it is not certain that these are all"));
        Err(lines)
    }

    /// Pages 1 to `count`, or a line for each that was not read, or one for the whole set.
    pub fn pages(&self, count: usize) -> Result<Vec<Read>, Vec<String>> {
        let refusal = match pages::pages_of(&self.set, count) {
            Ok(pages) => return Ok(pages),
            Err(refusal) => refusal,
        };
        let single = |number: usize| self.page(number as u8).err();
        match refusal.number() {
            19 | 20 => Err((1..=count).filter_map(single).collect()),
            _ => Err(vec![page_refused(refusal)]),
        }
    }

    /// One page, though others may be lost.
    pub fn page(&self, number: u8) -> Result<Read, String> {
        let sector = ism::sectors(&self.set).find(|sector| sector.number == number);
        let read = match sector {
            Some(sector) => pages::page_of(&sector),
            None => pages::pages_of(&[], 1).map(|mut none| none.swap_remove(0)),
        };
        read.map_err(|refusal| {
            let why = match (refusal.number(), sector) {
                (19, Some(sector)) if sector.code != 3 => format!("it has length code {}, not 3", sector.code),
                (19, Some(_)) => "the sum of its data fails".to_string(),
                (19, None) => self.why_missing(number),
                _ => "other bytes than 00 stand behind its cells".to_string(),
            };
            format!("page {number}: {} (refusal {}): {why}", word_of(refusal), refusal.number())
        })
    }

    /// All IDs that were read, with their places.
    fn found(&self) -> impl Iterator<Item = (Place, &Found)> {
        let ids = self.passes.iter().flat_map(|pass| pass.read.ids());
        ids.flat_map(|(place, sectors)| sectors.iter().map(move |found| (place, found)))
    }

    /// Why no sector of a number is in the set.
    fn why_missing(&self, number: u8) -> String {
        let mut with_id = self.found().filter(|(_, found)| found.id.sector == number);
        let reason = with_id.find_map(|(place, found)| Some(format!("{place}: {}", sector_of(found, place).err()?)));
        let tracks: Vec<_> = self.passes.iter().flat_map(|pass| &pass.read.tracks).collect();
        reason.unwrap_or_else(|| nothing_read(&tracks))
    }

    /// The merge's refusal, with the places of the sector that it names.
    fn merge_refused(&self, refusal: Refusal) -> String {
        if refusal.number() != 17 {
            return refused(refusal);
        }
        let here = self.found().filter(|(_, found)| usize::from(found.id.sector) == refusal.place());
        let places: Vec<String> = here.map(|(place, _)| place.to_string()).collect();
        format!("{}; read at {}", page_refused(refusal), places.join(" and at "))
    }
}

/// The set of all sectors that one pass read, whichever they are: the library says what does not fit.
fn set_of(pass: &ReadDisk) -> Result<Vec<u8>, String> {
    let mut sectors: Vec<Sector<'_>> = Vec::new();
    for track in &pass.tracks {
        match &track.sectors {
            Ok(found) => sectors.extend(found.iter().filter_map(|found| sector_of(found, track.place).ok())),
            Err(refusal) => return Err(format!("{}: {}", track.place, refused(*refusal))),
        }
    }
    let mut buffer = vec![0; sectors.iter().map(|sector| 3 + sector.data.len()).sum()];
    let mut set = SectorSet::new(&mut buffer);
    for sector in sectors {
        set.push(sector).map_err(refused)?;
    }
    Ok(buffer)
}
