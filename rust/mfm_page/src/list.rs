//! What is on a master, a row a sector.

use std::fmt::Write;

use ism::Profile;
use mfm_disk::assemble::sector_of;
use mfm_disk::disk::{Disk, Place};
use mfm_disk::track::Found;

use crate::master::{Master, Pass};
use crate::page::MOST_PAGES;
use crate::pages;

/// The list of a master, and what is wrong with it.
pub struct List {
    pub text: String,
    pub complaints: Vec<String>,
}

impl List {
    /// Reads all tracks of a master.
    pub fn of(disk: &Disk, profile: Profile) -> List {
        let mut text = String::from(" page track sector sum    dots clearance\n");
        let pass = Pass::of(disk, profile, "list", |place, window, found| {
            row(&mut text, place, found, window.clearance(found).unwrap_or(0));
        });
        let (read, complaints) = match Master::of(vec![pass]) {
            Err(refusal) => (0, vec![refusal]),
            Ok(master) => {
                let all = 1..=master.highest() as u8;
                let read = all.filter(|page| master.page(*page).is_ok()).count();
                (read, master.all_pages().err().unwrap_or_default())
            }
        };
        let margin = ism::margin(profile).unwrap_or(0);
        let _ = writeln!(text, "{read} page(s) read; margin {margin}");
        List { text, complaints }
    }
}

/// One sector.
fn row(text: &mut String, place: Place, found: &Found, clearance: u32) {
    let id = found.id;
    let page = match (1..=MOST_PAGES).contains(&usize::from(id.sector)) {
        true => id.sector.to_string(),
        false => "-".to_string(),
    };
    let sector = sector_of(found, place);
    let sum = sector.as_ref().map_or("-", |sector| if sector.holds { "holds" } else { "fails" });
    let read = sector.as_ref().ok().map(pages::page_of);
    let dots = read.as_ref().and_then(|read| read.as_ref().ok()).map_or("-".to_string(), |read| read.dots.to_string());
    let _ = write!(text, "{page:>5} {:>5} {:>6} {sum:<5} {dots:>5} {clearance:>9}", place.track, id.sector);
    let _ = match (&sector, read) {
        (Err(why), _) => write!(text, "  {why}"),
        (_, Some(Err(refusal))) if refusal.number() == 20 => write!(text, "  other bytes than 00 behind its cells"),
        _ if id.code != 3 => write!(text, "  length code {}", id.code),
        _ => Ok(()),
    };
    if place.side != 0 {
        let _ = write!(text, "  side {}", place.side);
    }
    text.push('\n');
}
