//! What is on a disk, a row a sector, as text or JSON.

mod json;

use std::fmt::Write;

use ism::{Profile, Refusal};

use crate::disk::{Disk, Place};
use crate::failure::refused;
use crate::read::each_window;
use crate::track::{Data, Found};

/// A sector of the list.
struct Row {
    place: Place,
    sector: Found,
    clearance: u32,
}

/// The list of a disk.
pub struct List {
    rows: Vec<Row>,
    refused: Vec<(Place, Refusal)>,
    single_density: Vec<(Place, usize)>,
    tracks: usize,
    sides: usize,
    rate: u16,
    margin: u32,
}

impl List {
    /// Reads all tracks of a disk.
    pub fn of(disk: &Disk, profile: Profile) -> List {
        let mut list = List {
            rows: Vec::new(),
            refused: Vec::new(),
            single_density: Vec::new(),
            tracks: disk.tracks(),
            sides: disk.sides,
            rate: disk.rate,
            margin: ism::margin(profile).unwrap_or(0),
        };
        each_window(disk, profile, "list", |place, single_density, window| {
            if single_density > 0 {
                list.single_density.push((place, single_density));
            }
            match window.sectors() {
                Err(refusal) => list.refused.push((place, refusal)),
                Ok(sectors) => list.rows.extend(sectors.into_iter().map(|sector| {
                    let clearance = window.clearance(&sector).unwrap_or(0);
                    Row { place, sector, clearance }
                })),
            }
        });
        list
    }

    /// How many sectors have data whose sum holds.
    fn good(&self) -> usize {
        self.rows.iter().filter(|row| matches!(row.sector.data, Data::Own { holds: true, .. })).count()
    }

    /// Whether every sector was read, and there is one.
    pub fn all_read(&self) -> bool {
        self.good() == self.rows.len()
            && !self.rows.is_empty()
            && self.refused.is_empty()
            && self.single_density.is_empty()
    }

    /// What could not be listed, for messages.
    pub fn complaints(&self) -> Vec<String> {
        let mut complaints: Vec<String> =
            self.refused.iter().map(|(place, refusal)| format!("{place}: {}", refused(*refusal))).collect();
        complaints.extend(
            self.single_density
                .iter()
                .map(|(place, count)| format!("{place}: {count} IDs of single density (FM), which is not read")),
        );
        if self.rows.is_empty() {
            complaints.push("no sector was read".to_string());
        }
        complaints
    }

    /// The list as text.
    pub fn text(&self) -> String {
        let mut text = String::from("track side sector code   ID at data at  sum              clearance\n");
        for Row { place, sector, clearance } in &self.rows {
            let id = sector.id;
            let (at, sum) = data_and_sum(&sector.data);
            let at = at.map_or("-".to_string(), |at| at.to_string());
            let _ = write!(
                text,
                "{:>5} {:>4} {:>6} {:>4} {:>7} {:>7}  {:<16} {:>9}",
                place.track, place.side, id.sector, id.code, sector.at, at, sum, clearance
            );
            if let Data::Missing { refusal: Some(refusal) } = sector.data {
                let _ = write!(text, "  {}", refused(refusal));
            }
            if (usize::from(id.track), usize::from(id.side)) != (place.track, place.side) {
                let _ = write!(text, "  its ID names track {}, side {}", id.track, id.side);
            }
            text.push('\n');
        }
        let (all, good) = (self.rows.len(), self.good());
        let _ = writeln!(text, "{all} sectors, {good} read, {} not; margin {}", all - good, self.margin);
        text
    }
}

/// The place of the data, if there is some, and what there is to say of its sum.
fn data_and_sum(data: &Data) -> (Option<usize>, &'static str) {
    match data {
        Data::Missing { .. } => (None, "no data"),
        Data::NotItsOwn { at } => (Some(*at), "data not its own"),
        Data::Own { at, holds: true, .. } => (Some(*at), "holds"),
        Data::Own { at, holds: false, .. } => (Some(*at), "fails"),
    }
}
