//! The list of a disk as JSON.

use std::fmt::Write;

use ism::Refusal;

use super::{data_and_sum, List, Row};
use crate::disk::Place;
use crate::failure::word_of;
use crate::track::Data;

impl List {
    /// The list as JSON, a sector on a line.
    pub fn json(&self, file: &str, format: &str) -> String {
        let mut json = String::new();
        let _ = write!(
            json,
            "{{\"file\":{},\"format\":{},\"tracks\":{},\"sides\":{},\"rate\":{},\"margin\":{},\n\"sectors\":[",
            quoted(file),
            quoted(format),
            self.tracks,
            self.sides,
            self.rate,
            self.margin
        );
        let rows: Vec<String> = self.rows.iter().map(json_row).collect();
        let _ = write!(json, "{}],\n\"refused\":[", joined(&rows));
        let refused: Vec<String> = self.refused.iter().map(json_refusal).collect();
        let _ = write!(json, "{}],\n\"single_density\":[", joined(&refused));
        let single = self
            .single_density
            .iter()
            .map(|(place, count)| format!("{{\"track\":{},\"side\":{},\"ids\":{count}}}", place.track, place.side));
        let _ = writeln!(json, "{}]}}", joined(&single.collect::<Vec<_>>()));
        json
    }
}

fn json_row(row: &Row) -> String {
    let (id, (at, sum)) = (row.sector.id, data_and_sum(&row.sector.data));
    let at = at.map_or("null".to_string(), |at| at.to_string());
    let refusal = match row.sector.data {
        Data::Missing { refusal: Some(refusal) } => quoted(&word_of(refusal)),
        _ => "null".to_string(),
    };
    format!(
        "{{\"track\":{},\"side\":{},\"sector\":{},\"code\":{},\"id_at\":{},\"data_at\":{at},\"sum\":{},\
         \"refusal\":{refusal},\"clearance\":{},\"id_track\":{},\"id_side\":{}}}",
        row.place.track,
        row.place.side,
        id.sector,
        id.code,
        row.sector.at,
        quoted(sum),
        row.clearance,
        id.track,
        id.side
    )
}

fn json_refusal((place, refusal): &(Place, Refusal)) -> String {
    let word = quoted(&word_of(*refusal));
    format!("{{\"track\":{},\"side\":{},\"number\":{},\"word\":{word}}}", place.track, place.side, refusal.number())
}

/// Objects of an array, each on a line.
fn joined(objects: &[String]) -> String {
    match objects.is_empty() {
        true => String::new(),
        false => format!("\n{}", objects.join(",\n")),
    }
}

/// A JSON string.
fn quoted(text: &str) -> String {
    let mut quoted = String::from("\"");
    for letter in text.chars() {
        match letter {
            '"' | '\\' => quoted.extend(['\\', letter]),
            _ if letter < ' ' => {
                let _ = write!(quoted, "\\u{:04x}", u32::from(letter));
            }
            _ => quoted.push(letter),
        }
    }
    quoted.push('"');
    quoted
}

#[cfg(test)]
mod tests {
    use super::*;

    #[test]
    fn json_strings_are_escaped() {
        assert_eq!(quoted("a\"b\\c\nd é"), "\"a\\\"b\\\\c\\u000ad é\"");
    }
}
