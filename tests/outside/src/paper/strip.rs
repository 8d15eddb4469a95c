//! The strip program: text in, text out.

use super::{check_items, check_profile, classes, margin, refuse, stream_of, Eleven, Refused, CHECK_ORDER};

pub const MOST_INPUT: usize = 16_384;
pub const MOST_STRIP_BYTES: usize = 512;

/// What the program prints for an input.
pub fn output(input: &[u8]) -> String {
    match accepted(input) {
        Ok(text) => text,
        Err(Refused { number, place }) => format!("refused\t{number}\t{place}\n"),
    }
}

fn accepted(input: &[u8]) -> Result<String, Refused> {
    let (eleven, items) = parse(input)?;
    check_profile(&eleven)?;
    check_items(&items, MOST_STRIP_BYTES)?;
    let stream = stream_of(&eleven, &items);
    let mut text = format!("margin\t{}\n", margin(&eleven)?);
    for (place, (length, class)) in stream.iter().zip(classes(&eleven, &stream).chars()).enumerate() {
        text += &format!("cell\t{place}\t{class}\t{length}\n");
    }
    Ok(text + &format!("end\t{}\n", stream.len()))
}

/// The profile and the items of an input, or refusal 14 at its lowest faulty line.
fn parse(input: &[u8]) -> Result<(Eleven, Vec<u16>), Refused> {
    if input.len() > MOST_INPUT {
        return refuse(14, 0);
    }
    // bytes above 7F are in no valid line; as characters of their own they keep the lines where they are
    let text: String = input.iter().map(|b| char::from(*b)).collect();
    let mut lines: Vec<&str> = text.split_inclusive('\n').collect();
    if lines.is_empty() {
        lines.push("");
    }
    let mut eleven = None;
    let mut items = Vec::new();
    for (place, line) in lines.iter().enumerate() {
        let fields = line.strip_suffix('\n').map(|l| l.split('\t').collect::<Vec<_>>());
        let understood = match fields {
            Some(fields) if place == 0 => {
                eleven = profile_line(&fields);
                eleven.is_some()
            }
            Some(fields) => items_line(&fields).map(|more| items.extend(more)).is_some(),
            None => false,
        };
        if !understood {
            return refuse(14, place + 1);
        }
    }
    Ok((eleven.expect("the first line is a profile"), items))
}

fn profile_line(fields: &[&str]) -> Option<Eleven> {
    let numbers: Vec<u16> = fields[1..].iter().map(|f| decimal(f)).collect::<Option<_>>()?;
    if fields[0] == "profile" {
        numbers.try_into().ok()
    } else {
        None
    }
}

/// A number that is printed exactly as it was written.
fn decimal(field: &str) -> Option<u16> {
    field.parse().ok().filter(|number: &u16| number.to_string() == field)
}

fn items_line(fields: &[&str]) -> Option<Vec<u16>> {
    let bytes = |mark: u16| -> Option<Vec<u16>> { fields[1..].iter().map(|f| Some(mark + hex(f)?)).collect() };
    match (fields[0], fields.len()) {
        ("data", 2..) => bytes(0),
        ("mark", 2..) => bytes(256),
        ("crc", 1) => Some(vec![CHECK_ORDER]),
        _ => None,
    }
}

/// A byte that is printed exactly as it was written.
fn hex(field: &str) -> Option<u16> {
    u16::from_str_radix(field, 16).ok().filter(|byte| field.len() == 2 && format!("{byte:02X}") == field)
}
