//! Two passes merged, request (vii). A set is one list of bytes: for each sector its number, its length code, whether
//! its sum holds (0 for no), then its data.

use std::collections::BTreeSet;

use super::{fit, refuse, Refused};

pub const MOST_SECTORS: usize = 32;

/// How long the data of a length code is.
const SIZES: [usize; 4] = [128, 256, 512, 1024];

#[derive(Clone, Debug, PartialEq, Eq)]
pub struct Sector {
    pub number: u8,
    pub code: u8,
    pub holds: bool,
    pub data: Vec<u8>,
}

impl Sector {
    /// The sector in the form of a set.
    pub fn bytes(&self) -> Vec<u8> {
        [vec![self.number, self.code, u8::from(self.holds)], self.data.clone()].concat()
    }
}

/// The sectors of a set, unless one is a misfit.
pub fn sectors_of(set: &[u8]) -> Option<Vec<Sector>> {
    let mut sectors = Vec::new();
    let mut rest = set;
    while !rest.is_empty() {
        let size = *SIZES.get(usize::from(*rest.get(1)?))?;
        let sum = *rest.get(2)?;
        let data = rest.get(3..3 + size)?;
        sectors.push(Sector { number: rest[0], code: rest[1], holds: sum != 0, data: data.to_vec() });
        rest = &rest[3 + size..];
    }
    Some(sectors)
}

/// Merging: 13, 15, 17, 9. Gives the sectors by ascending number, and them as a set.
pub fn merge(first: &[u8], second: &[u8], room: usize) -> Result<(Vec<Sector>, Vec<u8>), Refused> {
    let (Some(a), Some(b)) = (sectors_of(first), sectors_of(second)) else {
        return refuse(13, 0);
    };
    let numbers: BTreeSet<u8> = a.iter().chain(&b).map(|sector| sector.number).collect();
    if [a.len(), b.len(), numbers.len()].iter().any(|count| *count > MOST_SECTORS) {
        return refuse(15, 0);
    }
    if let Some(number) = numbers.iter().find(|number| at_odds(**number, &a, &b)) {
        return refuse(17, usize::from(*number));
    }
    let merged: Vec<Sector> = numbers.iter().map(|number| taken(copy(*number, &a), copy(*number, &b))).collect();
    let bytes = fit(merged.iter().flat_map(Sector::bytes).collect(), room)?;
    Ok((merged, bytes))
}

/// Whether a number stands twice in one set, or with both sums good and unlike bytes.
fn at_odds(number: u8, a: &[Sector], b: &[Sector]) -> bool {
    let twice = |set: &[Sector]| set.iter().filter(|sector| sector.number == number).count() > 1;
    let unlike = match (copy(number, a), copy(number, b)) {
        (Some(x), Some(y)) => x.holds && y.holds && (x.code, &x.data) != (y.code, &y.data),
        _ => false,
    };
    twice(a) || twice(b) || unlike
}

fn copy(number: u8, set: &[Sector]) -> Option<&Sector> {
    set.iter().find(|sector| sector.number == number)
}

/// The copy that is taken: the only one, else the one whose sum holds, else the first.
fn taken(first: Option<&Sector>, second: Option<&Sector>) -> Sector {
    let sector = match (first, second) {
        (Some(x), None) => x,
        (None, Some(y)) => y,
        (Some(x), Some(y)) => match (x.holds, y.holds) {
            (false, true) => y,
            _ => x,
        },
        (None, None) => panic!("a number of neither set"),
    };
    sector.clone()
}
