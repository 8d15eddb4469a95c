//! Sectors that were not read, told by track, side and number.

use crate::disk::Place;

/// A sector that was not read, and why.
#[derive(Clone, Debug, PartialEq, Eq)]
pub struct Unread {
    pub place: Place,
    pub number: u8,
    pub why: String,
}

/// A line for each sector that was not read. Neighbours on one track with one reason share a line.
pub fn lines(unread: &[Unread]) -> Vec<String> {
    let mut lines = Vec::new();
    let mut rest = unread;
    while let Some(first) = rest.first() {
        let next = |(i, one): &(usize, &Unread)| {
            one.place == first.place && one.why == first.why && usize::from(one.number) == usize::from(first.number) + i
        };
        let count = rest.iter().enumerate().take_while(next).count();
        let last = rest[count - 1].number;
        let sectors = match count {
            1 => format!("sector {last}"),
            _ => format!("sectors {} to {last}", first.number),
        };
        lines.push(format!("{}, {sectors}: {}", first.place, first.why));
        rest = &rest[count..];
    }
    lines
}

#[cfg(test)]
mod tests {
    use super::*;

    #[test]
    fn neighbours_with_one_reason_share_a_line() {
        let unread =
            |track, number, why: &str| Unread { place: Place { track, side: 1 }, number, why: why.to_string() };
        let all = [
            unread(0, 1, "lost"),
            unread(0, 2, "lost"),
            unread(0, 3, "bad"),
            unread(0, 5, "bad"),
            unread(1, 6, "bad"),
            unread(1, 255, "lost"),
        ];
        let expected = [
            "track 0, side 1, sectors 1 to 2: lost",
            "track 0, side 1, sector 3: bad",
            "track 0, side 1, sector 5: bad",
            "track 1, side 1, sector 6: bad",
            "track 1, side 1, sector 255: lost",
        ];
        assert_eq!(lines(&all), expected);
    }
}
