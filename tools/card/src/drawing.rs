//! What is drawn of a true profile: after each kind of interval the edges, and the lengths of each class between them.

use ism::{Class, Profile};

/// The windows after one kind of interval.
pub struct Windows {
    pub after: &'static str,
    /// Min, B23, B34, Rpt
    pub edges: [u16; 4],
    /// the shortest and the longest length of classes 2, 3 and 4
    pub lengths: [(u16, u16); 3],
}

/// After class 2, then after any other. The lengths are those of all lists of one byte, which have every length.
pub fn windows(p: Profile) -> [Windows; 2] {
    let mut lengths = [[(u16::MAX, 0); 3]; 2];
    for item in (0..256).chain([ism::MARK_A1, ism::MARK_C2]) {
        let mut stream = [0; 10];
        let count = ism::write(p, &[item], &mut stream).expect("a true profile writes every byte");
        let mut after_short = true;
        for length in &stream[..count] {
            let class = ism::classify(p, *length, after_short).expect("a true profile classes every length").class;
            let place = match class {
                Class::Two => 0,
                Class::Three => 1,
                _ => 2,
            };
            let seen = &mut lengths[usize::from(!after_short)][place];
            *seen = (seen.0.min(*length), seen.1.max(*length));
            after_short = class == Class::Two;
        }
    }
    [
        Windows { after: "class 2", edges: [p.min, p.b23_short, p.b34_short, p.rpt], lengths: lengths[0] },
        Windows { after: "any other", edges: [p.min, p.b23_long, p.b34_long, p.rpt], lengths: lengths[1] },
    ]
}

/// The windows in a row of characters from Min to Rpt: an edge, the lengths of a class by its own character, the reach
/// of the margin about them, and what is free. An edge is never drawn over.
pub fn row(w: &Windows, margin: u64, width: usize, edge: char, classes: [char; 3], reach: char, free: char) -> String {
    let (low, high) = (i64::from(w.edges[0]), i64::from(w.edges[3]));
    let place = |x: i64| ((x.clamp(low, high) - low) * (width as i64 - 1) / (high - low).max(1)) as usize;
    let mut row = vec![free; width];
    let margin = margin as i64;
    for (shortest, longest) in w.lengths {
        row[place(i64::from(shortest) - margin)..=place(i64::from(longest) + margin)].fill(reach);
    }
    for ((shortest, longest), class) in w.lengths.into_iter().zip(classes) {
        row[place(i64::from(shortest))..=place(i64::from(longest))].fill(class);
    }
    for x in w.edges {
        row[place(i64::from(x))] = edge;
    }
    row.into_iter().collect()
}
