//! What the drive does to the intervals: up to the margin nothing is lost, one half clock more loses something.

use crate::compare::{profile, Compare};
use crate::paper::{self, is_item, single_bytes, stream_of, written_bytes, Eleven};
use crate::random::Random;

/// Intervals moved by at most the margin read back as the list that was written.
pub fn within_margin(compare: &mut Compare, random: &mut Random) {
    for _ in 0..10_000 {
        let eleven = random.true_profile();
        let length = random.length(60);
        let items = random.items(length);
        assert!(items.iter().all(|i| is_item(*i)));
        let written: Vec<u16> = written_bytes(&items).iter().map(|w| w.item()).collect();
        let moved = shifted(&eleven, &stream_of(&eleven, &items), random);
        compare.read(&eleven, &moved, written.len());
        let mut out = vec![0; written.len()];
        let read = ism::read(profile(&eleven), &moved, &mut out);
        let count = read.map(|strip| strip.items);
        compare.claim("what was written reads back", count == Ok(written.len()) && out == written);
    }
}

/// Each interval longer or shorter by at most the library's margin, often by exactly that.
pub fn shifted(eleven: &Eleven, stream: &[u16], random: &mut Random) -> Vec<u16> {
    let margin = u64::from(ism::margin(profile(eleven)).expect("a true profile"));
    moved_by(margin, stream, random)
}

/// Each interval longer or shorter by at most `most`, often by exactly that.
pub fn moved_by(most: u64, stream: &[u16], random: &mut Random) -> Vec<u16> {
    let mut shift = |d: &u16| {
        let by = random.between_with_edges(0, 2 * most);
        (u64::from(*d) + by - most) as u16
    };
    stream.iter().map(&mut shift).collect()
}

/// One half clock more than the margin: some one-byte list has an interval that, so moved, makes the stream refused or
/// read as another list.
pub fn beyond_margin(compare: &mut Compare, random: &mut Random) {
    for _ in 0..1_000 {
        let eleven = random.true_profile();
        let margin = ism::margin(profile(&eleven)).expect("a true profile") as i64;
        let (item, moved) = loss(&eleven, margin + 1).expect("some cell stands at the edge of its window");
        compare.read(&eleven, &moved, 8);
        let mut out = [0; 8];
        let read = ism::read(profile(&eleven), &moved, &mut out);
        let count = read.map(|strip| strip.items);
        compare.claim("one more than the margin loses a byte", count != Ok(1) || out[0] != item);
    }
}

/// A one-byte list and its stream with one interval moved by `by` into another class.
fn loss(eleven: &Eleven, by: i64) -> Option<(u16, Vec<u16>)> {
    for item in single_bytes() {
        let stream = stream_of(eleven, &[item]);
        let letters = paper::classes(eleven, &stream);
        for place in 0..stream.len() {
            let d = i64::from(stream[place]);
            let class = |d: i64| paper::class_letter(eleven, paper::ends_short(&letters[..place]), d);
            let moved = [d - by, d + by].into_iter().find(|e| class(*e) != class(d));
            if let Some(Ok(interval)) = moved.map(u16::try_from) {
                let mut changed = stream.clone();
                changed[place] = interval;
                return Some((item, changed));
            }
        }
    }
    None
}
