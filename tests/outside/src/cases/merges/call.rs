//! The call of the merge, as the header declares it.

use ism::sys::Answer;

use crate::call::{Call, Cell, Expected, ACCEPTED};
use crate::compare::{from_wrapper, Compare};
use crate::paper::merge::{self, Sector};

extern "C" {
    pub fn ism_merge(first: *const u8, n: usize, second: *const u8, m: usize, out: *mut u8, room: usize) -> Answer;
}

impl Cell for u8 {
    fn pattern(place: usize) -> u8 {
        (place as u8).wrapping_mul(0x55) ^ 0xA5
    }
}

/// A byte, behind the set that it belongs to: 1 or 2.
type Tagged = (u8, u8);

fn tagged(set: u8, bytes: &[u8]) -> impl Iterator<Item = Tagged> + '_ {
    bytes.iter().map(move |byte| (set, *byte))
}

fn sets(list: &[Tagged]) -> [Vec<u8>; 2] {
    [1, 2].map(|set| list.iter().filter(|(of, _)| *of == set).map(|(_, byte)| *byte).collect())
}

/// Count is of sectors, used of bytes stored.
fn stored((sectors, bytes): (Vec<Sector>, Vec<u8>)) -> Expected<u8> {
    let mut expected = Expected::list(bytes);
    expected.answer.used = expected.answer.count;
    expected.answer.count = sectors.len() as u64;
    expected
}

/// What the wrapper hands out as sectors, as the interface counts them.
fn merged(sectors: ism::Sectors<'_>) -> Answer {
    let bytes = sectors.clone().map(|sector| 3 + sector.data.len() as u64).sum();
    Answer { count: sectors.count() as u64, used: bytes, ..ACCEPTED }
}

/// The library's answer; stops if an input is not as it was.
pub fn library_merge(first: &[u8], second: &[u8], out: &mut [u8]) -> Answer {
    let [a, b] = [first, second].map(<[u8]>::to_vec);
    // SAFETY: each pointer comes with the length of its list
    let answer = unsafe { ism_merge(a.as_ptr(), a.len(), b.as_ptr(), b.len(), out.as_mut_ptr(), out.len()) };
    assert_eq!([a.as_slice(), b.as_slice()], [first, second], "ism_merge changes an input");
    answer
}

impl Compare {
    pub fn merge(&mut self, first: &[u8], second: &[u8], room: usize) {
        let list: Vec<Tagged> = tagged(1, first).chain(tagged(2, second)).collect();
        let call = Call {
            name: "ism_merge",
            arguments: "each byte behind the number of its set".to_string(),
            room,
            paper: &|list| {
                let [first, second] = sets(list);
                Expected::new(merge::merge(&first, &second, room).map(stored))
            },
            interface: &|list: &[Tagged], out| {
                let [first, second] = sets(list);
                library_merge(&first, &second, out)
            },
            wrapper: Some(&|list: &[Tagged], out| {
                let [first, second] = sets(list);
                from_wrapper(ism::merge(&first, &second, out), merged)
            }),
        };
        self.run(&list, call);
    }
}
