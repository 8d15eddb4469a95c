//! The set of a track: told sets, every room, faults together, random and damaged tracks, and the merge of two passes.

use ism::sys::Answer;
use ism::{Profile, SectorSet};

use super::faults::{building_profile, profile_with, Faults};
use super::indexes::pieces::{data, id, items_of, random_piece, small_data, Piece, A1, C2};
use super::margins::shifted;
use super::strips::damage;
use super::WORKED;
use crate::call::{Call, Expected, ACCEPTED};
use crate::compare::{from_wrapper, profile, Compare};
use crate::paper::index::MOST_ENTRIES;
use crate::paper::merge::{merge, Sector};
use crate::paper::track_set::read_track;
use crate::paper::{sector_items, stream_of, Eleven};
use crate::random::Random;

extern "C" {
    fn ism_read_track(profile: Profile, intervals: *const u16, n: usize, set: *mut u8, room: usize) -> Answer;
}

/// Count is of sectors, used of bytes stored.
fn stored((sectors, bytes): (Vec<Sector>, Vec<u8>)) -> Expected<u8> {
    let mut expected = Expected::list(bytes);
    expected.answer.used = expected.answer.count;
    expected.answer.count = sectors.len() as u64;
    expected
}

fn given(set: SectorSet<'_>) -> Answer {
    Answer { count: set.sectors().count() as u64, used: set.bytes().len() as u64, ..ACCEPTED }
}

fn library_set(eleven: &Eleven, intervals: &[u16], out: &mut [u8]) -> Answer {
    // SAFETY: each pointer comes with the length of its slice
    unsafe { ism_read_track(profile(eleven), intervals.as_ptr(), intervals.len(), out.as_mut_ptr(), out.len()) }
}

/// The set that the library reads, given room for any.
fn set_of(eleven: &Eleven, intervals: &[u16]) -> Vec<u8> {
    let mut out = vec![0; ism::MAX_SET_BYTES];
    let used = library_set(eleven, intervals, &mut out).used;
    out.truncate(used as usize);
    out
}

impl Compare {
    pub fn track_set(&mut self, eleven: &Eleven, intervals: &[u16], room: usize) {
        let call = Call {
            name: "ism_read_track",
            arguments: format!("profile {eleven:?}"),
            room,
            paper: &|intervals| Expected::new(read_track(eleven, intervals, room).map(stored)),
            interface: &|intervals: &[u16], out| library_set(eleven, intervals, out),
            wrapper: Some(&|intervals: &[u16], out| {
                from_wrapper(ism::read_track(profile(eleven), intervals, out), given)
            }),
        };
        self.run(intervals, call);
    }
}

/// The bytes of a sector in a set.
fn in_set(number: u8, code: u8, holds: bool, data: &[u16]) -> Vec<u8> {
    [vec![number, code, u8::from(holds)], data.iter().map(|item| *item as u8).collect()].concat()
}

/// Sets that are told beforehand.
pub fn told(compare: &mut Compare, random: &mut Random) {
    let mut tell = |what: &str, pieces: &[&Piece], set: &[Vec<u8>]| {
        let pieces: Vec<Piece> = pieces.iter().copied().cloned().collect();
        let set = set.concat();
        for eleven in [WORKED, random.true_profile()] {
            let track = shifted(&eleven, &stream_of(&eleven, &items_of(&pieces)), random);
            compare.track_set(&eleven, &track, set.len());
            compare.claim(&format!("the set of a track: {what}"), set_of(&eleven, &track) == set);
        }
    };
    let [a, b] = [id(1, 0), id(2, 0)];
    let (good, other) = (small_data(), data((0..128).map(|k| 255 - k).collect()));
    let bad = Piece { sum: false, ..other.clone() };
    let [one, two] = [in_set(1, 0, true, &good.content), in_set(2, 0, false, &bad.content)];
    tell("nothing at all", &[], &[]);
    tell("a sector", &[&a, &good], std::slice::from_ref(&one));
    tell("an ID without data", &[&a], &[]);
    tell("an ID without data between", &[&a, &good, &id(7, 0), &b, &bad], &[one.clone(), two.clone()]);
    tell("a sum that fails", &[&b, &bad], std::slice::from_ref(&two));
    tell("by number", &[&b, &bad, &a, &good], &[one.clone(), two]);
    let again = in_set(1, 0, true, &other.content);
    tell("a number twice", &[&a, &good, &a, &other], &[one.clone(), again.clone()]);
    tell("a number twice, the other way", &[&a, &other, &a, &good], &[again, one]);
    for mark in [A1, C2] {
        for place in [0, 1, 64, 126, 127] {
            let mut content: Vec<u16> = (0..128).collect();
            content[place] = mark;
            tell("a mark among the data", &[&a, &data(content.clone())], &[in_set(1, 0, true, &content)]);
        }
    }
    for code in 0..=3 {
        let content: Vec<u16> = (0..128 << code).map(|k: u16| k * 7 % 251).collect();
        tell("each length code", &[&id(9, code), &data(content.clone())], &[in_set(9, code, true, &content)]);
    }
}

/// Every room about what one, two and no sectors need.
pub fn rooms(compare: &mut Compare, _: &mut Random) {
    for count in 0..3 {
        let pieces: Vec<Piece> = (0..count).flat_map(|number| [id(number, 0), small_data()]).collect();
        let track = stream_of(&WORKED, &items_of(&pieces));
        let exact = 131 * usize::from(count);
        for room in (0..=3).chain(exact.saturating_sub(4)..exact + 5) {
            compare.track_set(&WORKED, &track, room);
        }
    }
    let full: Vec<Piece> = (0..MOST_ENTRIES as u8).flat_map(|number| [id(number, 0), small_data()]).collect();
    let track = stream_of(&WORKED, &items_of(&full));
    for room in [0, 32 * 131 - 1, 32 * 131, 32 * 131 + 1, ism::MAX_SET_BYTES] {
        compare.track_set(&WORKED, &track, room);
    }
    compare.track_set(&WORKED, &[], 0);
    // SAFETY: the lengths of the null pointers are 0
    let answer = unsafe { ism_read_track(profile(&WORKED), std::ptr::null(), 0, std::ptr::null_mut(), 0) };
    compare.claim("null pointers of length 0 are an empty track and set", answer == ACCEPTED);
}

/// Every combination of the faults 1, 2, 15 and 9.
pub fn faults(compare: &mut Compare, random: &mut Random) {
    const CROWDED: u32 = 2;
    const FULL: u32 = 3;
    let short = |piece: Piece| Piece { gap: vec![0x4E; 2], ..piece };
    let sector = vec![short(id(1, 0)), short(small_data())];
    let ids: Vec<Piece> = (0..MOST_ENTRIES as u8).map(|number| short(id(number, 0))).collect();
    let tracks = [items_of(&sector), items_of(&[sector, ids].concat())];
    for faults in (0..1 << 4).map(Faults) {
        for _ in 0..20 {
            let eleven = profile_with(faults, random);
            let building = building_profile(&eleven, random);
            let room = if faults.has(FULL) { random.between(0, 130) as usize } else { 131 };
            compare.track_set(&eleven, &stream_of(&building, &tracks[usize::from(faults.has(CROWDED))]), room);
        }
    }
}

/// Fields in any order, as written, moved within the margin and damaged.
pub fn random_fields(compare: &mut Compare, random: &mut Random) {
    let mut sizes = [0; 4];
    for _ in 0..400 {
        let eleven = random.true_profile();
        let pieces: Vec<Piece> = (0..random.between(1, 8)).map(|which| random_piece(which % 2 == 0, random)).collect();
        let stream = stream_of(&eleven, &items_of(&pieces));
        let mut damaged = stream.clone();
        for _ in 0..random.between(1, 4) {
            damage(&eleven, &mut damaged, random);
        }
        for track in [shifted(&eleven, &stream, random), damaged] {
            let (sectors, bytes) = read_track(&eleven, &track, usize::MAX).expect("at most four IDs");
            compare.track_set(&eleven, &track, random.room(bytes.len()));
            sizes[sectors.len().min(3)] += 1;
        }
    }
    compare.claim(&format!("sets of 0, 1, 2 and more: {sizes:?}"), sizes.iter().all(|times| *times > 20));
}

/// Different sector numbers in random order, each with data of a random code.
fn random_sectors(count: usize, most_code: u64, random: &mut Random) -> Vec<Sector> {
    let mut numbers: Vec<u8> = (0..=255).collect();
    let one = |_| {
        let number = numbers.swap_remove(random.index(numbers.len()));
        let code = random.between(0, most_code) as u8;
        Sector { number, code, holds: true, data: random.bytes(128 << code) }
    };
    (0..count).map(one).collect()
}

/// The same without some of them, and with other data where a sum fails.
fn other_pass(sectors: &[Sector], random: &mut Random) -> Vec<u8> {
    let mut set = Vec::new();
    for sector in sectors {
        match random.between(0, 3) {
            0 => {}
            1 => {
                let code = random.between(0, 3) as u8;
                let data = random.bytes(128 << code);
                set.extend(Sector { holds: false, code, data, ..sector.clone() }.bytes());
            }
            _ => set.extend(sector.bytes()),
        }
    }
    set
}

/// Made sectors, moved within the margin, are read as they were made, by number; and the merge with any other pass over
/// the same sectors, as the first or the second, gives exactly them.
pub fn made_tracks(compare: &mut Compare, random: &mut Random) {
    for count in (0..=8).chain([9, 16, 31, 32]) {
        let eleven = random.true_profile();
        let mut sectors = random_sectors(count, if count <= 9 { 3 } else { 0 }, random);
        let items: Vec<u16> = sectors.iter().flat_map(|s| sector_items([39, 1, s.number, s.code], &s.data)).collect();
        let track = shifted(&eleven, &stream_of(&eleven, &items), random);
        sectors.sort_by_key(|sector| sector.number);
        let bytes: Vec<u8> = sectors.iter().flat_map(Sector::bytes).collect();
        compare.track_set(&eleven, &track, bytes.len());
        let set = set_of(&eleven, &track);
        compare.claim("the set is of the sectors made, by number", set == bytes);
        for _ in 0..4 {
            let other = other_pass(&sectors, random);
            for (first, second) in [(&set, &other), (&other, &set)] {
                compare.merge(first, second, bytes.len());
                let merged = merge(first, second, bytes.len()).map(|(_, merged)| merged);
                compare.claim("merged with another pass it is the same", merged.as_ref() == Ok(&bytes));
            }
        }
    }
}
