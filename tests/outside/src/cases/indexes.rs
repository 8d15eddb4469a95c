//! The index of a track: every end and change of a short one, how many entries fit, damaged, moved and long tracks.

mod call;
pub mod order;
pub mod pieces;
pub mod told;

use super::faults::{building_profile, profile_with, Faults};
use super::margins::shifted;
use super::strips::damage;
use super::{APART, WORKED};
use crate::compare::Compare;
use crate::paper::index::{index_track, MOST_ENTRIES};
use crate::paper::{sector_items, stream_of, LOCK_ENDS};
use crate::random::Random;
use call::{library_index, Index};
use pieces::{id, items_of, random_piece, small_data, Piece, A1};

/// A track of a sector and an ID, ended and begun at every interval, and every interval of its fields changed.
pub fn every_interval(compare: &mut Compare, random: &mut Random) {
    let short = |piece: Piece| Piece { gap: vec![0x4E; 3], ..piece };
    let items = items_of(&[short(id(1, 0)), short(small_data()), short(id(2, 0))]);
    let track = stream_of(&WORKED, &items);
    for place in 0..=track.len() {
        compare.index(&WORKED, &track[..place]);
    }
    for eleven in [WORKED, APART] {
        let track = stream_of(&eleven, &items);
        (0..300).for_each(|place| compare.index(&eleven, &track[place..]));
    }
    let middle = 330..track.len() - 300;
    for place in (0..track.len()).filter(|place| !middle.contains(place)) {
        for letter in "n234w".chars() {
            let mut changed = track.clone();
            changed[place] = random.interval(&WORKED, letter);
            compare.index(&WORKED, &changed);
        }
    }
}

/// So many IDs, each followed by its data or by nothing.
fn entries(count: usize, with_data: bool) -> Vec<Piece> {
    let one = |number: usize| {
        let id = Piece { gap: vec![0x4E; 2], ..id(number as u8, 0) };
        if with_data {
            vec![id, Piece { gap: vec![0x4E; 2], ..small_data() }]
        } else {
            vec![id]
        }
    };
    (0..count).flat_map(one).collect()
}

/// Tracks of 0 to 40 entries; a 33rd is refused.
pub fn counts(compare: &mut Compare, _: &mut Random) {
    for with_data in [false, true] {
        for count in [0, 1, 2, 30, 31, 32, 33, 34, 40] {
            let track = stream_of(&WORKED, &items_of(&entries(count, with_data)));
            compare.index(&WORKED, &track);
            let index = library_index(&WORKED, &track);
            let crowded = count > MOST_ENTRIES;
            let found = index.entries.iter().filter(|entry| entry.found == 1).count();
            compare.claim("a 33rd entry is crowded", (index.number, index.place) == (if crowded { 15 } else { 0 }, 0));
            let expected = if crowded { 0 } else { count };
            compare.claim("the entries are counted", index.count == expected as u64);
            compare.claim("their data is found", found == if with_data { expected } else { 0 });
        }
    }
}

/// 32 entries and then something else: ended at every interval of a 33rd, and fields that make no entry.
pub fn thirty_third(compare: &mut Compare, random: &mut Random) {
    let full = items_of(&entries(MOST_ENTRIES, false));
    let with = |behind: &[Piece]| stream_of(&WORKED, &[full.clone(), items_of(behind)].concat());
    let (before, whole) = (with(&[]).len(), with(&[id(99, 0)]));
    let mut refused = 0;
    for end in before..=whole.len() {
        compare.index(&WORKED, &whole[..end]);
        refused += usize::from(library_index(&WORKED, &whole[..end]).number == 15);
    }
    compare.claim("crowded once the 33rd ID reads", (100..200).contains(&refused));
    let others = [
        vec![Piece { sum: false, ..id(99, 0) }],
        vec![id(99, 4)],
        vec![id(99, 0).without_lock()],
        vec![Piece { marks: vec![A1; 2], ..id(99, 0) }, small_data()],
        vec![small_data()],
    ];
    for (which, behind) in others.iter().enumerate() {
        compare.index(&WORKED, &with(behind));
        let index = library_index(&WORKED, &with(behind));
        let found = index.entries[MOST_ENTRIES - 1].found;
        compare.claim("no 33rd entry is needed", index.count == 32 && usize::from(found) == which / 4);
        let crowded = [behind.clone(), vec![id(100, 0)]].concat();
        compare.index(&WORKED, &with(&crowded));
        let mut damaged = with(&[vec![id(100, 0)], behind.clone()].concat());
        damaged.extend(random.intervals(&WORKED, "nw34nw"));
        compare.index(&WORKED, &damaged);
        compare.claim("crowded whatever follows", library_index(&WORKED, &damaged) == crowded_index());
    }
}

fn crowded_index() -> Index {
    Index { number: 15, ..Index::default() }
}

/// Every combination of the faults 1, 2 and 15.
pub fn faults(compare: &mut Compare, random: &mut Random) {
    const CROWDED: u32 = 2;
    let tracks = [entries(1, true), entries(MOST_ENTRIES + 1, false)].map(|pieces| items_of(&pieces));
    for faults in (0..1 << 3).map(Faults) {
        for _ in 0..20 {
            let eleven = profile_with(faults, random);
            let building = building_profile(&eleven, random);
            compare.index(&eleven, &stream_of(&building, &tracks[usize::from(faults.has(CROWDED))]));
        }
    }
}

/// Fields in any order, as written, moved within the margin and damaged.
pub fn random_fields(compare: &mut Compare, random: &mut Random) {
    let mut kinds = [0; 3];
    for _ in 0..500 {
        let eleven = random.true_profile();
        let pieces: Vec<Piece> = (0..random.between(1, 8)).map(|which| random_piece(which % 2 == 0, random)).collect();
        let stream = stream_of(&eleven, &items_of(&pieces));
        compare.index(&eleven, &shifted(&eleven, &stream, random));
        let mut damaged = stream;
        for _ in 0..random.between(1, 4) {
            damage(&eleven, &mut damaged, random);
        }
        compare.index(&eleven, &damaged);
        for entry in index_track(&eleven, &damaged).expect("at most four IDs") {
            kinds[entry.data.map_or(0, |data| 1 + usize::from(data.holds))] += 1;
        }
    }
    compare.claim(&format!("no data, failing and good: {kinds:?}"), kinds.iter().all(|times| *times > 50));
}

/// The items of sectors of any length code, one after the other.
fn made_sectors(ids: &[[u8; 4]], random: &mut Random) -> Vec<u16> {
    let sector = |id: &[u8; 4]| {
        let size = 128 << id[3];
        let fill = random.byte();
        let data = if random.one_in(4) { vec![fill; size] } else { random.bytes(size) };
        sector_items(*id, &data)
    };
    ids.iter().flat_map(sector).collect()
}

fn random_ids(count: usize, most_code: u64, random: &mut Random) -> Vec<[u8; 4]> {
    let mut code = || random.between(0, most_code) as u8;
    let codes: Vec<u8> = (0..count).map(|_| code()).collect();
    codes.into_iter().map(|code| [random.byte(), random.byte(), random.byte(), code]).collect()
}

/// Tracks of made sectors with some damage.
pub fn damaged_sectors(compare: &mut Compare, random: &mut Random) {
    for _ in 0..60 {
        let eleven = random.true_profile();
        let ids = random_ids(3, 1, random);
        let track = stream_of(&eleven, &made_sectors(&ids, random));
        for _ in 0..6 {
            let mut damaged = track.clone();
            for _ in 0..random.between(1, 5) {
                damage(&eleven, &mut damaged, random);
            }
            compare.index(&eleven, &damaged);
        }
    }
}

/// A track of made sectors, every interval moved by at most the margin, has exactly these, with their data and sums, by
/// number, those of one number as they were written.
pub fn made_tracks(compare: &mut Compare, random: &mut Random) {
    for count in (1..=8).chain([9, 16, 26, 31, 32]) {
        let eleven = random.true_profile();
        let mut ids = random_ids(count, if count <= 9 { 3 } else { 0 }, random);
        let track = shifted(&eleven, &stream_of(&eleven, &made_sectors(&ids, random)), random);
        ids.sort_by_key(|id| id[2]);
        compare.index(&eleven, &track);
        let index = library_index(&eleven, &track);
        let entry = |which: usize| index.entries[which];
        let same = |(which, id): (usize, &[u8; 4])| {
            let e = entry(which);
            [e.track, e.side, e.sector, e.code] == *id && (e.found, e.holds) == (1, 1)
        };
        compare.claim("every sector is in the index", ids.iter().enumerate().all(same));
        compare.claim("and no more", (index.number, index.count) == (0, count as u64));
    }
}

/// The locks of a made sector's fields are 278 to 295 intervals apart, whatever its ID: the least, the most, and others.
pub fn distances(compare: &mut Compare, random: &mut Random) {
    let told = [([170, 82, 181, 2], Some(278)), ([0, 0, 62, 0], Some(295))];
    let others = random_ids(300, 3, random).into_iter().map(|id| (id, None));
    for (id, distance) in told.into_iter().chain(others) {
        let track = stream_of(&WORKED, &made_sectors(&[id], random));
        compare.index(&WORKED, &track);
        let entry = library_index(&WORKED, &track).entries[0];
        let apart = entry.data_place - entry.id_place;
        compare.claim(&format!("{id:?}: its locks are {apart} apart"), distance.is_none_or(|told| told == apart));
        compare.claim(&format!("{id:?}: 278 to 295, not {apart}"), (278..=295).contains(&apart));
    }
}

/// Long tracks: places beyond 65,536 and 131,072, and thousands of locks that read as nothing.
pub fn long_tracks(compare: &mut Compare, random: &mut Random) {
    let sector = stream_of(&WORKED, &items_of(&[id(1, 0), small_data()]));
    for letters in ["3", "2", "w"] {
        for length in [65_536 - 96, 65_536, 131_072] {
            let mut gap = random.intervals(&WORKED, &letters.repeat(length));
            gap.extend(&sector);
            compare.index(&WORKED, &gap);
            let after = [gap.clone(), gap].concat();
            compare.index(&WORKED, &after);
        }
    }
    for end in LOCK_ENDS {
        for between in ["", "3", "n", "w", "24343"] {
            let lock = "2".repeat(64) + end + between;
            for times in [600, 601] {
                let mut locks = random.intervals(&WORKED, &lock.repeat(times));
                compare.index(&WORKED, &locks);
                locks.extend(&sector);
                compare.index(&WORKED, &locks);
            }
        }
    }
    for piece in [Piece { sum: false, ..id(1, 0) }, id(1, 4), small_data(), Piece { marks: vec![A1; 2], ..id(1, 0) }] {
        let one = stream_of(&WORKED, &piece.items());
        compare.index(&WORKED, &[one.repeat(200), sector.clone()].concat());
    }
}

/// Intervals without a plan but for the runs that make locks.
pub fn random_classes(compare: &mut Compare, random: &mut Random) {
    for _ in 0..1_000 {
        let eleven = random.true_profile();
        let mut letters = String::new();
        for _ in 0..random.between(1, 5) {
            letters += &"2".repeat(random.pick(&[63, 64, 64, 65, 80]));
            letters += random.pick(&["34343", "343432434324343", "3434324343243432222222", "3234342343", "3434"]);
            let among: Vec<char> = random.pick(&["2234", "234", "2", "22222234", "234nw"]).chars().collect();
            let more = random.between(0, 60);
            letters.extend((0..more).map(|_| random.pick(&among)));
        }
        let intervals = random.intervals(&eleven, &letters);
        compare.index(&eleven, &intervals);
    }
}
