//! Tracks whose entries are told beforehand: what makes an entry and what does not, and where each search goes on.

use super::call::{ism_index_track, library_index, Index};
use super::pieces::{data, id, items_of, places_of, small_data, Piece, A1, C2};
use crate::cases::margins::shifted;
use crate::cases::{OVERLAP, WORKED};
use crate::compare::Compare;
use crate::paper::index::{Data, Entry};
use crate::paper::{read_field, stream_of, written_bytes, LOCK_ENDS};
use crate::random::Random;

/// An entry by the numbers of its pieces: the ID's, and the data's with whether its sum holds.
type Told = (usize, Option<(usize, bool)>);

/// The index that a track of pieces is told to have, its entries in this order.
fn told_index(pieces: &[Piece], told: &[Told]) -> Index {
    let places = places_of(pieces);
    let entry = |(which, found): &Told| {
        let id: Vec<u8> = pieces[*which].content.iter().map(|item| *item as u8).collect();
        let data = found.map(|(which, holds)| Data { place: places[which], holds });
        Entry { id: id.try_into().expect("four bytes"), id_place: places[*which], data }
    };
    Index::of(&told.iter().map(entry).collect::<Vec<_>>())
}

/// The track of these pieces, as written and moved within the margin, has these entries.
fn tell(compare: &mut Compare, random: &mut Random, what: &str, pieces: &[Piece], told: &[Told]) {
    let items = items_of(pieces);
    let index = told_index(pieces, told);
    for eleven in [WORKED, random.true_profile()] {
        let stream = stream_of(&eleven, &items);
        let moved = shifted(&eleven, &stream, random);
        for intervals in [stream, moved] {
            compare.index(&eleven, &intervals);
            compare.claim(&format!("the index of a track: {what}"), library_index(&eleven, &intervals) == index);
        }
    }
}

/// Sectors, and IDs whose data is not found.
pub fn sectors(compare: &mut Compare, random: &mut Random) {
    let [a, b] = [id(1, 0), id(2, 0)];
    let good = small_data();
    let bad = Piece { sum: false, ..small_data() };
    let mut tell = |what: &str, pieces: &[&Piece], told: &[Told]| {
        let pieces: Vec<Piece> = pieces.iter().copied().cloned().collect();
        tell(compare, random, what, &pieces, told);
    };
    tell("nothing at all", &[], &[]);
    tell("a sector", &[&a, &good], &[(0, Some((1, true)))]);
    tell("a sector whose data sum fails", &[&a, &bad], &[(0, Some((1, false)))]);
    tell("two sectors", &[&a, &good, &b, &bad], &[(0, Some((1, true))), (2, Some((3, false)))]);
    tell("a sector twice", &[&a, &good, &a, &good], &[(0, Some((1, true))), (2, Some((3, true)))]);
    tell("an ID and no more", &[&a], &[(0, None)]);
    tell("another ID before the data", &[&a, &b, &good], &[(0, None), (1, Some((2, true)))]);
    tell("IDs alone, the lower number first", &[&b, &a, &b], &[(1, None), (0, None), (2, None)]);
    tell("the later data first", &[&b, &good, &a, &bad], &[(2, Some((3, false))), (0, Some((1, true)))]);
    tell("data alone", &[&good, &good], &[]);
    tell("data twice", &[&a, &good, &good], &[(0, Some((1, true)))]);
    for name in [0xF8, 0xFA, 0xFC, 0xFE, 0xFF, 0xA1, 0xBF, A1] {
        let other = Piece { name, ..small_data() };
        tell("no FB at the next lock", &[&a, &other, &good], &[(0, None)]);
    }
    for marks in wrong_marks() {
        let other = Piece { marks, ..small_data() };
        tell("not three A1 marks before FB", &[&a, &other, &b, &good], &[(0, None), (2, Some((3, true)))]);
    }
    let lost = Piece { gap: vec![], ..small_data() }.without_lock();
    tell("no lock at the data", &[&a, &lost], &[(0, None)]);
    tell("the next data, no lock between", &[&a, &lost, &b.clone().without_lock(), &bad], &[(0, Some((3, false)))]);
    tell("no lock at the ID", &[&a.clone().without_lock(), &good, &b, &good], &[(2, Some((3, true)))]);
    let two_c2 = Piece { marks: vec![C2; 3], name: 0xFC, content: vec![], ..id(0, 0) };
    tell("a lock of C2 marks between", &[&a, &two_c2, &good], &[(0, None)]);
    let one_c2 = Piece { marks: vec![C2], ..two_c2 };
    tell("one C2 mark is no lock", &[&a, &one_c2, &good], &[(0, Some((2, true)))]);
}

/// Data fields that do not read: an interval narrow or wide, a gap out of place, and the list ended within.
pub fn unreadable(compare: &mut Compare, random: &mut Random) {
    let pieces = [id(1, 0), small_data(), id(2, 0), small_data()];
    let (track, places) = (stream_of(&WORKED, &items_of(&pieces)), places_of(&pieces));
    let indexed = told_index(&pieces, &[(0, None), (2, Some((3, true)))]);
    // the data begins with 00: cells of 2 behind the intervals of the marks and FB
    for (behind, letter) in [(30, 'n'), (30, 'w'), (30, '4'), (500, 'n'), (500, 'w')] {
        let mut broken = track.clone();
        broken[places[1] + behind] = random.interval(&WORKED, letter);
        compare.index(&WORKED, &broken);
        compare.claim("data that does not read", library_index(&WORKED, &broken) == indexed);
    }
    for end in [places[1] + 5, places[1] + 500, places[2] - 500] {
        compare.index(&WORKED, &track[..end]);
        let alone = told_index(&pieces, &[(0, None)]);
        compare.claim("a list that ends within the data", library_index(&WORKED, &track[..end]) == alone);
    }
}

/// Marks that no field of a sector has; with each of them a lock stands.
fn wrong_marks() -> Vec<Vec<u16>> {
    let three = [[A1, A1, 0xA1], [A1, 0xA1, A1], [A1, C2, A1], [A1, A1, C2], [C2, C2, C2], [C2, C2, A1]];
    three.iter().map(|marks| marks.to_vec()).chain([vec![A1], vec![A1; 2], vec![A1; 4], vec![C2; 2]]).collect()
}

/// Fields that look like an ID and are none, each before good data.
pub fn no_ids(compare: &mut Compare, random: &mut Random) {
    let mut others: Vec<(&str, Piece)> = vec![("the ID sum fails", Piece { sum: false, ..id(1, 0) })];
    others.extend([4, 5, 7, 128, 255].map(|code| ("a length code above 3", id(1, code))));
    others.extend([0xF8, 0xFC, 0xFD, 0xFF, 0x7E, A1, C2].map(|name| ("no FE", Piece { name, ..id(1, 0) })));
    others.extend(wrong_marks().into_iter().map(|marks| ("not three A1 marks before FE", Piece { marks, ..id(1, 0) })));
    for mark in [A1, C2] {
        for place in 0..4 {
            let mut marked = id(1, 0);
            marked.content[place] = mark;
            others.push(("a mark among the four bytes", marked));
        }
    }
    others.push(("three bytes and the check", Piece { content: vec![39, 1, 0], ..id(1, 0) }));
    for (what, other) in others {
        tell(compare, random, what, &[other.clone(), small_data()], &[]);
        let between = [id(7, 0), other, small_data(), id(8, 0), small_data()];
        tell(compare, random, what, &between, &[(0, None), (3, Some((4, true)))]);
    }
}

/// A data field whose 128 bytes hold a whole other field, lock and all.
fn data_around(inner: &Piece) -> Piece {
    let written: Vec<u16> = written_bytes(&inner.items()).iter().map(|w| w.item()).collect();
    data([vec![0x4E; 128 - written.len()], written].concat())
}

/// Data of each length code, fields within fields, and data that is longer or shorter than the code says.
pub fn sizes(compare: &mut Compare, random: &mut Random) {
    for code in 0..=3 {
        let content = random.bytes(128 << code).into_iter().map(u16::from).collect();
        let pieces = [id(9, code), data(content), id(10, 0), small_data()];
        tell(compare, random, "each length code", &pieces, &[(0, Some((1, true))), (2, Some((3, true)))]);
    }
    let around = data_around(&id(5, 0));
    tell(compare, random, "an ID within the data", &[id(1, 0), around.clone()], &[(0, Some((1, true)))]);
    let deleted = Piece { name: 0xF8, ..around };
    let track = stream_of(&WORKED, &items_of(&[id(1, 0), deleted, id(2, 0), small_data()]));
    compare.index(&WORKED, &track);
    let index = library_index(&WORKED, &track);
    let sectors = index.entries.map(|entry| (entry.sector, entry.found));
    compare.claim("an ID within data of no ID", index.count == 3 && sectors[..3] == [(1, 0), (2, 1), (5, 0)]);
    // 262 bytes from the lock of 134 take in the next ID field and the lock of its data
    let swallowed = [id(1, 1), small_data(), id(2, 0), small_data(), id(3, 0), small_data()];
    tell(compare, random, "data shorter than its code", &swallowed, &[(0, Some((1, false))), (4, Some((5, true)))]);
    let longer = [id(1, 0), data(vec![0xE5; 256]), id(3, 0), small_data()];
    tell(compare, random, "data longer than its code", &longer, &[(0, Some((1, false))), (2, Some((3, true)))]);
    compare.index(&WORKED, &[]);
    // SAFETY: the length of the null pointer is 0
    let answer = unsafe { ism_index_track(crate::compare::profile(&WORKED), std::ptr::null(), 0) };
    compare.claim("a null pointer of length 0 is an empty track", answer == Index::default());
}

/// An ID field without a gap behind it, the last of its check bytes as given.
fn id_ending_in(last: u16) -> Piece {
    let ids = (0..=u16::MAX).map(|number| {
        let [track, sector] = number.to_be_bytes();
        Piece { content: vec![u16::from(track), 1, u16::from(sector), 0], gap: vec![], ..id(0, 0) }
    });
    ids.into_iter().find(|piece| piece.items().last() == Some(&last)).expect("every byte ends some check")
}

/// The search for the data starts behind the ID's intervals: a run that begins within its check bytes is no sync.
pub fn search_after_id(compare: &mut Compare, random: &mut Random) {
    for last in [0x00, 0xFF, 0x01, 0x7F, 0x80] {
        let close = id_ending_in(last);
        for fill in [0x00, 0xFF] {
            for length in 6..=11 {
                let behind = Piece { sync: vec![fill; length], ..small_data() };
                compare.index(&WORKED, &stream_of(&WORKED, &items_of(&[close.clone(), behind])));
            }
        }
    }
    // of the 0s behind a 0 the last belongs to the mark: eight bytes are 63 intervals of class 2
    for (length, found) in [(7, None), (8, None), (9, Some((1, true))), (10, Some((1, true)))] {
        let behind = Piece { sync: vec![0; length], ..small_data() };
        tell(compare, random, "sync close behind the ID", &[id_ending_in(0), behind], &[(0, found)]);
        let other = Piece { sync: vec![0; length], ..id(255, 0) };
        let entries: &[Told] = if found.is_some() { &[(0, None), (1, None)] } else { &[(0, None)] };
        tell(compare, random, "another ID close behind the ID", &[id_ending_in(0), other], entries);
    }
}

/// A lock that reads as nothing, and an ID right behind its classes: the search goes on at the place after the lock.
pub fn search_after_lock(compare: &mut Compare, random: &mut Random) {
    let pieces = [id(1, 0), small_data()];
    let (sector, places) = (stream_of(&WORKED, &items_of(&pieces)), places_of(&pieces));
    for end in LOCK_ENDS {
        let front = random.intervals(&WORKED, &("2".repeat(64) + end));
        for sync in [62, 63, 64, 65, 66] {
            let cut = places[0] - sync;
            let track = [front.clone(), sector[cut..].to_vec()].concat();
            let moved = |place: usize| place - cut + front.len();
            let data = Some(Data { place: moved(places[1]), holds: true });
            let entry = Entry { id: [39, 1, 1, 0], id_place: moved(places[0]), data };
            let entries = if sync < 64 { vec![] } else { vec![entry] };
            compare.index(&WORKED, &track);
            compare.claim("an ID behind a lock", library_index(&WORKED, &track) == Index::of(&entries));
        }
    }
}

/// Each search begins anew, as after class 2: 90 half clocks are class 2 there, and class 4 after any other class.
pub fn searches_anew(compare: &mut Compare, _: &mut Random) {
    // the ID's last interval ends with a bit 1 behind a 0 and is not of class 2
    let pieces = [id_ending_in(0x01), small_data()];
    let (sector, places) = (stream_of(&OVERLAP, &items_of(&pieces)), places_of(&pieces));
    let used = read_field(&OVERLAP, &sector[places[0]..], 10, 10).expect("an ID field").used;
    let entry = |id_place: usize, data_place: Option<usize>| {
        let id: Vec<u8> = pieces[0].content.iter().map(|item| *item as u8).collect();
        let data = data_place.map(|place| Data { place, holds: true });
        Entry { id: id.try_into().expect("four bytes"), id_place, data }
    };
    let mut tells = |track: &[u16], entries: &[Entry]| {
        compare.index(&OVERLAP, track);
        compare.claim("each search begins anew", library_index(&OVERLAP, track) == Index::of(entries));
    };
    let after_id = places[0] + used;
    for (run, found) in [(62, None), (63, Some(after_id + 64))] {
        let track = [&sector[..after_id], &[90], &vec![58; run], &sector[places[1]..]].concat();
        tells(&track, &[entry(places[0], found)]);
    }
    // a mark's classes 3 4 3 4 3 that read as nothing; from the place after the first all are of class 2
    let mark = [97, 90, 80, 90, 80];
    for run in [59, 60] {
        let front = [&[58; 64], &mark[..], &vec![58; run]].concat();
        let moved = |place: usize| place - places[0] + front.len();
        let track = [&front, &sector[places[0]..]].concat();
        let found = entry(moved(places[0]), Some(moved(places[1])));
        tells(&track, if run < 60 { &[] } else { std::slice::from_ref(&found) });
    }
}
