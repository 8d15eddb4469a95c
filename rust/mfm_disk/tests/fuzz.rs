//! Files that were cut and changed: each is told or read, and nothing breaks.

mod common;

use common::{image_of, random_disk, Random, FORMATS};
use mfm_disk::disk::{Disk, Turn};
use mfm_disk::format::Format;
use mfm_disk::geometry::Geometry;
use mfm_disk::list::List;
use mfm_disk::read::profile_of;

const CASES: usize = 6_000;

/// A disk of short turns, two sectors on each, so that many files can be tried.
fn short_disk(random: &mut Random) -> Disk {
    let geometry = Geometry { sides: 2, tracks: 2, sectors: 2, code: 1, first: 1 };
    let (_, disk) = random_disk(random, &geometry);
    let turns = disk.turns.iter().map(|turn| Turn::of(turn.cells[100..1_800].to_vec())).collect();
    Disk { turns, ..disk }
}

/// One way of harming a file.
fn harm(random: &mut Random, file: &mut Vec<u8>) {
    let length = file.len().max(1);
    // headers and lists have most to say
    let place = |random: &mut Random| match random.below(3) {
        0 => random.below(length.min(24)),
        1 => random.below(length.min(600)),
        _ => random.below(length),
    };
    match random.below(6) {
        0 => file.truncate(random.below(length)),
        1 => file.extend(vec![0x4E; 1 + random.below(300)]),
        2 => {
            let (at, count) = (place(random), random.below(64));
            let end = (at + count).min(file.len());
            file.drain(at.min(end)..end);
        }
        3 => {
            let (at, byte) = (place(random), [0, 0xFF, 0x80, 0x7F][random.below(4)]);
            file.iter_mut().skip(at).take(1 + random.below(8)).for_each(|old| *old = byte);
        }
        _ => {
            for _ in 0..1 + random.below(8) {
                let (at, bit) = (place(random), random.below(8));
                if let Some(byte) = file.get_mut(at) {
                    *byte ^= 1 << bit;
                }
            }
        }
    }
}

/// Reads a file in all ways and makes it again in all containers.
fn try_file(format: Format, file: &[u8]) -> bool {
    let Ok(disk) = format.parse(file) else { return false };
    let profile = profile_of(&disk, None);
    let list = List::of(&disk, profile);
    assert!(list.text().lines().count() >= 2);
    assert!(list.json("file", format.name()).ends_with("]}\n"));
    if let Some((geometry, image)) = image_of(&disk) {
        assert_eq!(image.bytes.len(), geometry.image_bytes());
    }
    for other in FORMATS {
        if let Ok(made) = other.build(&disk, profile) {
            assert!(other.parse(&made).is_ok(), "{other:?} from {format:?}");
        }
    }
    true
}

fn fuzzed(format: Format, seed: u64) {
    let mut random = Random(seed);
    let disk = short_disk(&mut random);
    let good = format.build(&disk, profile_of(&disk, None)).unwrap();
    assert!(try_file(format, &good));
    let mut read = 0;
    for _ in 0..CASES {
        let mut file = good.clone();
        for _ in 0..1 + random.below(3) {
            harm(&mut random, &mut file);
        }
        read += usize::from(try_file(format, &file));
    }
    // both kinds have to occur for the test to say something
    assert!(read > CASES / 20 && read < CASES, "{read} of {CASES} were read");
}

#[test]
fn harmed_hfe_files_break_nothing() {
    fuzzed(Format::Hfe, 21);
}

#[test]
fn harmed_mfm_files_break_nothing() {
    fuzzed(Format::Mfm, 22);
}

#[test]
fn harmed_dmk_files_break_nothing() {
    fuzzed(Format::Dmk, 23);
}

#[test]
fn every_cut_is_told_or_read() {
    let disk = short_disk(&mut Random(24));
    for format in FORMATS {
        let good = format.build(&disk, profile_of(&disk, None)).unwrap();
        for length in 0..good.len() {
            // HFE fills its last block, and DMK has its length in its header
            let read = try_file(format, &good[..length]);
            assert!(!read || format == Format::Hfe && length + 512 > good.len(), "{format:?} cut at {length}");
        }
    }
}

#[test]
fn random_bytes_are_no_disk() {
    let mut random = Random(25);
    for _ in 0..2_000 {
        let length = random.below(3_000);
        let file = random.bytes(length);
        assert!(FORMATS.iter().all(|format| !try_file(*format, &file)));
    }
}
