//! Masters that are harmed, cut, or something else: each is told, with its reason.

mod common;

use common::{back, pages_of, pass, Random, FORMATS};
use mfm_disk::disk::{Disk, Place};
use mfm_disk::geometry::Geometry;
use mfm_disk::make::{self, turn_of};
use mfm_disk::read::profile_of;
use mfm_page::layout::{disk_of, Density};
use mfm_page::master::Master;
use mfm_page::page::Page;

/// The first byte of half cells of a page's data on its track, as `turn_of` puts them: 80 gap bytes, then for each
/// sector 1,140 bytes, of which the data begins at the 60th.
fn data_at(page: usize) -> usize {
    2 * (80 + (page - 1) % 5 * 1_140 + 60)
}

fn sixteen(seed: u64) -> (Vec<Page>, Disk) {
    let pages = Random(seed).pages(16, 0xFF);
    let disk = disk_of(&pages, Density::Double).unwrap();
    (pages, disk)
}

/// The disk with the data of these pages overwritten.
fn harmed(disk: &Disk, pages: &[usize]) -> Disk {
    let mut disk = disk.clone();
    for page in pages {
        let at = data_at(*page) + 400;
        disk.turns[(page - 1) / 5].cells[at..at + 20].fill(0);
    }
    disk
}

#[test]
fn a_harmed_page_is_told_and_the_others_are_shown() {
    let (pages, disk) = sixteen(1);
    for page in 1..=16 {
        let disk = harmed(&disk, &[page]);
        let lines = back(&disk).unwrap_err();
        assert_eq!(lines.len(), 1);
        assert!(lines[0].starts_with(&format!("page {page}: lost page (refusal 19): ")), "{lines:?}");
        let master = Master::of(vec![pass(&disk)]).unwrap();
        for other in (1..=16).filter(|other| *other != page) {
            assert_eq!(master.page(other as u8).unwrap().page, pages[other - 1]);
        }
        let before = (page > 1).then(|| pages_of(&master, page - 1).unwrap());
        assert!(before.is_none_or(|before| before == pages[..page - 1]), "pages before it are given");
    }
}

#[test]
fn a_last_page_that_is_lost_with_its_id_is_missed() {
    let (pages, disk) = sixteen(8);
    for count in 1..=16 {
        let mut disk = disk_of(&pages[..count], Density::Double).unwrap();
        let id = data_at(count) - 2 * 40;
        disk.turns[(count - 1) / 5].cells[id..id + 2].fill(0xAA);
        let lines = back(&disk).unwrap_err();
        assert!(lines[0].contains("2 field(s) that belong to no page read") || count == 1, "{lines:?}");
        let master = Master::of(vec![pass(&disk)]).unwrap();
        assert!(count == 1 || pages_of(&master, count - 1).unwrap() == pages[..count - 1]);
        assert!(pages_of(&master, count).unwrap_err()[0].ends_with("no ID of it was read"));
    }
    let both = Master::of(vec![pass(&disk), pass(&harmed(&disk, &[1]))]).unwrap();
    assert!(both.all_pages().is_ok(), "one good pass is certain");
}

#[test]
fn two_passes_give_what_one_lost() {
    let (pages, disk) = sixteen(2);
    let one = harmed(&disk, &[1, 7, 16]);
    let two = harmed(&disk, &[2, 8, 15]);
    for (first, second) in [(&one, &two), (&two, &one), (&disk, &one)] {
        let master = Master::of(vec![pass(first), pass(second)]).unwrap();
        assert_eq!(pages_of(&master, 16).unwrap(), pages);
    }
    let three = harmed(&disk, &[7]);
    let master = Master::of(vec![pass(&one), pass(&three)]).unwrap();
    let lines = pages_of(&master, 16).unwrap_err();
    assert!(lines.len() == 1 && lines[0].starts_with("page 7: lost page (refusal 19): "), "{lines:?}");
}

#[test]
fn passes_over_unlike_masters_are_at_odds() {
    let (pages, disk) = sixteen(3);
    let mut others = pages;
    others[8].0[999] ^= 1;
    let other = disk_of(&others, Density::Double).unwrap();
    let told = Master::of(vec![pass(&disk), pass(&other)]).err().unwrap();
    assert_eq!(
        told,
        "at odds (refusal 17): page 9 is twice on one master, or its two good copies differ; \
         read at track 1, side 0 and at track 1, side 0"
    );
}

/// A master of one track with these sectors: the first number, how many, the code and the data's byte.
fn track(first: u8, sectors: usize, code: u8, byte: u8) -> Disk {
    let geometry = Geometry { sides: 1, tracks: 1, sectors, code, first };
    make::disk_of(&geometry, &vec![byte; geometry.image_bytes()]).unwrap()
}

#[test]
fn what_is_no_master_is_told() {
    let told = |disk: &Disk| back(disk).unwrap_err().join("; ");
    // sectors of another length, and of data to the end
    assert_eq!(told(&track(1, 2, 2, 0)).matches("lost page (refusal 19): it has length code 2, not 3").count(), 2);
    let soiled = "soiled fill (refusal 20): other bytes than 00 stand behind its cells";
    assert_eq!(told(&track(1, 2, 3, 1)), format!("page 1: {soiled}; page 2: {soiled}"));
    // numbers from 0 on, from 2 on, and beyond all pages
    assert_eq!(back(&track(0, 3, 3, 0)).unwrap().len(), 2);
    assert_eq!(told(&track(2, 2, 3, 0)), "page 1: lost page (refusal 19): no ID of it was read");
    assert_eq!(told(&track(17, 2, 3, 0)), "page 1: lost page (refusal 19): no ID of it was read");
    // the same numbers on each track, and more than 32 sectors
    let mut twice = track(1, 5, 3, 0);
    let again = Geometry { sides: 1, tracks: 1, sectors: 5, code: 3, first: 1 };
    twice.turns.push(turn_of(&again, Place { track: 1, side: 0 }, twice.rate, &[0; 5 * 1_024]).unwrap());
    assert!(told(&twice).starts_with("at odds (refusal 17): page 1 is twice on one master"));
    let geometry = Geometry { sides: 2, tracks: 80, sectors: 9, code: 2, first: 1 };
    let usual = make::disk_of(&geometry, &vec![0; geometry.image_bytes()]).unwrap();
    assert_eq!(told(&usual), "crowded (refusal 15): more than 32 sectors");
    // a track that stands where its IDs do not say
    let mut moved = track(1, 5, 3, 0);
    moved.turns.insert(0, moved.turns[0].clone());
    moved.turns[0].cells.fill(0);
    assert!(told(&moved).contains("page 5: lost page (refusal 19): track 1, side 0: its ID names track 0"));
}

#[test]
fn cut_masters_are_told() {
    let (_, disk) = sixteen(5);
    for format in FORMATS {
        let file = format.build(&disk, profile_of(&disk, None)).unwrap();
        for part in 0..64 {
            let cut = &file[..file.len() * part / 64];
            let told = format.parse(cut).map(|disk| back(&disk).is_err());
            assert!(told.is_err() || told == Ok(true), "{format:?} cut at {}", cut.len());
        }
    }
}
