//! Whole disks: from raw images to containers and back, and turns that begin anywhere.

mod common;

use common::{begun_later, image_of, random_disk, Random, FORMATS};
use mfm_disk::disk::Disk;
use mfm_disk::geometry::Geometry;
use mfm_disk::make;
use mfm_disk::read::{profile_of, read_disk};

fn geometry(sides: usize, tracks: usize, sectors: usize, code: u8, first: u8) -> Geometry {
    Geometry { sides, tracks, sectors, code, first }
}

/// Each container gives the geometry and the image back.
fn comes_back(random: &mut Random, geometry: Geometry) {
    let (image, disk) = random_disk(random, &geometry);
    for format in FORMATS {
        let file = format.build(&disk, profile_of(&disk, None)).unwrap();
        let read = format.parse(&file).unwrap();
        let (found, back) = image_of(&read).expect("sectors");
        assert_eq!((found, back.unread), (geometry, vec![]), "{format:?}");
        assert!(back.bytes == image, "{format:?} {geometry:?}");
    }
}

#[test]
fn every_number_of_sectors_that_fits_comes_back() {
    let mut random = Random(1);
    for code in 1..=3 {
        let most = [32, 19, 10][usize::from(code) - 1];
        for sectors in 1..=most {
            comes_back(&mut random, geometry(1 + sectors % 2, 1 + sectors % 3, sectors, code, (sectors % 2) as u8));
        }
        assert!(make::rate_for(&geometry(1, 1, [34, 20, 11][usize::from(code) - 1], code, 1)).is_none());
    }
}

#[test]
fn numbers_may_begin_anywhere_and_tracks_be_many() {
    let mut random = Random(2);
    comes_back(&mut random, geometry(1, 2, 9, 2, 0xC1));
    comes_back(&mut random, geometry(2, 1, 32, 1, 224));
    comes_back(&mut random, geometry(1, 255, 1, 1, 1));
}

#[test]
fn full_and_empty_sectors_come_back() {
    let geometry = geometry(1, 1, 9, 2, 1);
    for byte in 0..=255 {
        let image = vec![byte; geometry.image_bytes()];
        let disk = make::disk_of(&geometry, &image).unwrap();
        assert!(image_of(&disk).expect("sectors").1.bytes == image, "{byte}");
    }
}

#[test]
fn a_turn_may_begin_anywhere() {
    let mut random = Random(3);
    for geometry in [geometry(1, 1, 9, 2, 1), geometry(1, 1, 32, 1, 1), geometry(1, 1, 1, 3, 1)] {
        let (image, disk) = random_disk(&mut random, &geometry);
        let length = disk.turns[0].len();
        for i in 0..160 {
            // in the fields of the first sector, then anywhere
            let start = if i < 80 { 1_280 + 91 * i } else { random.below(length) };
            let turn = begun_later(&disk.turns[0], start);
            let later = Disk { turns: vec![turn], ..disk };
            for format in FORMATS {
                let file = format.build(&later, profile_of(&later, None)).unwrap();
                let (found, back) = image_of(&format.parse(&file).unwrap()).expect("sectors");
                assert_eq!((found, back.unread), (geometry, vec![]), "{format:?} begun at {start}");
                assert!(back.bytes == image, "{format:?} begun at {start}");
            }
        }
    }
}

#[test]
fn every_sector_is_found_once() {
    let mut random = Random(4);
    let geometry = geometry(1, 1, 18, 2, 1);
    let (_, disk) = random_disk(&mut random, &geometry);
    for _ in 0..200 {
        let turn = begun_later(&disk.turns[0], random.below(disk.turns[0].len()));
        let later = Disk { turns: vec![turn], ..disk };
        let read = read_disk(&later, profile_of(&later, None), "");
        let numbers: Vec<u8> = read.ids().flat_map(|(_, sectors)| sectors).map(|sector| sector.id.sector).collect();
        assert_eq!(numbers, (1..=18).collect::<Vec<u8>>());
    }
}
