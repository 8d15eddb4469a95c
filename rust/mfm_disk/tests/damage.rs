//! Disks on which something is lost.

mod common;

use common::{image_of, random_disk, Random, FORMATS};
use ism::Refusal;
use mfm_disk::disk::{Disk, Turn};
use mfm_disk::geometry::Geometry;
use mfm_disk::list::List;
use mfm_disk::make;
use mfm_disk::read::{profile_of, read_disk};
use mfm_disk::track::{Data, Found};

const NINE: Geometry = Geometry { sides: 1, tracks: 1, sectors: 9, code: 2, first: 1 };
/// Bytes on the track before the first sector, of a sector, and of a sector before its data.
const FIRST: usize = 80;
const SECTOR: usize = 512 + 116;
const BEFORE_DATA: usize = 12 + 10 + 22 + 12 + 4;

fn sectors(disk: &Disk) -> Vec<Found> {
    let read = read_disk(disk, profile_of(disk, None), "");
    read.ids().flat_map(|(_, sectors)| sectors.to_vec()).collect()
}

/// A disk of nine sectors in whose third the half cells of some bytes are overwritten.
fn harmed(from: usize, count: usize, cells: u8) -> Disk {
    let (_, mut disk) = random_disk(&mut Random(11), &NINE);
    let begin = 2 * (FIRST + 2 * SECTOR + from);
    disk.turns[0].cells[begin..begin + 2 * count].fill(cells);
    disk
}

#[test]
fn an_id_whose_data_lock_is_lost_has_data_that_is_not_its_own() {
    // the sync field of the data, and the ID of the next sector, so that its data is the next lock
    let mut disk = harmed(44, 12, 0x92);
    let next = 2 * (FIRST + 3 * SECTOR);
    disk.turns[0].cells[next..next + 30].fill(0x92);
    let found = sectors(&disk);
    assert_eq!(found.iter().map(|sector| sector.id.sector).collect::<Vec<_>>(), [1, 2, 3, 5, 6, 7, 8, 9]);
    assert!(matches!(found[2].data, Data::NotItsOwn { .. }));
    let list = List::of(&disk, profile_of(&disk, None));
    assert!(!list.all_read());
    assert!(list.text().contains("data not its own"));
    let (_, image) = image_of(&disk).unwrap();
    let why: Vec<_> = image.unread.iter().map(|unread| (unread.number, unread.why.as_str())).collect();
    assert_eq!(why, [(3, "data not its own: the lock of its data is lost"), (4, "no ID of it was read")]);
}

#[test]
fn a_stretch_without_transitions_does_not_bring_other_data_near() {
    // from the data's sync field to the next sector's, without its ID
    let disk = harmed(44, SECTOR, 0);
    let found = sectors(&disk);
    assert!(matches!(found[2].data, Data::NotItsOwn { at } if at - found[2].at < 300));
    assert_eq!(found.len(), 8);
}

#[test]
fn an_id_before_another_id_has_no_data() {
    let disk = harmed(44, 12, 0x92);
    assert_eq!(sectors(&disk)[2].data, Data::Missing { refusal: None });
}

#[test]
fn an_id_whose_data_does_not_read_says_the_refusal() {
    let disk = harmed(BEFORE_DATA + 200, 4, 0);
    let Data::Missing { refusal: Some(refusal) } = sectors(&disk)[2].data else { panic!() };
    assert_eq!(refusal.number(), 6);
    let list = List::of(&disk, profile_of(&disk, None));
    assert!(list.text().contains("no data                 15  wide (refusal 6): interval "), "{}", list.text());
    assert!(list.json("a", "b").contains("\"data_at\":null,\"sum\":\"no data\",\"refusal\":\"wide\""));
    let (_, image) = image_of(&disk).unwrap();
    assert!(image.unread[0].why.starts_with("no data: wide (refusal 6): interval "));
}

#[test]
fn a_changed_byte_makes_the_sum_fail_in_every_container() {
    let disk = harmed(BEFORE_DATA + 100, 1, 0x92);
    for format in FORMATS {
        let file = format.build(&disk, profile_of(&disk, None)).unwrap();
        let found = sectors(&format.parse(&file).unwrap());
        assert!(matches!(found[2].data, Data::Own { holds: false, .. } | Data::Missing { .. }), "{format:?}");
        let good = found.iter().filter(|sector| matches!(sector.data, Data::Own { holds: true, .. })).count();
        assert_eq!((found.len(), good), (9, 8), "{format:?}");
    }
}

#[test]
fn a_track_of_33_sectors_is_crowded() {
    let geometry = Geometry { sides: 1, tracks: 1, sectors: 33, code: 1, first: 1 };
    let data = Random(12).bytes(geometry.image_bytes());
    let place = geometry.places().next().unwrap();
    let turn = make::turn_of(&geometry, place, 500, &data).unwrap();
    let disk = Disk { sides: 1, rate: 500, turns: vec![turn] };
    let read = read_disk(&disk, profile_of(&disk, None), "");
    assert_eq!(read.tracks[0].sectors, Err(Refusal::TooManySectors));
    let list = List::of(&disk, profile_of(&disk, None));
    assert_eq!(list.complaints()[0], "track 0, side 0: crowded (refusal 15): more than 32 sectors");
    assert!(list.json("a", "b").contains("{\"track\":0,\"side\":0,\"number\":15,\"word\":\"crowded\"}"));
}

#[test]
fn length_code_0_is_not_made() {
    let geometry = Geometry { sides: 1, tracks: 1, sectors: 9, code: 0, first: 1 };
    let told = make::disk_of(&geometry, &[0; 9 * 128]).unwrap_err();
    assert!(told.starts_with("track 0, side 0, sector 1: misfit (refusal 13)"), "{told}");
}

#[test]
fn empty_and_strange_turns_have_no_sectors() {
    for cells in [vec![], vec![0; 5_000], vec![0xFF; 5_000], vec![0x80], vec![0xAA; 5_000], vec![1, 0, 0, 0, 0]] {
        let disk = Disk { sides: 1, rate: 250, turns: vec![Turn::of(cells)] };
        assert_eq!(sectors(&disk), []);
        for format in FORMATS {
            let file = format.build(&disk, profile_of(&disk, None)).unwrap();
            assert_eq!(sectors(&format.parse(&file).unwrap()), []);
        }
    }
}
