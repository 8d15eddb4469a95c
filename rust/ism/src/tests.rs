//! What the wrapper adds to the library: types, texts, sets and states. `tests/outside` compares the answers.

use std::error::Error;
use std::string::ToString;
use std::vec::Vec;

use crate::*;

const WORKED: Profile = Profile {
    t1: 58,
    t0: 29,
    early: 8,
    normal: 10,
    late: 12,
    min: 36,
    b23_short: 73,
    b23_long: 73,
    b34_short: 106,
    b34_long: 106,
    rpt: 139,
};

#[test]
fn every_refusal_keeps_its_number_and_place() {
    for number in 1..=1_000 {
        let refusal = Refusal::from_numbers(number, 7).expect("a refusal");
        assert_eq!(refusal.number(), number);
        assert!(refusal.place() == 7 || refusal.place() == 0, "{refusal:?}");
    }
    assert_eq!(Refusal::from_numbers(0, 0), None);
}

#[test]
fn refusals_are_errors_with_a_line_of_text_each() {
    let texts: Vec<_> = (1..=20).map(|n| Refusal::from_numbers(n, 3).expect("a refusal").to_string()).collect();
    for (k, text) in texts.iter().enumerate() {
        assert!(text.len() > 10 && !text.contains('\n') && !text.ends_with('.'), "{text}");
        assert!(!texts[..k].contains(text), "{text}");
    }
    let boxed: std::boxed::Box<dyn Error + Send + Sync> = Refusal::NoLock.into();
    assert_eq!(boxed.to_string(), Refusal::NoLock.to_string());
}

#[test]
fn a_profile_says_which_number_is_out_of_range() {
    assert_eq!(margin(WORKED), Ok(10));
    assert_eq!(margin(Profile { late: 16, ..WORKED }), Err(Refusal::ProfileOutOfRange { field: 5 }));
    assert_eq!(margin(Profile { b23_long: 88, ..WORKED }), Err(Refusal::ProfileInconsistent));
}

#[test]
fn classes_and_clearances_are_the_library_s() {
    let classed = |d| classify(WORKED, d, true).expect("a true profile");
    assert_eq!(classed(35), Classed { class: Class::Narrow, clearance: 0 });
    assert_eq!(classed(58), Classed { class: Class::Two, clearance: 14 });
    assert_eq!(classed(73), Classed { class: Class::Three, clearance: 0 });
    assert_eq!(classed(116), Classed { class: Class::Four, clearance: 10 });
    assert_eq!(classed(139), Classed { class: Class::Wide, clearance: 0 });
}

#[test]
fn a_sector_is_made_written_found_and_read() {
    let id = SectorId { track: 3, side: 0, sector: 7, code: 1 };
    let (mut items, mut stream) = ([0; 256 + SECTOR_OVERHEAD], [0; write_room(372)]);
    assert_eq!(make_sector(id, &[0x5A; 256], &mut items), Ok(370));
    let count = write(WORKED, &items, &mut stream).expect("room for all");
    let stream = &stream[..count];

    let place = find_lock(WORKED, stream, 0).expect("the ID");
    let mut field = [0; ID_BYTES];
    let read = read_field(WORKED, &stream[place..], ID_BYTES, &mut field).expect("the ID");
    assert!(read.holds && read.items == ID_BYTES && read.clearance >= 10);
    assert_eq!(field[3..8], [0xFE, 3, 0, 7, 1]);
    assert_eq!(read_rest(WORKED, &stream[place..], ID_BYTES, &mut field), &stream[place + read.used..]);
    assert_eq!(read_rest(WORKED, stream, 0, &mut field), stream);

    let index = index_track(WORKED, stream).expect("one sector");
    let entry = index.entries().next().expect("one sector");
    assert!(index.len() == 1 && !index.is_empty());
    assert_eq!((entry.id, entry.place, entry.data.map(|data| data.holds)), (id, place, Some(true)));
    assert_eq!(find_lock(WORKED, stream, usize::MAX), Err(Refusal::NoLock));
}

#[test]
fn a_refusal_leaves_the_output() {
    let mut out = [9; 4];
    assert_eq!(write(WORKED, &[0x00], &mut out), Err(Refusal::OutputTooShort));
    assert_eq!(write(WORKED, &[0x00, 0x1A2], &mut out), Err(Refusal::NotAnItem { place: 1 }));
    assert_eq!(read(WORKED, &[35], &mut out), Err(Refusal::IntervalTooShort { place: 0 }));
    assert_eq!(read_field(WORKED, &[58; 9], MAX_FIELD_BYTES + 1, &mut out), Err(Refusal::CountOutOfRange));
    assert_eq!(out, [9; 4]);
}

#[test]
fn images_there_and_back() {
    let (mut words, mut items) = ([0; 4], [0; 4]);
    assert_eq!(make_image(&[MARK_A1, MARK_C2, CHECK], &mut words), Ok(4));
    assert_eq!(words[..2], [0x4489, 0x5224]);
    assert_eq!(read_image(&words, &mut items), Ok(4));
    assert_eq!(items[..2], [MARK_A1, MARK_C2]);
    assert_eq!(read_image(&[0xAAAA, 0xFFFF], &mut items), Err(Refusal::UnrulyWord { place: 1 }));
}

#[test]
fn a_set_is_packed_and_unpacked() {
    let mut buffer = [0; 300];
    let mut set = SectorSet::new(&mut buffer);
    let sector = Sector { number: 9, code: 0, holds: true, data: &[1; 128] };
    assert_eq!(set.push(Sector { code: 1, ..sector }), Err(Refusal::SectorSizeMismatch));
    assert_eq!(set.push(Sector { code: 4, ..sector }), Err(Refusal::SectorSizeMismatch));
    assert_eq!(set.push(sector), Ok(()));
    assert_eq!(set.push(Sector { number: 200, holds: false, ..sector }), Ok(()));
    assert_eq!(set.push(sector), Err(Refusal::OutputTooShort));
    assert_eq!(set.bytes().len(), 262);
    let numbers: Vec<_> = sectors(set.bytes()).map(|sector| (sector.number, sector.holds)).collect();
    assert_eq!(numbers, [(9, true), (200, false)]);
    assert_eq!(sectors(&set.bytes()[..261]).count(), 1);
    let odd = merge(set.bytes(), &[200, 4, 1], &mut []).err();
    assert_eq!(odd, Some(Refusal::SectorSizeMismatch));
    let twice = [set.bytes(), set.bytes()].concat();
    assert_eq!(merge(&twice, &[], &mut []).err(), Some(Refusal::SectorsAtOdds { sector: 9 }));
    let mut out = [0; 262];
    assert_eq!(merge(set.bytes(), &[], &mut out).expect("one set").count(), 2);
}

#[test]
fn reports_add_up_to_64_bits() {
    let report = drive_report(WORKED, &[35, 58, 54, 91, 139]).expect("a true profile");
    assert_eq!(report.row(Class::Two), ReportRow { count: 2, least: 54, greatest: 58, sum: 112 });
    assert_eq!(report.row(Class::Four), ReportRow::default());
    assert_eq!(report.add(report).expect("small").row(Class::Wide).sum, 278);
    let mut most = report;
    most.rows[0].sum = u64::MAX;
    assert_eq!(most.add(report), Err(Refusal::TooLong));
}

#[test]
fn limits_name_sides() {
    let limits = margin_limits(WORKED).expect("a true profile");
    let sides: Vec<_> = limits.iter().map(|limit| (limit.edge, limit.after, limit.side)).collect();
    assert_eq!(sides, [(Edge::B34, After::Short, Side::Below), (Edge::B34, After::Long, Side::Above)]);
}

#[test]
fn the_fifo_follows_its_state() {
    let mut fifo = Fifo::new(FifoMode::Read);
    assert_eq!(fifo.chip_put(MARK_A1), Ok(()));
    assert_eq!(fifo.chip_put(0x1A2), Err(Refusal::NotAnItem { place: 0 }));
    assert_eq!(fifo.put(0x4E), Ok(())); // not this side's, in this mode
    assert_eq!(fifo.take_data(), MARK_A1);
    assert_eq!(fifo.read_error(), 2);
    assert_eq!((fifo.take_mark(), fifo.read_error(), fifo.read_error()), (0, 4, 0));
    assert_eq!(fifo.chip_put(MARK_C2), Ok(()));
    assert_eq!((fifo.take_mark(), fifo.read_error()), (MARK_C2, 0));
    let mut fifo = Fifo::new(FifoMode::Write);
    assert_eq!((fifo.chip_take(), fifo.read_error()), (0, 1));
    assert_eq!((fifo.put(0x4E), fifo.put(CHECK)), (Ok(()), Ok(())));
    assert_eq!((fifo.chip_take(), fifo.chip_take(), fifo.read_error()), (0x4E, CHECK, 0));
}
