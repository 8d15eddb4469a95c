//! The sector maker, and its sectors through writer and readers.

use ism::{Refusal, SectorId};

use super::margins::shifted;
use super::WORKED;
use crate::compare::{profile, Compare};
use crate::paper::{sector_items, stream_of, written_bytes, Eleven, CHECK_ORDER};
use crate::random::Random;

const SIZES: [usize; 4] = [128, 256, 512, 1024];

/// Every length code with data of each length about the four.
pub fn every_code(compare: &mut Compare, random: &mut Random) {
    let mut lengths = vec![0, 1, 2048, 4096, 32768];
    lengths.extend(SIZES.iter().flat_map(|size| [size - 1, *size, size + 1]));
    for code in 0..=255 {
        for length in &lengths {
            let data = random.bytes(*length);
            let id = [random.byte(), random.byte(), random.byte(), code];
            let room = random.room(length + 114).min(2_000);
            compare.sector(id, &data, room);
        }
    }
}

/// Each length code with every length about its own, and rooms about what such a sector needs.
pub fn own_length(compare: &mut Compare, random: &mut Random) {
    for (code, size) in (0..=4).zip([128, 256, 512, 1024, 2048]) {
        for length in size - 3..=size + 3 {
            for room in [0, length + 113, length + 114, length + 115] {
                compare.sector([random.byte(), random.byte(), random.byte(), code], &random.bytes(length), room);
            }
        }
        let made = make(code, size, size + 114);
        let expected = if (1..=3).contains(&code) { Ok(size + 114) } else { Err(Refusal::SectorSizeMismatch) };
        compare.claim(&format!("code {code} with its own length gives {made:?}"), made == expected);
    }
}

/// Request (xiii): code 0 is turned away whatever the data and the room, and nothing is stored.
pub fn code_0(compare: &mut Compare, random: &mut Random) {
    for length in (0..=300).chain([511, 512, 513, 1023, 1024, 1025, 4096]) {
        for room in [0, length + 113, length + 114, 2_000] {
            compare.sector([random.byte(), random.byte(), random.byte(), 0], &random.bytes(length), room);
            let made = make(0, length, room);
            compare.claim(&format!("{length} bytes under code 0"), made == Err(Refusal::SectorSizeMismatch));
        }
    }
}

/// A sector of zeros from the library's maker.
fn make(code: u8, length: usize, room: usize) -> Result<usize, Refusal> {
    ism::make_sector(SectorId { track: 1, side: 0, sector: 1, code }, &vec![0; length], &mut vec![0; room])
}

/// Sectors of each size, made but for the smallest, written and read.
pub fn there_and_back(compare: &mut Compare, random: &mut Random) {
    for _ in 0..40 {
        let code = random.between(0, 3) as u8;
        let size = SIZES[usize::from(code)];
        let data = random.bytes(size);
        let id = [random.byte(), random.byte(), random.byte(), code];
        for room in [0, size + 113, size + 114, size + 115] {
            compare.sector(id, &data, room);
        }
        let items = sector_items(id, &data);
        let stream = stream_of(&WORKED, &items);
        compare.write(&WORKED, &items, stream.len());
        compare.read(&WORKED, &stream, size + 116);
    }
}

/// Sectors of which the drive has moved every interval by at most the margin: the first lock is the ID's, the next one
/// after its field is the data's, and both fields read back with their sums.
pub fn found_within_margin(compare: &mut Compare, random: &mut Random) {
    for _ in 0..200 {
        let eleven = random.true_profile();
        let code = random.between(0, 3) as u8;
        let size = SIZES[usize::from(code)];
        let noise = random.bytes(size);
        let data = random.pick(&[noise, vec![0xFF; size], vec![0; size], vec![0x4E; size]]);
        let id = [random.byte(), random.byte(), random.byte(), code];
        let items = sector_items(id, &data);
        let track = shifted(&eleven, &stream_of(&eleven, &items), random);
        let used = reads_next(compare, &eleven, &track, 0, &field(0xFE, &id));
        reads_next(compare, &eleven, &track, used, &field(0xFB, &data));
    }
}

/// The written bytes of a field: three marks A1, the byte that names it, its bytes and its check bytes.
fn field(kind: u8, bytes: &[u8]) -> Vec<u16> {
    let mut items = vec![0x1A1, 0x1A1, 0x1A1, u16::from(kind)];
    items.extend(bytes.iter().map(|b| u16::from(*b)));
    items.push(CHECK_ORDER);
    written_bytes(&items).iter().map(|w| w.item()).collect()
}

/// The field at the first lock from `start` on is the one given; answers the place after its intervals.
fn reads_next(compare: &mut Compare, eleven: &Eleven, track: &[u16], start: usize, field: &[u16]) -> usize {
    compare.find(eleven, track, start as u64);
    let place = ism::find_lock(profile(eleven), track, start).expect("the next field's lock");
    let bytes = field.len();
    compare.field(eleven, &track[place..], bytes as u64, bytes);
    let mut out = vec![0; field.len()];
    let read = ism::read_field(profile(eleven), &track[place..], bytes, &mut out).expect("a whole field");
    compare.claim("the sector's next field reads back", out == field && read.holds);
    let rest = ism::read_rest(profile(eleven), &track[place..], bytes, &mut out);
    compare.claim("the rest of the track is the caller's own", std::ptr::eq(rest, &track[place + read.used..]));
    let all = ism::read_rest(profile(eleven), &track[place..], 0, &mut out);
    compare.claim("on a refusal the rest is the whole track", std::ptr::eq(all, &track[place..]));
    place + read.used
}
