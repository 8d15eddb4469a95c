//! The cases that the paper settles by number, published check values, and the worked examples of the chip's
//! specification. Each is compared with the library and with the value that the document prints.

use super::WORKED;
use crate::compare::Compare;
use crate::paper::{
    self, classes, crc_of, lengths_of, stream_of, strip, symbols_of_pair, Eleven, Refused, CHECK_ORDER,
};
use crate::random::Random;

/// The worked profile with some of its numbers, counted from 0, changed to another.
fn worked_with(which: &[usize], number: u16) -> Eleven {
    let mut eleven = WORKED;
    which.iter().for_each(|which| eleven[*which] = number);
    eleven
}

fn refused<T>(number: u32, place: u32) -> Result<T, Refused> {
    Err(Refused { number, place })
}

fn writes(compare: &mut Compare, eleven: &Eleven, items: &[u16], stream: &[u16]) {
    compare.write(eleven, items, stream.len() + 3);
    let written = paper::write(eleven, items, stream.len());
    compare.claim(&format!("{items:04X?} is written as {stream:?}"), written.as_deref() == Ok(stream));
}

fn has_classes(compare: &mut Compare, items: &[u16], letters: &str) {
    compare.write(&WORKED, items, letters.len());
    let written = classes(&WORKED, &stream_of(&WORKED, items));
    compare.claim(&format!("{items:04X?} has the classes {letters}"), written == letters);
}

fn has_margin(compare: &mut Compare, eleven: &Eleven, margin: Result<u64, Refused>) {
    compare.margin(eleven);
    compare.claim(&format!("{eleven:?} has the margin {margin:?}"), paper::margin(eleven) == margin);
}

fn reads(compare: &mut Compare, intervals: &[u16], items: Result<Vec<u16>, Refused>) {
    compare.read(&WORKED, intervals, intervals.len());
    let read = paper::read(&WORKED, intervals, intervals.len());
    compare.claim(&format!("{intervals:?} reads as {items:04X?}"), read == items);
}

/// "Settled by this profile", in the paper's order.
pub fn by_the_paper(compare: &mut Compare, _: &mut Random) {
    writes(compare, &WORKED, &[], &[58, 58]);
    writes(compare, &WORKED, &[0x00], &[58; 10]);
    writes(compare, &WORKED, &[0xFF], &[95, 54, 58, 58, 58, 58, 58, 54, 95]);
    writes(compare, &WORKED, &[0x1A1], &[91, 116, 87, 116, 87, 91]);
    has_classes(compare, &[0x1A1], "343433");
    has_classes(compare, &[0xA1], "3432233");
    has_classes(compare, &[0x1C2], "3234332");
    has_margin(compare, &WORKED, Ok(10));
    for (interval, class) in [(35, 1), (36, 2), (72, 2), (73, 3), (105, 3), (106, 4), (138, 4), (139, 5)] {
        compare.class(&WORKED, interval);
        let both = [true, false].map(|after_short| paper::class(&WORKED, after_short, interval));
        compare.claim(&format!("{interval} is of class {class}"), both == [Ok(class); 2]);
    }
    reads(compare, &[], refused(7, 0));
    reads(compare, &[35], refused(5, 0));
    margins(compare);
    lengths_allowed(compare);
    field_answers(compare);
    sector_counts(compare);
    strip_example(compare);
}

/// Margins with B23 or B34 changed for both kinds of cell before, or for one of them.
fn margins(compare: &mut Compare) {
    let [b23_short, b23_long, b34_short, b34_long] = [6, 7, 8, 9];
    has_margin(compare, &worked_with(&[b23_short, b23_long], 87), Ok(0));
    has_margin(compare, &worked_with(&[b23_short, b23_long], 88), refused(2, 0));
    has_margin(compare, &worked_with(&[b23_short], 91), Ok(0));
    has_margin(compare, &worked_with(&[b23_short], 92), refused(2, 0));
    has_margin(compare, &worked_with(&[b23_short], 59), Ok(0));
    has_margin(compare, &worked_with(&[b23_short], 58), refused(2, 0));
    has_margin(compare, &worked_with(&[b23_long], 55), Ok(0));
    has_margin(compare, &worked_with(&[b23_long], 54), refused(2, 0));
    has_margin(compare, &worked_with(&[b23_long], 87), Ok(0));
    has_margin(compare, &worked_with(&[b23_long], 88), refused(2, 0));
    // the worked margin does not see the precompensation at the edge between classes 3 and 4; these do
    has_margin(compare, &worked_with(&[b34_short, b34_long], 105), Ok(9));
    has_margin(compare, &worked_with(&[b34_short], 105), Ok(9));
    has_margin(compare, &worked_with(&[b34_long], 102), Ok(10));
    has_margin(compare, &worked_with(&[b34_long], 101), Ok(9));
    has_margin(compare, &worked_with(&[b34_short], 110), Ok(10));
    has_margin(compare, &worked_with(&[b34_short], 111), Ok(9));
}

/// Bits known are those that the cells give: a byte 00 takes nine intervals. The register tells a damaged field.
fn field_answers(compare: &mut Compare) {
    let id = [0x1A1, 0x1A1, 0x1A1, 0xFE, 7, 0, 3, 1, CHECK_ORDER];
    let whole = stream_of(&WORKED, &id);
    // side 1 instead of 0 under the check bytes of side 0
    let mut written: Vec<u16> = paper::written_bytes(&id).iter().map(|w| w.item()).collect();
    written[5] = 1;
    let changed = stream_of(&WORKED, &written);
    let plain_data = stream_of(&WORKED, &[0x4E, 0x00, CHECK_ORDER]);
    for (stream, bytes, holds) in
        [(vec![58; 9], 1, false), (whole, 10, true), (changed, 10, false), (plain_data, 4, true)]
    {
        compare.field(&WORKED, &stream, bytes, 10);
        let field = paper::read_field(&WORKED, &stream, bytes, 10).expect("a whole field");
        compare.claim(&format!("{bytes} bytes: check is {holds}"), field.holds == holds);
    }
    let used = paper::read_field(&WORKED, &[58; 20], 1, 1).map(|field| field.used);
    compare.claim("a byte 00 takes nine intervals", used == Ok(9));
}

fn sector_counts(compare: &mut Compare) {
    let data = [0xE5; 256];
    compare.sector([0, 0, 1, 1], &data, 370);
    let items = paper::make_sector([0, 0, 1, 1], &data, 370).expect("room enough");
    compare.claim("a sector of 256 bytes is 370 items", items.len() == 370);
    compare.claim("and 372 written bytes", paper::written_count(&items) == 372);
}

fn lengths_allowed(compare: &mut Compare) {
    for (count, allowed) in [(6_400, true), (6_401, false)] {
        let list = vec![0; count];
        compare.write(&WORKED, &list, 60_000);
        let written = paper::write(&WORKED, &list, 60_000);
        compare.claim(&format!("{count} bytes"), if allowed { written.is_ok() } else { written == refused(4, 0) });
    }
    for (bytes, allowed) in [(1_030, true), (1_031, false)] {
        let stream = vec![58; 9_000];
        compare.field(&WORKED, &stream, bytes, 2_000);
        let field = paper::read_field(&WORKED, &stream, bytes, 2_000);
        compare.claim(&format!("a field of {bytes}"), if allowed { field.is_ok() } else { field == refused(12, 0) });
    }
}

fn strip_example(compare: &mut Compare) {
    let input = "profile 58 29 8 10 12 36 73 73 106 106 139\nmark A1\n".replace(' ', "\t");
    let output = "margin 10\ncell 0 3 91\ncell 1 4 116\ncell 2 3 87\ncell 3 4 116\ncell 4 3 87\ncell 5 3 91\nend 6\n";
    let printed = strip::output(input.as_bytes());
    compare.claim("the strip program's example", printed == output.replace(' ', "\t"));
}

/// The library's CRC register after a row of data bytes: a check order behind them, written and read back.
pub fn library_crc(bytes: &[u8]) -> u16 {
    let data: Vec<u16> = bytes.iter().map(|b| u16::from(*b)).collect();
    let check = check_bytes(&[data, vec![CHECK_ORDER]].concat());
    check[check.len() - 2] * 256 + check[check.len() - 1]
}

/// What the library writes and reads back for a list.
fn check_bytes(items: &[u16]) -> Vec<u16> {
    let profile = crate::compare::profile(&WORKED);
    let mut stream = vec![0; ism::MAX_INTERVALS];
    let count = ism::write(profile, items, &mut stream).expect("a list within the limit");
    let mut read = vec![0; ism::MAX_BYTES];
    let count = ism::read(profile, &stream[..count], &mut read).expect("the stream of a list").items;
    read.truncate(count);
    read
}

/// The library has this program's version, as the wrapper's.
pub fn version(compare: &mut Compare, _: &mut Random) {
    let parts = env!("CARGO_PKG_VERSION").split('.').map(|part| part.parse::<u32>().expect("a number"));
    let number = parts.fold(0, |number, part| 100 * number + part);
    compare.claim(&format!("the library is of version {number}"), ism::version() == number);
}

/// Check values printed elsewhere: CRC-16 with all ones of "123456789", and the register behind three marks A1.
pub fn check_values(compare: &mut Compare, _: &mut Random) {
    compare.claim("paper's CRC of 123456789", crc_of(b"123456789") == 0x29B1);
    compare.claim("library's CRC of 123456789", library_crc(b"123456789") == 0x29B1);
    compare.claim("paper's CRC of A1 A1 A1", crc_of(&[0xA1; 3]) == 0xCDB4);
    let after_marks = |list: &[u16]| check_bytes(list)[list.len() - 1..].to_vec();
    compare.claim("library's check after three marks", after_marks(&[0x1A1, 0x1A1, 0x1A1, 512]) == [0xCD, 0xB4]);
    let restarted = [0x4E, 0x00, 0x1A1, 0x1A1, 0x1A1, 512];
    compare.claim("marks behind data restart the register", after_marks(&restarted) == [0xCD, 0xB4]);
    let twice = [0x1A1, 0xFE, 512, 512];
    compare.claim("a second check order writes 00 00", check_bytes(&twice)[4..] == [0x00, 0x00]);
    for list in [restarted.as_slice(), &twice, &[512], &[512, 512], &[0x1C2, 512, 0x1A1, 512]] {
        compare.write(&WORKED, list, 100);
    }
    let no_check = check_bytes(&[512]);
    compare.claim("a check order alone writes the start value", no_check == [0xFF, 0xFF]);
}

/// The worked examples of the chip's specification.
pub fn by_the_chip(compare: &mut Compare, _: &mut Random) {
    trans_space_example(compare);
    precompensation_example(compare);
    mark_reading_example(compare);
}

/// Section 3.4, example 1: data 1 1 1 0 0 1 0 1 0 0 1 gives 1 1 0 1 01 0 01 0 1 01.
fn trans_space_example(compare: &mut Compare) {
    let data = "11100101001";
    let pairs: Vec<&str> = (0..data.len() - 1).map(|at| symbols_of_pair(&data[at..at + 2])).collect();
    compare.claim("trans-space data of example 1", pairs.join(" ") == "1 1 0 1 01 0 01 0 1 01");
    // the same bits as bytes E5 20, a lead 0 before them: 01, the example, and 0 1 1 1 1 1 1 for the rest
    let symbols = "01".to_string() + &pairs.concat() + "0111111";
    let cells: String = symbols.split_terminator('1').map(|zeros| char::from(b'2' + zeros.len() as u8)).collect();
    has_classes(compare, &[0xE5, 0x20], &cells);
}

/// Section 3.5, example 2: Time 1 of 29 clocks, Time 0 of 14, compare points 8, 10, 12; the pattern 1 1 1 0 0 1 1 has
/// cells of 29, 27, 61 and again 27 clocks. Byte F7 has that pattern inside.
fn precompensation_example(compare: &mut Compare) {
    let eleven = worked_with(&[1], 28);
    compare.claim("cells of example 2", lengths_of(&eleven, "110011") == [58, 54, 122, 54]);
    compare.claim("a string of 1s is not compensated", lengths_of(&eleven, "1111") == [58; 4]);
    writes(compare, &eleven, &[0xF7], &[94, 54, 58, 54, 122, 54, 54, 94]);
}

/// Section 4.5: 1 1 1 ... 1 0 1 0 0 1 0 1 0 0 1 0 1 is a string of zeros and the mark A1.
fn mark_reading_example(compare: &mut Compare) {
    let symbols = "1111111111111010010100101";
    let cells = lengths_of(&WORKED, symbols);
    // thirteen zeros and the 0 of the first cell of 3; five of them stand before the lead 0 of this field
    let field = &cells[5..];
    compare.field(&WORKED, field, 2, 2);
    let read = paper::read_field(&WORKED, field, 2, 2).map(|f| (f.items, f.used));
    compare.claim("zeros and a mark A1", read == Ok((vec![0x00, 0x1A1], 13)));
    let locked = [vec![58; 64 - 13], cells].concat();
    compare.find(&WORKED, &locked, 0);
    compare.claim("the mark is a lock", paper::find(&WORKED, &locked, 0) == Ok(64));
}
