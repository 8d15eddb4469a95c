//! DMK: tracks as bytes, with the places of the IDs.
//!
//! A header of 16 bytes: whether it is write-protected, the tracks, the length of a track, flags. A track has a table
//! of 64 places of ID marks FE, counted from the table's start, bit 15 set for double density, and then its bytes.
//! Which A1 are marks is not said: those before an FE that the table names, and those before the data mark behind it.

mod decode;
mod encode;

use crate::disk::{Disk, DOUBLE_DENSITY, HIGH_DENSITY};

pub use decode::{decode, Decoded};

const HEADER: usize = 16;
/// Bytes of the table of ID marks.
const TABLE: usize = 128;
/// The longest track: a place in the table has 14 bits.
const LONGEST: usize = 0x4000;
const SINGLE_SIDED: u8 = 0x10;
const DOUBLE_DENSITY_ID: u16 = 0x8000;
const PLACE: u16 = 0x3FFF;
/// Tracks with more bytes than this are of high density.
const DOUBLE_DENSITY_BYTES: usize = 8_400;
/// What a disk in a real drive has at the end of its header.
const REAL_DRIVE: [u8; 4] = [0x78, 0x56, 0x34, 0x12];

/// The disk of a file.
pub fn parse(file: &[u8]) -> Result<Disk, String> {
    let Some(header) = file.get(..HEADER) else {
        return Err("this is no DMK file: it has not even a header of 16 bytes".to_string());
    };
    let tracks = usize::from(header[1]);
    let length = usize::from(u16::from_le_bytes([header[2], header[3]]));
    let sides = if header[4] & SINGLE_SIDED != 0 { 1 } else { 2 };
    if header[12..] == REAL_DRIVE {
        return Err("this file stands for a disk in a real drive and has no tracks".to_string());
    }
    if ![0, 0xFF].contains(&header[0]) || tracks == 0 || length <= TABLE || length > LONGEST {
        return Err("this is no DMK file: its header says what no such file has".to_string());
    }
    let whole = HEADER + tracks * sides * length;
    if file.len() != whole {
        let how = if file.len() < whole { "stops too early" } else { "is longer than it says" };
        return Err(format!(
            "the file {how}: {tracks} tracks of {length} bytes on {sides} side(s) are {whole} bytes with the header, \
             the file has {}",
            file.len()
        ));
    }
    let rate = if length - TABLE > DOUBLE_DENSITY_BYTES { HIGH_DENSITY } else { DOUBLE_DENSITY };
    let mut turns = Vec::with_capacity(tracks * sides);
    for (i, track) in file[HEADER..].chunks(length).enumerate() {
        let (table, bytes) = track.split_at(TABLE);
        let what = |text| format!("track {}, side {}: {text}", i / sides, i % sides);
        turns.push(encode::turn_of(table, bytes).map_err(what)?);
    }
    Ok(Disk { sides, rate, turns })
}

/// The file of tracks that were turned into bytes. Shorter ones are filled with gap bytes.
pub fn build(sides: usize, tracks: &[Decoded]) -> Result<Vec<u8>, String> {
    let count = tracks.len() / sides;
    let number = u8::try_from(count).map_err(|_| format!("DMK has 255 tracks at most, not {count}"))?;
    let length = TABLE + tracks.iter().map(|track| track.bytes.len()).max().unwrap_or(0).max(1);
    if length > LONGEST {
        return Err(format!("a track has {} bytes; DMK has room for {}", length - TABLE, LONGEST - TABLE));
    }
    let mut file = vec![0; HEADER];
    file[1] = number;
    file[2..4].copy_from_slice(&(length as u16).to_le_bytes());
    file[4] = if sides == 1 { SINGLE_SIDED } else { 0 };
    for (i, track) in tracks.iter().enumerate() {
        if track.ids.len() > TABLE / 2 {
            let place = format!("track {}, side {}", i / sides, i % sides);
            return Err(format!("{place} has {} IDs; DMK has room for 64", track.ids.len()));
        }
        let table = track.ids.iter().map(|place| (TABLE + place) as u16 | DOUBLE_DENSITY_ID);
        let begin = file.len();
        file.extend(table.flat_map(u16::to_le_bytes));
        file.resize(begin + TABLE, 0);
        file.extend(&track.bytes);
        file.resize(begin + length, 0x4E);
    }
    Ok(file)
}

#[cfg(test)]
mod tests {
    use super::*;

    fn file(sides: usize, lengths: &[usize]) -> Vec<u8> {
        let track = |length: &usize| Decoded { bytes: vec![0x4E; *length], ids: vec![] };
        build(sides, &lengths.iter().map(track).collect::<Vec<_>>()).unwrap()
    }

    #[test]
    fn the_header_and_the_tables_are_as_described() {
        let tracks = [Decoded { bytes: vec![1; 300], ids: vec![7, 200] }, Decoded { bytes: vec![2; 298], ids: vec![] }];
        let file = build(1, &tracks).unwrap();
        assert_eq!(file[..16], [0, 2, 0xAC, 1, 0x10, 0, 0, 0, 0, 0, 0, 0, 0, 0, 0, 0]);
        assert_eq!(file[16..22], [0x87, 0x80, 0x48, 0x81, 0, 0]);
        assert_eq!((file.len(), file[16 + 128], file[16 + 428 + 128 + 297]), (16 + 2 * 428, 1, 2));
        assert_eq!(file[16 + 428 + 128 + 298..], [0x4E, 0x4E], "filled with gap bytes");
    }

    #[test]
    fn sides_and_rate_are_told_by_the_header() {
        let disk = parse(&file(2, &[6_250; 4])).unwrap();
        assert_eq!((disk.sides, disk.tracks(), disk.rate, disk.turns[3].len()), (2, 2, 250, 100_000));
        let disk = parse(&file(1, &[12_500; 3])).unwrap();
        assert_eq!((disk.sides, disk.tracks(), disk.rate), (1, 3, 500));
    }

    #[test]
    fn what_is_no_such_file_is_told() {
        let good = file(2, &[300; 4]);
        let with = |at: usize, bytes: &[u8]| {
            let mut file = good.clone();
            file[at..at + bytes.len()].copy_from_slice(bytes);
            parse(&file).unwrap_err()
        };
        assert!(with(0, &[7]).contains("no DMK file"));
        assert!(with(1, &[0]).contains("no DMK file"));
        assert!(with(2, &[128, 0]).contains("no DMK file"));
        assert!(with(2, &[1, 0x40]).contains("no DMK file"));
        assert!(with(1, &[3]).contains("stops too early"));
        assert!(with(1, &[1]).contains("is longer than it says"));
        assert!(with(12, &REAL_DRIVE).contains("a real drive"));
        assert!(with(16 + 428, &[1, 0x80]).contains("track 0, side 1: its ID 0 is at 1, outside the track"));
        assert!(parse(&good[..15]).unwrap_err().contains("no DMK file"));
    }

    #[test]
    fn tracks_and_ids_beyond_the_room_are_told() {
        let long = [Decoded { bytes: vec![0; LONGEST - TABLE + 1], ids: vec![] }];
        assert!(build(1, &long).unwrap_err().contains("room for 16256"));
        let crowded = [Decoded { bytes: vec![0; 300], ids: (0..65).collect() }];
        assert!(build(1, &crowded).unwrap_err().contains("track 0, side 0 has 65 IDs"));
    }
}
