//! HxC MFM: tracks as half cells, each side by itself.
//!
//! A header of 19 bytes: the signature, tracks, sides, turns a minute, bit rate, interface and the place of the track
//! list. The list has 11 bytes for each side of each track: track, side, bytes, place. The first half cell of a byte is
//! its highest bit.

use crate::bytes::{ends_early, part, sides_of, u16_at, u32_at};
use crate::disk::{Disk, Turn, HIGH_DENSITY};

const SIGNATURE: &[u8; 7] = b"HXCMFM\0";
const HEADER: usize = 19;
const ENTRY: usize = 11;
/// Where a track begins: at a multiple of this.
const ALIGNED: usize = 512;
/// The most tracks and the most bytes of a track that a disk has; more is a lie of the header.
const MOST_TRACKS: usize = 255;
const MOST_BYTES: usize = 65_536;
const TURNS_A_MINUTE: u16 = 300;
/// Interfaces: a PC's high-density drive, and the common double-density one.
const PC_HIGH_DENSITY: u8 = 1;
const SHUGART_DOUBLE_DENSITY: u8 = 7;

/// The disk of a file.
pub fn parse(file: &[u8]) -> Result<Disk, String> {
    if !file.starts_with(SIGNATURE) {
        return Err("this is no HxC MFM file: it does not begin with HXCMFM and 0".to_string());
    }
    let header = part(file, 0, HEADER).ok_or_else(|| ends_early(file, "the header", HEADER))?;
    let tracks = usize::from(u16::from_le_bytes([header[7], header[8]]));
    let sides = sides_of(header[9])?;
    if tracks == 0 || tracks > MOST_TRACKS {
        return Err(format!("its header says {tracks} tracks, not 1 to {MOST_TRACKS}"));
    }
    let rate = u16::from_le_bytes([header[12], header[13]]);
    let list = u32_at(header, 15).unwrap_or(0) as usize;
    let list_end = list + ENTRY * tracks * sides;
    if list_end > file.len() {
        return Err(ends_early(file, "the track list", list_end));
    }
    let mut turns: Vec<Option<Turn>> = vec![None; tracks * sides];
    for at in (list..list_end).step_by(ENTRY) {
        let (track, side, cells) = entry(file, at)?;
        let place = turns.get_mut(track * sides + side).filter(|_| side < sides);
        let turn = place.ok_or_else(|| format!("its track list names track {track}, side {side}, which it has not"))?;
        if turn.replace(Turn::of(cells)).is_some() {
            return Err(format!("its track list names track {track}, side {side} twice"));
        }
    }
    // so many entries, no place twice: every place has its own
    Ok(Disk { sides, rate, turns: turns.into_iter().flatten().collect() })
}

/// Track, side and half cells of an entry of the list.
fn entry(file: &[u8], at: usize) -> Result<(usize, usize, Vec<u8>), String> {
    let track = usize::from(u16_at(file, at).unwrap_or(0));
    let side = usize::from(file[at + 2]);
    let length = u32_at(file, at + 3).unwrap_or(0) as usize;
    let begin = u32_at(file, at + 7).unwrap_or(0) as usize;
    if length > MOST_BYTES {
        return Err(format!("track {track}, side {side} has {length} bytes, which no track has"));
    }
    let what = format!("track {track}, side {side},");
    let cells = part(file, begin, length).ok_or_else(|| ends_early(file, &what, begin + length))?;
    Ok((track, side, cells.to_vec()))
}

/// The file of a disk.
pub fn build(disk: &Disk) -> Result<Vec<u8>, String> {
    let interface = if disk.rate >= HIGH_DENSITY { PC_HIGH_DENSITY } else { SHUGART_DOUBLE_DENSITY };
    let tracks = u16::try_from(disk.tracks()).map_err(|_| format!("{} tracks are too many", disk.tracks()))?;
    let mut file = SIGNATURE.to_vec();
    file.extend(tracks.to_le_bytes());
    file.push(disk.sides as u8);
    file.extend(TURNS_A_MINUTE.to_le_bytes());
    file.extend(disk.rate.to_le_bytes());
    file.push(interface);
    file.extend((HEADER as u32).to_le_bytes());
    let mut begin = (HEADER + ENTRY * disk.turns.len()).next_multiple_of(ALIGNED);
    for (place, turn) in disk.places() {
        file.extend((place.track as u16).to_le_bytes());
        file.push(place.side as u8);
        file.extend((turn.cells.len() as u32).to_le_bytes());
        file.extend((begin as u32).to_le_bytes());
        begin += turn.cells.len().next_multiple_of(ALIGNED);
    }
    for turn in &disk.turns {
        file.resize(file.len().next_multiple_of(ALIGNED), 0);
        file.extend(&turn.cells);
    }
    Ok(file)
}

#[cfg(test)]
mod tests {
    use super::*;

    fn disk(sides: usize, lengths: &[usize]) -> Disk {
        let turns = lengths.iter().map(|n| Turn::of((0..*n).map(|i| (i * 5 + n) as u8).collect())).collect();
        Disk { sides, rate: 500, turns }
    }

    #[test]
    fn a_file_gives_its_disk_back() {
        for (sides, lengths) in [(1, vec![1, 512, 12_500]), (2, vec![12_500, 12_499, 513, 511, 0, 0])] {
            let disk = disk(sides, &lengths);
            assert_eq!(parse(&build(&disk).unwrap()), Ok(disk));
        }
    }

    #[test]
    fn the_header_and_the_list_are_as_described() {
        let file = build(&disk(1, &[3])).unwrap();
        assert_eq!(&file[..19], b"HXCMFM\0\x01\0\x01\x2C\x01\xF4\x01\x01\x13\0\0\0");
        assert_eq!(&file[19..30], [0, 0, 0, 3, 0, 0, 0, 0, 2, 0, 0]);
        assert_eq!(file[512..], [3, 8, 13]);
    }

    #[test]
    fn what_is_no_such_file_is_told() {
        let good = build(&disk(2, &[300, 300, 300, 300])).unwrap();
        let with = |at: usize, byte: u8| {
            let mut file = good.clone();
            file[at] = byte;
            parse(&file).unwrap_err()
        };
        assert!(with(0, b'X').contains("no HxC MFM file"));
        assert!(with(7, 0).contains("0 tracks"));
        assert!(with(8, 2).contains("514 tracks"));
        assert!(with(7, 255).contains("the track list ends"));
        assert!(with(9, 0).contains("0 sides"));
        assert!(with(18, 255).contains("the track list ends"));
        assert!(with(19, 9).contains("names track 9, side 0"));
        assert!(with(21, 2).contains("names track 0, side 2"));
        assert!(with(21, 1).contains("track 0, side 1 twice"));
        assert!(with(25, 255).contains("which no track has"));
        assert!(with(29, 255).contains("track 0, side 0, ends at byte"));
        assert!(parse(&good[..good.len() - 1]).unwrap_err().contains("track 1, side 1, ends at byte"));
        assert!(parse(&good[..18]).unwrap_err().contains("the header ends at byte 19"));
    }
}
