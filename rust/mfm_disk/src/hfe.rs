//! HFE version 1, the files of the HxC emulators.
//!
//! A header of 512 bytes; the track list, for each track its first block and its bytes on both sides together; the
//! tracks. Blocks have 512 bytes: 256 of side 0, then 256 of side 1. The first half cell of a byte is its lowest bit.

use crate::bytes::{ends_early, part, sides_of, u16_at};
use crate::disk::{Disk, Turn, GAP_CELLS, HIGH_DENSITY};

const SIGNATURE: &[u8; 8] = b"HXCPICFE";
const BLOCK: usize = 512;
const HALF_BLOCK: usize = BLOCK / 2;
/// Encodings of the header that are not MFM.
const FM: [u8; 2] = [2, 3];
/// Interfaces: a PC's high-density drive, and the common double-density one.
const PC_HIGH_DENSITY: u8 = 1;
const SHUGART_DOUBLE_DENSITY: u8 = 7;

/// The disk of a file.
pub fn parse(file: &[u8]) -> Result<Disk, String> {
    let header = part(file, 0, BLOCK).ok_or_else(|| short_header(file))?;
    if &header[..8] != SIGNATURE {
        return Err(match &header[..8] {
            b"HXCHFEV3" => "this is HFE version 3; version 1 is read".to_string(),
            _ => "this is no HFE file: it does not begin with HXCPICFE".to_string(),
        });
    }
    if header[8] != 0 {
        return Err(format!("this is HFE revision {}; revision 0, version 1, is read", header[8]));
    }
    let tracks = usize::from(header[9]);
    let sides = sides_of(header[10])?;
    if FM.contains(&header[11]) {
        return Err("its tracks are of single density (FM), which is not read".to_string());
    }
    if tracks == 0 {
        return Err("its header says 0 tracks".to_string());
    }
    let rate = u16::from_le_bytes([header[12], header[13]]);
    let list = usize::from(u16::from_le_bytes([header[18], header[19]])) * BLOCK;
    let list_end = list + 4 * tracks;
    if list == 0 || list_end > file.len() {
        return Err(ends_early(file, "the track list", list_end));
    }
    let mut turns = Vec::with_capacity(tracks * sides);
    for track in 0..tracks {
        let entry = list + 4 * track;
        let begin = usize::from(u16_at(file, entry).unwrap_or(0)) * BLOCK;
        let length = usize::from(u16_at(file, entry + 2).unwrap_or(0)) / 2;
        if length > 0 && begin < list_end {
            return Err(format!("track {track} begins at byte {begin}, before the end of the track list"));
        }
        for side in 0..sides {
            turns.push(Turn::of(
                side_of_track(file, begin, length, side)
                    .map_err(|end| ends_early(file, &format!("track {track}, side {side},"), end))?,
            ));
        }
    }
    Ok(Disk { sides, rate, turns })
}

fn short_header(file: &[u8]) -> String {
    match file.starts_with(SIGNATURE) {
        true => ends_early(file, "the header", BLOCK),
        false => "this is no HFE file: it does not begin with HXCPICFE".to_string(),
    }
}

/// The half cells of one side, or the byte at which they would end.
fn side_of_track(file: &[u8], begin: usize, length: usize, side: usize) -> Result<Vec<u8>, usize> {
    let mut cells = Vec::with_capacity(length);
    while cells.len() < length {
        let at = begin + cells.len() * 2 + side * HALF_BLOCK;
        let count = HALF_BLOCK.min(length - cells.len());
        cells.extend(part(file, at, count).ok_or(at + count)?.iter().map(|byte| byte.reverse_bits()));
    }
    Ok(cells)
}

/// The file of a disk.
pub fn build(disk: &Disk) -> Result<Vec<u8>, String> {
    let tracks =
        u8::try_from(disk.tracks()).map_err(|_| format!("HFE has 255 tracks at most, not {}", disk.tracks()))?;
    let list_blocks = (4 * disk.tracks()).div_ceil(BLOCK);
    let mut file = header(disk, tracks);
    file.resize((1 + list_blocks) * BLOCK, 0xFF);
    for (track, sides) in disk.turns.chunks(disk.sides).enumerate() {
        let length = sides.iter().map(|turn| turn.cells.len()).max().unwrap_or(0);
        let begin = u16::try_from(file.len() / BLOCK).map_err(|_| "HFE has 65,535 blocks at most".to_string())?;
        let both = u16::try_from(2 * length).map_err(|_| {
            format!("track {track} has {length} bytes of half cells on a side; HFE has room for 32,767")
        })?;
        let entry = BLOCK + 4 * track;
        file[entry..entry + 2].copy_from_slice(&begin.to_le_bytes());
        file[entry + 2..entry + 4].copy_from_slice(&both.to_le_bytes());
        append_blocks(&mut file, sides, length);
    }
    Ok(file)
}

fn header(disk: &Disk, tracks: u8) -> Vec<u8> {
    let interface = if disk.rate >= HIGH_DENSITY { PC_HIGH_DENSITY } else { SHUGART_DOUBLE_DENSITY };
    let mut header = vec![0xFF; BLOCK];
    header[..8].copy_from_slice(SIGNATURE);
    header[8] = 0; // revision
    header[9] = tracks;
    header[10] = disk.sides as u8;
    header[11] = 0; // MFM of the IBM kind
    header[12..14].copy_from_slice(&disk.rate.to_le_bytes());
    header[14..16].copy_from_slice(&[0, 0]); // turns a minute, not used
    header[16] = interface;
    header[17] = 1; // not used
    header[18..20].copy_from_slice(&[1, 0]); // the block of the track list
    header // writing allowed, single steps, no other encoding of track 0: all FF
}

/// The blocks of one track. A shorter side is filled with gap bytes, a missing one and the last block with 0.
fn append_blocks(file: &mut Vec<u8>, sides: &[Turn], length: usize) {
    let begin = file.len();
    file.resize(begin + length.div_ceil(HALF_BLOCK) * BLOCK, 0);
    for (side, turn) in sides.iter().enumerate() {
        let gap = GAP_CELLS.iter().copied().cycle();
        for (i, cells) in turn.cells.iter().copied().chain(gap).take(length).enumerate() {
            file[begin + i / HALF_BLOCK * BLOCK + side * HALF_BLOCK + i % HALF_BLOCK] = cells.reverse_bits();
        }
    }
}

#[cfg(test)]
mod tests {
    use super::*;

    fn disk(sides: usize, lengths: &[usize]) -> Disk {
        let turns = lengths.iter().map(|n| Turn::of((0..*n).map(|i| (i * 7 + n) as u8).collect())).collect();
        Disk { sides, rate: 250, turns }
    }

    #[test]
    fn a_file_gives_its_disk_back() {
        for (sides, lengths) in [(1, vec![1, 256, 12_500]), (2, vec![12_500, 12_500, 257, 257, 0, 0])] {
            let disk = disk(sides, &lengths);
            assert_eq!(parse(&build(&disk).unwrap()), Ok(disk));
        }
    }

    #[test]
    fn the_first_half_cell_is_the_lowest_bit_and_sides_alternate() {
        let file = build(&Disk { sides: 2, rate: 500, turns: vec![Turn::of(vec![0x80; 300]), Turn::of(vec![3; 300])] });
        let file = file.unwrap();
        assert_eq!(file.len(), 1024 + 1024);
        assert_eq!(
            (file[1024], file[1024 + 256], file[1536], file[1536 + 44], file[1536 + 256]),
            (1, 0xC0, 1, 0, 0xC0)
        );
        assert_eq!(&file[512..516], &[2, 0, 0x58, 2]);
    }

    #[test]
    fn a_shorter_side_is_filled_with_gap_bytes() {
        let read = parse(&build(&disk(2, &[4, 8])).unwrap()).unwrap();
        assert_eq!(read.turns[0].cells[4..], [0x92, 0x54, 0x92, 0x54]);
    }

    #[test]
    fn more_than_128_tracks_have_a_longer_list() {
        let disk = disk(1, &[16; 200]);
        assert_eq!(parse(&build(&disk).unwrap()), Ok(disk));
    }

    #[test]
    fn what_is_no_file_of_this_version_is_told() {
        let good = build(&disk(2, &[300, 300])).unwrap();
        let with = |at: usize, byte: u8| {
            let mut file = good.clone();
            file[at] = byte;
            parse(&file).unwrap_err()
        };
        assert!(with(0, b'X').contains("no HFE file"));
        assert!(with(8, 1).contains("revision 1"));
        assert!(with(9, 0).contains("0 tracks"));
        assert!(with(9, 255).contains("stops too early") || with(9, 255).contains("before the end"));
        assert!(with(10, 3).contains("3 sides"));
        assert!(with(11, 2).contains("single density"));
        assert!(with(18, 0).contains("track list"));
        assert!(with(19, 9).contains("stops too early"));
        assert!(with(512, 0).contains("before the end of the track list"));
        assert!(with(512, 9).contains("track 0, side 0, ends at byte"));
        assert!(parse(&good[..good.len() - 300]).unwrap_err().contains("stops too early"));
        assert!(parse(b"HXCPICFE").unwrap_err().contains("the header ends at byte 512"));
        assert!(parse(b"").unwrap_err().contains("no HFE file"));
        let mut third = good.clone();
        third[..8].copy_from_slice(b"HXCHFEV3");
        assert!(parse(&third).unwrap_err().contains("version 3"));
    }

    #[test]
    fn a_track_over_its_room_is_told() {
        assert!(build(&disk(1, &[32_768])).unwrap_err().contains("room for 32,767"));
    }
}
