//! Strip reader and field reader.

use ism::sys::{Answer, Profile};

use super::kinds::has_pairs;
use super::register::{register_after, ALL_ONES};
use super::words::{any_stray, items_of, lowest_stray, zeros_of_block, WordReader, BLOCK, SLACK};
use super::{
    check_profile, cleared, counted, either, least_clearance, refused, MAX_BYTES, MAX_FIELD_BYTES, MAX_INTERVALS,
};

/// How many intervals come before the first that is narrow or wide.
fn inside(p: &Profile, intervals: &[u16]) -> usize {
    intervals.iter().take_while(|interval| (p.min..p.rpt).contains(interval)).count()
}

fn refused_outside(p: &Profile, intervals: &[u16], place: usize) -> Answer {
    refused(if intervals[place] < p.min { 5 } else { 6 }, place)
}

/// The words of a strip; words over the limit are counted, not kept.
fn strip_words<const PAIRS: bool>(p: &Profile, intervals: &[u16], reader: &mut WordReader) -> Result<(), Answer> {
    let (mut beyond, mut two, keep) = (0, true, reader.words.len() - SLACK);
    for (block, at) in intervals.chunks(BLOCK).zip((0..).step_by(BLOCK)) {
        let mut zeros = [0; BLOCK];
        if !zeros_of_block::<PAIRS>(p, &mut two, block, &mut zeros) {
            return Err(refused_outside(p, intervals, at + inside(p, block)));
        }
        let (eights, rest) = zeros[..block.len()].as_chunks::<8>();
        eights.iter().for_each(|eight| reader.add_eight(eight));
        rest.iter().for_each(|zeros| reader.add_one(*zeros));
        if reader.whole > keep {
            beyond += reader.whole - 1;
            reader.whole = 1;
        }
    }
    reader.whole += beyond;
    Ok(())
}

#[inline(never)]
pub fn plain_rust_read(profile: Profile, intervals: &[u16], out: &mut [u16]) -> Answer {
    // a strip goes through the least buffer, since clearing a large one costs more than reading a short strip
    const SHORT: usize = 32;
    const MEDIUM: usize = 1_024;
    either(match intervals.len() {
        n if n <= 4 * SHORT => read::<{ SHORT + SLACK }>(&profile, intervals, out),
        n if n <= 4 * MEDIUM => read::<{ MEDIUM + SLACK }>(&profile, intervals, out),
        _ => read::<{ MAX_BYTES + 1 + SLACK }>(&profile, intervals, out),
    })
}

/// A strip of n bytes has 16 n + 4 half cells: the lead 0's data, the words, and closing clock, data and clock.
fn read<const WORDS: usize>(p: &Profile, intervals: &[u16], out: &mut [u16]) -> Result<Answer, Answer> {
    check_profile(p)?;
    if intervals.len() > MAX_INTERVALS {
        return Err(refused(4, 0));
    }
    let mut words = [0; WORDS];
    let mut reader = WordReader::new(&mut words);
    if has_pairs(p) {
        strip_words::<true>(p, intervals, &mut reader)?;
    } else {
        strip_words::<false>(p, intervals, &mut reader)?;
    }
    if reader.known() % 16 != 4 {
        return Err(refused(7, 0));
    }
    let bytes = reader.known() / 16;
    if bytes > MAX_BYTES {
        return Err(refused(4, 0));
    }
    // the closing 0s, then clocks as of 0s
    reader.words[bytes + 1] = (reader.half_cells << 13) as u16 | 0x0AAA;
    if any_stray(&words[..bytes + 2]) {
        return Err(refused(8, lowest_stray(&words[..bytes + 2])));
    }
    let out = out.get_mut(..bytes).ok_or(refused(9, 0))?;
    items_of(&words[..bytes + 1], out);
    Ok(Answer { clearance: least_clearance(p, intervals), ..counted(bytes as u64) })
}

/// Cells until a field is known or the block ends; how many. Eight cells are less than two words and a half cell.
#[inline]
fn add_until(reader: &mut WordReader, zeros: &[u16], bytes: usize) -> usize {
    let mut rest = zeros;
    while let Some((eight, others)) = rest.split_first_chunk::<8>() {
        if reader.whole + 1 >= bytes {
            break;
        }
        reader.add_eight(eight);
        rest = others;
    }
    while let Some((one, others)) = rest.split_first() {
        if reader.known() > 16 * bytes {
            break;
        }
        reader.add_one(*one);
        rest = others;
    }
    zeros.len() - rest.len()
}

/// The words of a field, from as many intervals as it needs; how many.
fn field_words<const PAIRS: bool>(
    p: &Profile,
    intervals: &[u16],
    bytes: usize,
    reader: &mut WordReader,
) -> Result<usize, Answer> {
    let (mut used, mut two) = (0, true);
    while reader.known() <= 16 * bytes {
        let rest = &intervals[used..];
        let block = &rest[..rest.len().min(BLOCK)];
        if block.is_empty() {
            return Err(refused(11, 0));
        }
        let mut zeros = [0; BLOCK];
        let whole = zeros_of_block::<PAIRS>(p, &mut two, block, &mut zeros);
        let count = if whole { block.len() } else { inside(p, block) };
        used += add_until(reader, &zeros[..count], bytes);
        if !whole && reader.known() <= 16 * bytes {
            return Err(refused_outside(p, intervals, used));
        }
    }
    Ok(used)
}

#[inline(never)]
pub fn plain_rust_read_field(profile: Profile, intervals: &[u16], bytes: u64, out: &mut [u16]) -> Answer {
    let field = check_profile(&profile).and_then(|()| read_items(&profile, intervals, bytes, out));
    either(field.map(|field| cleared(&profile, intervals, field)))
}

/// A field under a true profile, its clearance aside.
pub(super) fn read_items(p: &Profile, intervals: &[u16], bytes: u64, out: &mut [u16]) -> Result<Answer, Answer> {
    // an ID field goes through a small buffer, since clearing a large one costs more than the reading
    const SHORT: u64 = 32;
    if bytes <= SHORT {
        read_through::<{ SHORT as usize + 4 }>(p, intervals, bytes, out)
    } else {
        read_through::<{ MAX_FIELD_BYTES as usize + 4 }>(p, intervals, bytes, out)
    }
}

/// A field of n bytes is known with 16 n + 1 half cells: the lead 0's data and the words. Only a gap that begins with
/// the last bit ends three later.
fn read_through<const WORDS: usize>(
    p: &Profile,
    intervals: &[u16],
    bytes: u64,
    out: &mut [u16],
) -> Result<Answer, Answer> {
    if !(1..=MAX_FIELD_BYTES).contains(&bytes) {
        return Err(refused(12, 0));
    }
    let count = bytes as usize;
    let mut words = [0; WORDS];
    let mut reader = WordReader::new(&mut words);
    let used = if has_pairs(p) {
        field_words::<true>(p, intervals, count, &mut reader)
    } else {
        field_words::<false>(p, intervals, count, &mut reader)
    }?;
    let known = reader.known();
    let words = &words[..count + 1];
    if any_stray(words) {
        return Err(refused(8, lowest_stray(words)));
    }
    if known == 16 * count + 4 {
        return Err(refused(8, used - 1));
    }
    let out = out.get_mut(..count).ok_or(refused(9, 0))?;
    items_of(words, out);
    let holds = u32::from(register_after(ALL_ONES, out) == 0);
    Ok(Answer { used: used as u64, holds, ..counted(bytes) })
}
