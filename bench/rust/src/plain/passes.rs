//! The merge of two passes.

use ism::sys::Answer;

use super::{counted, either, refused};

const MOST_SECTORS: usize = 32;
const CROWDED: u32 = 15;
const AT_ODDS: u32 = 17;

/// A set of sectors by number: the first copy of each, and whether there is another.
struct SectorSet<'a> {
    sectors: usize,
    copies: [Option<&'a [u8]>; 256],
    twice: [bool; 256],
}

/// Nothing if the bytes are not sectors to their end: number, length code, whether the sum holds, data.
fn parse_set(mut bytes: &[u8]) -> Option<SectorSet<'_>> {
    let mut set = SectorSet { sectors: 0, copies: [None; 256], twice: [false; 256] };
    while !bytes.is_empty() {
        let code = *bytes.get(1).filter(|code| **code <= 3)?;
        let (sector, rest) = bytes.split_at_checked(3 + (128 << code))?;
        let number = usize::from(sector[0]);
        set.twice[number] |= set.copies[number].is_some();
        set.copies[number].get_or_insert(sector);
        set.sectors += 1;
        bytes = rest;
    }
    Some(set)
}

/// The copy that is taken; nothing if both are good and differ.
fn better<'a>(first: &'a [u8], second: &'a [u8]) -> Option<&'a [u8]> {
    match (first[2] != 0, second[2] != 0) {
        (true, true) => (first[1] == second[1] && first[3..] == second[3..]).then_some(first),
        (false, true) => Some(second),
        _ => Some(first),
    }
}

#[inline(never)]
pub fn plain_rust_merge(first: &[u8], second: &[u8], out: &mut [u8]) -> Answer {
    either(merge(first, second, out))
}

fn merge(first: &[u8], second: &[u8], out: &mut [u8]) -> Result<Answer, Answer> {
    let (a, b) = parse_set(first).zip(parse_set(second)).ok_or(refused(13, 0))?;
    let either_has = |number: &usize| a.copies[*number].is_some() || b.copies[*number].is_some();
    if a.sectors > MOST_SECTORS || b.sectors > MOST_SECTORS || (0..256).filter(either_has).count() > MOST_SECTORS {
        return Err(refused(CROWDED, 0));
    }
    let (mut taken, mut count, mut used): ([&[u8]; MOST_SECTORS], _, _) = ([&[]; MOST_SECTORS], 0, 0);
    for number in (0..256).filter(either_has) {
        let copy = match (a.copies[number], b.copies[number]) {
            (Some(first), Some(second)) => better(first, second),
            (first, second) => first.or(second),
        };
        let copy = copy.filter(|_| !a.twice[number] && !b.twice[number]).ok_or(refused(AT_ODDS, number))?;
        taken[count] = copy;
        count += 1;
        used += copy.len();
    }
    let mut rest = out.get_mut(..used).ok_or(refused(9, 0))?;
    for copy in &taken[..count] {
        let (front, others) = rest.split_at_mut(copy.len());
        front.copy_from_slice(copy);
        front[2] = u8::from(copy[2] != 0);
        rest = others;
    }
    Ok(Answer { used: used as u64, ..counted(count as u64) })
}
