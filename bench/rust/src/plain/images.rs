//! Bit images.

use ism::sys::Answer;

use super::register::{is_item, CHECK, MARK_A1, MARK_C2};
use super::words::{is_mark_word, item_of, CLOCKS, DATA, WORD_A1, WORD_C2};
use super::writer::each_stretch;
use super::{counted, either, refused, MAX_BYTES};

const UNRULY: u32 = 16;

/// The clocks of data half cells behind a bit: 1 between two 0s.
#[inline]
fn clocks_of(before: u16, data: u16) -> u16 {
    !(data << 1 | data >> 1 | before << 15) & CLOCKS
}

#[inline]
fn word_of(before: u16, item: u16) -> u16 {
    let data = item & 0xFF;
    let data = (data | data << 4) & 0x0F0F;
    let data = (data | data << 2) & 0x3333;
    let data = (data | data << 1) & DATA;
    let word = data | clocks_of(before, data);
    let word = if item == MARK_A1 { WORD_A1 } else { word };
    if item == MARK_C2 {
        WORD_C2
    } else {
        word
    }
}

#[inline(never)]
pub fn plain_rust_make_image(items: &[u16], words: &mut [u16]) -> Answer {
    either(make_image(items, words))
}

fn make_image(items: &[u16], words: &mut [u16]) -> Result<Answer, Answer> {
    let checks = items.iter().filter(|item| **item == CHECK).count();
    let written = items.len() + checks;
    if items.len() > MAX_BYTES || written > MAX_BYTES {
        return Err(refused(4, 0));
    }
    if let Some(place) = items.iter().position(|item| !is_item(*item)) {
        return Err(refused(3, place));
    }
    let mut rest = words.get_mut(..written).ok_or(refused(9, 0))?;
    let mut last = 0;
    each_stretch(items, checks as u16, |bytes| {
        let ([first, .., end] | [first @ end]) = bytes else { return };
        let (front, others) = std::mem::take(&mut rest).split_at_mut(bytes.len());
        front[0] = word_of(last, *first);
        for (word, (before, byte)) in front[1..].iter_mut().zip(bytes.iter().zip(&bytes[1..])) {
            *word = word_of(*before, *byte);
        }
        (rest, last) = (others, *end);
    });
    Ok(counted(written as u64))
}

/// The clocks in which a word differs from its data's, unless it is a mark's.
#[inline]
fn unruly_clocks(before: u16, word: u16) -> u16 {
    let mark = u16::from(is_mark_word(word)).wrapping_neg();
    (clocks_of(before, word & DATA) ^ (word & CLOCKS)) & !mark
}

#[inline(never)]
pub fn plain_rust_read_image(words: &[u16], items: &mut [u16]) -> Answer {
    either(read_image(words, items))
}

fn read_image(words: &[u16], items: &mut [u16]) -> Result<Answer, Answer> {
    if words.len() > MAX_BYTES {
        return Err(refused(4, 0));
    }
    let Some(first) = words.first() else { return Ok(counted(0)) };
    let behind = |(before, word): (&u16, &u16)| unruly_clocks(*before, *word);
    let pairs = || words.iter().zip(&words[1..]).map(behind);
    if unruly_clocks(0, *first) != 0 {
        return Err(refused(UNRULY, 0));
    }
    if pairs().fold(0, |unruly, clocks| unruly | clocks) != 0 {
        return Err(refused(UNRULY, 1 + pairs().position(|clocks| clocks != 0).unwrap_or(0)));
    }
    let items = items.get_mut(..words.len()).ok_or(refused(9, 0))?;
    for (item, word) in items.iter_mut().zip(words) {
        *item = item_of(*word);
    }
    Ok(counted(words.len() as u64))
}
