//! Bit images, request (v): a code word of sixteen bits for each written byte, a clock bit before each data bit.

use std::sync::OnceLock;

use super::{check_items, fit, refuse, single_bytes, written_bytes, Refused, Written, MOST_BYTES};

/// The code word of a byte after the data bit before it. A mark's word does not depend on that bit.
pub fn word_after(previous: char, w: Written) -> u16 {
    match (w.mark, w.byte) {
        (true, 0xA1) => 0x4489,
        (true, 0xC2) => 0x5224,
        (true, other) => panic!("{other:02X} is no mark"),
        (false, byte) => data_word(previous, byte),
    }
}

/// Clock and data bits by turns; a clock bit is 1 between two 0 data bits.
fn data_word(previous: char, byte: u8) -> u16 {
    let data: Vec<char> = format!("{previous}{byte:08b}").chars().collect();
    let clock = |pair: &[char]| if pair == ['0', '0'] { '1' } else { '0' };
    let text: String = data.windows(2).flat_map(|pair| [clock(pair), pair[1]]).collect();
    u16::from_str_radix(&text, 2).expect("sixteen bits")
}

/// The last data bit of a byte, a mark or not.
pub fn last_bit(w: Written) -> char {
    format!("{:08b}", w.byte).pop().expect("eight bits")
}

/// The data bit before the first byte.
pub const FIRST_BIT: char = '0';

/// The code words of a list of written bytes.
pub fn image_of(written: &[Written]) -> Vec<u16> {
    let mut previous = FIRST_BIT;
    let mut words = Vec::new();
    for w in written {
        words.push(word_after(previous, *w));
        previous = last_bit(*w);
    }
    words
}

/// Making an image: 4, 3, 9.
pub fn make_image(items: &[u16], room: usize) -> Result<Vec<u16>, Refused> {
    check_items(items, MOST_BYTES)?;
    fit(image_of(&written_bytes(items)), room)
}

/// Every code word after a bit, with its byte.
fn words_after(previous: char) -> Vec<(u16, Written)> {
    let bytes = single_bytes().into_iter().flat_map(|item| written_bytes(&[item]));
    bytes.map(|w| (word_after(previous, w), w)).collect()
}

/// The byte that has a word after a bit, by looking at all of them.
pub fn byte_of_word(previous: char, word: u16) -> Option<Written> {
    static WORDS: OnceLock<[Vec<(u16, Written)>; 2]> = OnceLock::new();
    let [after_0, after_1] = WORDS.get_or_init(|| ['0', '1'].map(words_after));
    let words = if previous == '0' { after_0 } else { after_1 };
    words.iter().find(|(w, _)| *w == word).map(|(_, byte)| *byte)
}

/// Reading an image: 4 above 6,400 words, 16 at the lowest word that no item has after its previous bit, 9.
pub fn read_image(words: &[u16], room: usize) -> Result<Vec<u16>, Refused> {
    if words.len() > MOST_BYTES {
        return refuse(4, 0);
    }
    let mut previous = FIRST_BIT;
    let mut items = Vec::new();
    for (place, word) in words.iter().enumerate() {
        match byte_of_word(previous, *word) {
            Some(byte) => {
                items.push(byte.item());
                previous = last_bit(byte);
            }
            None => return refuse(16, place),
        }
    }
    fit(items, room)
}

/// The distances between ones, a digit each: 1 0 stands before the image, a clock bit for a 0, then 0 1, after it.
pub fn distances(words: &[u16]) -> String {
    let image: String = words.iter().map(|word| format!("{word:016b}")).collect();
    let clock = if format!("10{image}").ends_with('0') { '1' } else { '0' };
    let text = format!("10{image}{clock}01");
    let ones: Vec<usize> = text.match_indices('1').map(|(place, _)| place).collect();
    ones.windows(2).map(|pair| (pair[1] - pair[0]).to_string()).collect()
}

/// The number of ones in an image: the transitions that its words carry.
pub fn ones(words: &[u16]) -> usize {
    words.iter().map(|word| format!("{word:b}").matches('1').count()).sum()
}
