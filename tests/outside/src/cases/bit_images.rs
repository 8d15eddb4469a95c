//! Bit images: making and reading them, and their distances between ones beside the writer's cells.

mod call;

use std::collections::HashSet;
use std::ptr::{null, null_mut};

use super::faults::{room_with, Faults};
use super::WORKED;
use crate::compare::{profile, Compare};
use crate::paper::image::{byte_of_word, distances, image_of, ones};
use crate::paper::{classes, is_item, single_bytes, written_bytes, written_count, CHECK_ORDER, MOST_BYTES};
use crate::random::Random;
use call::{ism_make_image, ism_read_image, library_image, library_items};

/// Code words printed elsewhere: the request's marks, the gap byte, sync, and the address marks behind A1.
pub fn published(compare: &mut Compare, _: &mut Random) {
    let lists: [(&[u16], &[u16]); 9] = [
        (&[0x1A1], &[0x4489]),
        (&[0x1C2], &[0x5224]),
        (&[0x4E, 0x4E], &[0x9254, 0x9254]),
        (&[0x00, 0x00], &[0xAAAA, 0xAAAA]),
        (&[0x01, 0x00], &[0xAAA9, 0x2AAA]),
        (&[0xA1, 0xC2], &[0x44A9, 0x52A4]),
        (&[0xFF, 0x1A1, 0x1A1, 0x1C2, 0x1C2], &[0x5555, 0x4489, 0x4489, 0x5224, 0x5224]),
        (&[0x1A1, 0xFE, 0x1A1, 0xFB, 0x1A1, 0xF8], &[0x4489, 0x5554, 0x4489, 0x5545, 0x4489, 0x554A]),
        (&[], &[]),
    ];
    for (items, words) in lists {
        compare.make_image(items, words.len());
        compare.read_image(words, items.len());
        compare.claim(&format!("{items:03X?} has the words {words:04X?}"), library_image(items) == words);
        compare.claim(&format!("{words:04X?} are {items:03X?}"), library_items(words).as_deref() == Ok(items));
    }
    null_pointers(compare);
}

fn null_pointers(compare: &mut Compare) {
    // SAFETY: the lengths of the null pointers are 0
    let answers = unsafe { [ism_make_image(null(), 0, null_mut(), 0), ism_read_image(null(), 0, null_mut(), 0)] };
    compare.claim("null pointers of length 0 are an empty list", answers == [crate::call::ACCEPTED; 2]);
}

/// Every word at the front, after a data bit 0, after a data bit 1, and after each mark.
pub fn every_word(compare: &mut Compare, _: &mut Random) {
    for word in 0..=65535 {
        compare.read_image(&[word], 1);
        for before in [0xAAAA, 0xAAA9, 0x4489, 0x5224] {
            compare.read_image(&[before, word], 2);
        }
    }
}

/// Every number as an item, alone and behind a data bit 1; every pair of items, its image read back. No two images of
/// the data and mark bytes among them are alike.
pub fn every_item(compare: &mut Compare, _: &mut Random) {
    for number in 0..=65535 {
        compare.make_image(&[number], 2);
        compare.make_image(&[0x01, number], 3);
    }
    let bytes = single_bytes();
    let items = [bytes.clone(), vec![CHECK_ORDER]].concat();
    let mut images = HashSet::new();
    for first in &items {
        for second in &items {
            compare.make_image(&[*first, *second], 4);
            let image = image_of(&written_bytes(&[*first, *second]));
            compare.read_image(&image, image.len());
            if bytes.contains(first) && bytes.contains(second) {
                images.insert(image);
            }
        }
    }
    compare.claim("different lists have different images", images.len() == bytes.len() * bytes.len());
}

/// Lists about 6,400 items, written bytes and words; outputs exact, one short, one longer and empty.
pub fn limits(compare: &mut Compare, random: &mut Random) {
    for count in [MOST_BYTES - 1, MOST_BYTES, MOST_BYTES + 1, 65_536, 65_537] {
        let some = (0..count).map(|_| u16::from(random.byte())).collect();
        let orders = |before: usize, orders: usize| [vec![0x4E; before], vec![CHECK_ORDER; orders]].concat();
        for list in [
            some,
            vec![0x1A1; count],
            orders(count - 2, 1),
            orders(count - 1, 1),
            orders(0, count / 2),
            orders(0, count / 2 + 1),
            // numbers that are no items count one each
            [vec![0x4E; count - 1], vec![300]].concat(),
            vec![65535; count],
        ] {
            let exact = written_count(&list).min(MOST_BYTES);
            for room in [exact, exact - 1, exact + 1, 0] {
                compare.make_image(&list, room);
            }
        }
        for words in [vec![0xAAAA; count], vec![0x4489; count], [vec![0x5224; count - 1], vec![0xFFFF]].concat()] {
            let exact = count.min(MOST_BYTES);
            for room in [exact, exact - 1, exact + 1, 0] {
                compare.read_image(&words, room);
            }
        }
    }
}

/// Every combination of faults at once: in making 4, 3, 9, in reading 4, 16, 9.
pub fn faults(compare: &mut Compare, random: &mut Random) {
    const OVERLONG: u32 = 0;
    const ALIEN: u32 = 1;
    const FULL: u32 = 2;
    for faults in (0..1 << 3).map(Faults) {
        for _ in 0..if faults.has(OVERLONG) { 10 } else { 40 } {
            let length = random.between(1, 30) as usize;
            let mut items = random.items(length);
            if faults.has(OVERLONG) {
                items.extend(vec![0x4E; MOST_BYTES]);
            }
            let mut words = image_of(&written_bytes(&items));
            let exact = words.len().min(MOST_BYTES);
            if faults.has(ALIEN) {
                for place in [random.index(items.len()), random.index(length)] {
                    items[place] = random.foreign();
                }
                for place in [random.index(words.len()), random.index(length)] {
                    words[place] = unruly(random);
                }
            }
            let room = room_with(faults.has(FULL), exact, random);
            compare.make_image(&items, room);
            compare.read_image(&words, room);
        }
    }
}

/// A word that no item has after either bit.
fn unruly(random: &mut Random) -> u16 {
    let word = random.pick(&[0x0000, 0xFFFF, 0x4488, 0x448B, 0x4089, 0x5220, 0x5A24, 0x8000, 0xAAAB, 0x5556, 0x1110]);
    assert_eq!(['0', '1'].map(|bit| byte_of_word(bit, word)), [None; 2]);
    word
}

/// Random lists: made, read back, and read with a few words changed, lost, doubled or exchanged.
pub fn random_images(compare: &mut Compare, random: &mut Random) {
    for _ in 0..10_000 {
        let length = random.length(120);
        let mut items = random.items(length);
        let image = library_image(&items);
        let written: Vec<u16> = written_bytes(&items).iter().map(|w| w.item()).collect();
        compare.claim("what was made reads back", library_items(&image) == Ok(written));
        let mut changed = image.clone();
        for _ in 0..random.between(0, 2) {
            damage(&mut changed, random);
        }
        let room = random.room(changed.len());
        compare.read_image(&changed, room);
        if random.one_in(4) && length > 0 {
            items[random.index(length)] = random.foreign();
        }
        let room = random.room(written_count(&items));
        compare.make_image(&items, room);
    }
}

/// One change to an image: a word changed, lost, doubled or exchanged.
pub fn damage(words: &mut Vec<u16>, random: &mut Random) {
    if words.is_empty() {
        words.push(random.next() as u16);
        return;
    }
    let place = random.index(words.len());
    let other = random.index(words.len());
    match random.between(0, 7) {
        0 => words[place] = random.next() as u16,
        1 => words[place] = unruly(random),
        2 => drop(words.remove(place)),
        3 => words.insert(place, words[other]),
        4 => words.swap(place, other),
        5 => words[place] = random.pick(&[0x4489, 0x5224]),
        // the first clock bit belongs to the byte before as well
        6 => words[place] ^= 0x8000,
        _ => words[place] ^= 1 << random.between(0, 15),
    }
}

/// The distances between the ones of the library's image are the classes that the library writes; each word carries as
/// many transitions as it has ones; one more stands before them, and one or two behind.
pub fn cells(compare: &mut Compare, random: &mut Random) {
    let mut lists = vec![vec![]];
    lists.extend(single_bytes().iter().map(|item| vec![*item]));
    lists.push(vec![CHECK_ORDER]);
    for _ in 0..4_000 {
        let length = random.length(200);
        lists.push(random.items(length));
    }
    for items in lists {
        assert!(items.iter().all(|item| is_item(*item)));
        let image = library_image(&items);
        let mut stream = vec![0; 16 * items.len() + 2];
        let count = ism::write(profile(&WORKED), &items, &mut stream).expect("room for eight cells a byte");
        stream.truncate(count);
        compare.claim("distances between ones are cells", distances(&image) == classes(&WORKED, &stream));
        let last = written_bytes(&items).last().map_or(0, |w| w.byte % 2);
        let behind = if last == 1 { 1 } else { 2 };
        compare.claim("ones are transitions", ones(&image) + behind == stream.len());
    }
}
