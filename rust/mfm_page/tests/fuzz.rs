//! Files that were cut and changed: each is told or read, and nothing breaks.

mod common;

use common::{back, Random, FORMATS};
use mfm_disk::read::profile_of;
use mfm_page::book::Book;
use mfm_page::layout::{disk_of, Density};
use mfm_page::list::List;

/// One way of harming a file.
fn harm(random: &mut Random, file: &mut Vec<u8>) {
    let length = file.len().max(1);
    let at = random.below(length);
    match random.below(5) {
        0 => file.truncate(at),
        1 => {
            let end = (at + random.below(64)).min(file.len());
            file.drain(at.min(end)..end);
        }
        2 => {
            let part = file[at.min(file.len())..(at + 30).min(file.len())].to_vec();
            let to = random.below(file.len() + 1);
            file.splice(to..to, part);
        }
        _ => {
            for _ in 0..1 + random.below(4) {
                let (at, byte) = (random.below(length), [b'<', b'>', b'&', 0x0C, b'\n', 0xFF, b'/', b'A']);
                if let Some(old) = file.get_mut(at) {
                    *old = byte[random.below(8)];
                }
            }
        }
    }
}

#[test]
fn harmed_braille_files_break_nothing() {
    let mut random = Random(6);
    for book in [Book::Brf, Book::Pef] {
        let pages = random.pages(3, 0x3F);
        let good = book.build(&pages).unwrap();
        let mut read = 0;
        for _ in 0..4_000 {
            let mut file = good.clone();
            (0..1 + random.below(3)).for_each(|_| harm(&mut random, &mut file));
            if let Ok(pages) = book.parse(&file) {
                read += 1;
                assert_eq!(book.parse(&book.build(&pages).unwrap()).unwrap(), pages);
            }
        }
        // both kinds have to occur for the test to say something
        assert!((40..4_000).contains(&read), "{book:?}: {read}");
    }
}

#[test]
fn harmed_masters_break_nothing() {
    let mut random = Random(7);
    let pages = random.pages(5, 0xFF);
    let disk = disk_of(&pages, Density::Double).unwrap();
    for format in FORMATS {
        let good = format.build(&disk, profile_of(&disk, None)).unwrap();
        let mut told = 0;
        for _ in 0..300 {
            let mut file = good.clone();
            harm(&mut random, &mut file);
            let Ok(disk) = format.parse(&file) else { continue };
            assert!(List::of(&disk, profile_of(&disk, None)).text.lines().count() >= 2);
            match back(&disk) {
                Ok(read) => assert_eq!(read, pages, "{format:?}"),
                Err(_) => told += 1,
            }
        }
        assert!(told > 30, "{format:?}: {told}");
    }
}
