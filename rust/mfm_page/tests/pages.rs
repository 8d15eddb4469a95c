//! Random pages there and back: through braille files, and through masters of every kind.

mod common;

use common::{back, Random, FORMATS};
use mfm_disk::disk::Disk;
use mfm_disk::read::profile_of;
use mfm_page::book::Book;
use mfm_page::layout::{disk_of, Density};
use mfm_page::page::Page;

#[test]
fn pages_come_back_from_braille_files() {
    let mut random = Random(1);
    for i in 0..400 {
        let six = random.pages(1 + i % 16, 0x3F);
        let eight = random.pages(1 + i % 16, 0xFF);
        for book in [Book::Brf, Book::Pef] {
            assert_eq!(book.parse(&book.build(&six).unwrap()).unwrap(), six);
        }
        assert_eq!(Book::Pef.parse(&Book::Pef.build(&eight).unwrap()).unwrap(), eight);
    }
}

#[test]
fn brf_as_others_write_it_gives_the_same_pages() {
    let mut random = Random(2);
    for i in 0..200 {
        let pages = random.pages(1 + i % 16, 0x3F);
        let file = String::from_utf8(Book::Brf.build(&pages).unwrap()).unwrap();
        let lower: String = file.chars().map(|one| if one == '_' { one } else { fold(one) }).collect();
        let without_last = file.strip_suffix('\x0C').unwrap();
        // a blank last page is nothing but its FF
        let kept = if pages.last() == Some(&Page::BLANK) { &file } else { without_last };
        for other in [lower.as_str(), &file.replace('\n', "\r\n"), kept, &all_lines(&pages)] {
            assert_eq!(Book::Brf.parse(other.as_bytes()).unwrap(), pages);
        }
    }
}

/// Lower case, and what stands 20 above a character from 40 on.
fn fold(one: char) -> char {
    match one {
        '@'..='^' => char::from(one as u8 + 0x20),
        _ => one,
    }
}

/// All 25 lines of 40 cells of all pages, without FF.
fn all_lines(pages: &[Page]) -> String {
    let character = |cell: &u8| char::from(mfm_page::brf::CHARACTERS[usize::from(*cell)]);
    let line = |cells: &[u8]| cells.iter().map(character).chain(['\n']).collect::<String>();
    pages.iter().flat_map(|page| page.lines().map(line)).collect()
}

fn through_containers(disk: &Disk, pages: &[Page]) {
    for format in FORMATS {
        let file = format.build(disk, profile_of(disk, None)).unwrap();
        assert_eq!(back(&format.parse(&file).unwrap()).unwrap(), pages, "{format:?}");
    }
}

#[test]
fn pages_come_back_from_masters() {
    let mut random = Random(3);
    for count in 1..=16 {
        for density in [Density::Double, Density::High] {
            let pages = random.pages(count, 0xFF);
            through_containers(&disk_of(&pages, density).unwrap(), &pages);
        }
    }
}

#[test]
fn every_cell_comes_back_from_a_full_page() {
    for cell in 0..=255 {
        let pages = [Page([cell; 1000]); 3];
        assert_eq!(back(&disk_of(&pages, Density::Double).unwrap()).unwrap(), pages);
    }
}

#[test]
fn dots_are_counted() {
    let mut random = Random(4);
    let pages = random.pages(16, 0xFF);
    let disk = disk_of(&pages, Density::High).unwrap();
    let master = mfm_page::master::Master::of(vec![common::pass(&disk)]).unwrap();
    for (read, page) in master.pages(16).unwrap().iter().zip(&pages) {
        assert_eq!(read.dots, page.0.iter().map(|cell| cell.count_ones()).sum::<u32>());
    }
}
