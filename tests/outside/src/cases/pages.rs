//! Page masters: pages there and back, every refusal in its turn and at each of its limits, sets with more in them.

mod call;

use super::faults::{room_with, Faults};
use crate::call::ACCEPTED;
use crate::compare::Compare;
use crate::paper::merge::{merge, Sector};
use crate::paper::page::{make, read, LINE, LINES, MOST_PAGES};
use crate::random::Random;
use call::{library_make, library_read, NO_PAGES};

const CELLS: usize = LINES * LINE;
const SECTOR: usize = 3 + CELLS + 24;

/// A sector that is a page: of code 3, its sum holding, its fill blank.
fn master(number: u8, random: &mut Random) -> Sector {
    Sector { number, code: 3, holds: true, data: [random.bytes(CELLS), vec![0; 24]].concat() }
}

fn other(number: u8, code: u8, random: &mut Random) -> Sector {
    Sector { number, code, holds: random.one_in(2), data: random.bytes(128 << code) }
}

fn set_of(sectors: &[Sector]) -> Vec<u8> {
    sectors.iter().flat_map(Sector::bytes).collect()
}

/// In an order of its own.
fn shuffled(mut sectors: Vec<Sector>, random: &mut Random) -> Vec<Sector> {
    for k in (1..sectors.len()).rev() {
        sectors.swap(k, random.index(k + 1));
    }
    sectors
}

/// The whole page raised, one dot of one cell, and what counts as the page's last bytes.
pub fn by_hand(compare: &mut Compare, _: &mut Random) {
    let full = make(&[0xFF; CELLS], 1, SECTOR).expect("a page");
    compare.claim("a page is 1,027 bytes of a set", full.len() == SECTOR && full[..3] == [1, 3, 1]);
    compare.claim("24 bytes of 00 stand behind it", full[3..1003] == [0xFF; 1000] && full[1003..] == [0; 24]);
    let mut cells = vec![0; CELLS];
    let answer = library_read(&full, 1, &mut cells);
    compare.claim("8,000 dots on the full page", answer.dots[0] == 8_000 && answer.used == 1_000 && answer.count == 1);
    compare.claim("the page is as it was", cells == [0xFF; CELLS]);
    for place in 0..CELLS {
        for bit in 0..8 {
            let mut one = vec![0; CELLS];
            one[place] = 1 << bit;
            let mut set = vec![0; SECTOR];
            let made = library_make(&one, 1, &mut set);
            let dots = library_read(&set, 1, &mut cells).dots;
            compare.claim(
                "one dot is one dot",
                made.used == 1_027 && dots[0] == 1 && dots[1..] == [0; 15] && cells == one,
            );
        }
    }
    for place in CELLS..CELLS + 24 {
        for bit in 0..8 {
            let mut set = full.clone();
            set[3 + place] = 1 << bit;
            compare.read_pages(&set, 1, CELLS);
        }
    }
    compare.claim("no pages of nothing", library_read(&[], 1, &mut []).number == 19);
    // SAFETY: the lengths of the null pointers are 0
    let none = unsafe { ism_page::sys::ism_read_pages(std::ptr::null(), 0, 0, std::ptr::null_mut(), 0) };
    compare.claim("null pointers of length 0", none == ism_page::sys::Pages { number: 12, ..NO_PAGES });
    // SAFETY: as above
    let made = unsafe { ism_page::sys::ism_make_pages(std::ptr::null(), 0, 1, std::ptr::null_mut(), 0) };
    compare.claim("null pointers, made", made == ism::sys::Answer { number: 13, ..ACCEPTED });
    // SAFETY: a number out
    compare.claim("the interface's number", unsafe { ism_page::sys::ism_page_interface_9() } == 9);
}

/// Every byte as a cell: its dots, alone and among others.
pub fn every_cell(compare: &mut Compare, random: &mut Random) {
    for cell in 0..=255 {
        for among in [vec![cell; CELLS], random.bytes(CELLS)] {
            let mut cells = among;
            cells[random.index(CELLS)] = cell;
            let set = make(&cells, 1, SECTOR).expect("a page");
            compare.read_pages(&set, 1, CELLS);
        }
    }
}

/// Made and read back for each number of pages, in exact rooms and others; and the same by the merge.
pub fn there_and_back(compare: &mut Compare, random: &mut Random) {
    for pages in 1..=MOST_PAGES {
        for _ in 0..6 {
            let cells = random.bytes(CELLS * pages as usize);
            let room = random.room(SECTOR * pages as usize);
            compare.make_pages(&cells, pages, room);
            let mut set = vec![0; SECTOR * pages as usize];
            library_make(&cells, pages, &mut set);
            let room = random.room(cells.len());
            compare.read_pages(&set, pages, room);
            let mut back = vec![0; cells.len()];
            let read = library_read(&set, pages, &mut back);
            compare.claim("pages come back", back == cells && read.number == 0);
            let (_, merged) = merge(&set, &[], usize::MAX).expect("a set");
            compare.claim("they are in order", merged == set);
        }
    }
}

/// Lengths of cells and numbers of pages about their limits.
pub fn limits(compare: &mut Compare, random: &mut Random) {
    for pages in [0, 1, 2, 15, 16, 17, 18, 255, 256, 257, 65_536, 1 << 32, (1 << 32) + 1, u64::MAX - 1, u64::MAX] {
        for of in [0, 1, 15, 16, 17] {
            for length in [CELLS * of, (CELLS * of).saturating_sub(1), CELLS * of + 1] {
                compare.make_pages(&random.bytes(length), pages, 20_000);
            }
        }
        let all: Vec<Sector> = (1..=17).map(|number| master(number, random)).collect();
        compare.read_pages(&set_of(&all), pages, 20_000);
        compare.read_pages(&set_of(&all[..15]), pages, 20_000);
    }
    for pages in 1..=MOST_PAGES {
        let all: Vec<Sector> = (1..=pages as u8).map(|number| master(number, random)).collect();
        let cells = random.bytes(CELLS * pages as usize);
        for by in [0, 1, 2] {
            compare.read_pages(&set_of(&all), pages, (CELLS * pages as usize) - by);
            compare.make_pages(&cells, pages, (SECTOR * pages as usize) - by);
        }
        compare.read_pages(&set_of(&all), pages, 0);
        compare.make_pages(&cells, pages, 0);
    }
}

/// Each page in turn lost or soiled in each way, and page p + 1, which is not looked at.
pub fn each_page(compare: &mut Compare, random: &mut Random) {
    for pages in [1, 2, 7, 16] {
        for number in 1..=pages as u8 + 1 {
            for way in 0..6 {
                let mut all: Vec<Sector> = (1..=pages as u8 + 1).map(|n| master(n, random)).collect();
                let at = usize::from(number) - 1;
                match way {
                    0 => drop(all.remove(at)),
                    1 => all[at] = other(number, 2, random),
                    2 => all[at] = other(number, 0, random),
                    3 => all[at].holds = false,
                    4 => all[at].data[CELLS + random.index(24)] = 1 << random.between(0, 7),
                    _ => all[at].data[CELLS - 1] = 0xFF,
                }
                compare.read_pages(&set_of(&shuffled(all, random)), pages, 17_000);
            }
        }
    }
}

/// Several faults at once, which the order of the paper decides between.
pub fn faults(compare: &mut Compare, random: &mut Random) {
    const FULL: u32 = 0;
    const SOILED: u32 = 1;
    const LOST: u32 = 2;
    const TWICE: u32 = 3;
    const CROWDED: u32 = 4;
    const MISFIT: u32 = 5;
    const MISCOUNT: u32 = 6;
    for faults in (0..1 << 7).map(Faults) {
        for _ in 0..12 {
            let pages = random.between(2, 9);
            let mut all: Vec<Sector> = (1..=pages as u8).map(|n| master(n, random)).collect();
            for number in 40..40 + random.between(0, 6) as u8 {
                let code = random.between(0, 3) as u8;
                all.push(other(number, code, random));
            }
            if faults.has(SOILED) {
                let at = random.index(pages as usize);
                all[at].data[CELLS + random.index(24)] = 0x80;
            }
            if faults.has(LOST) {
                let at = random.index(pages as usize);
                if random.one_in(2) {
                    all[at].holds = false;
                } else {
                    all[at] = Sector { code: 2, data: random.bytes(512), ..all[at].clone() };
                }
            }
            if faults.has(TWICE) {
                let again = random.pick(&all);
                all.push(again);
            }
            if faults.has(CROWDED) {
                all.extend((100..140).map(|number| other(number, 0, random)));
            }
            let mut set = set_of(&shuffled(all, random));
            if faults.has(MISFIT) {
                set.extend(random.pick(&[vec![9], vec![9, 3], vec![9, 4, 1, 0], vec![9, 0, 1, 0, 0]]));
            }
            let count = if faults.has(MISCOUNT) { random.pick(&[0, 17, 1 << 40]) } else { pages };
            let room = room_with(faults.has(FULL), CELLS * pages as usize, random);
            compare.read_pages(&set, count, room);
        }
    }
    const LENGTH: u32 = 1;
    const COUNT: u32 = 2;
    for faults in (0..1 << 3).map(Faults) {
        for _ in 0..12 {
            let pages = random.between(1, 16);
            let length = CELLS * pages as usize + if faults.has(LENGTH) { random.pick(&[1, 999, 1_000]) } else { 0 };
            let count = if faults.has(COUNT) { random.pick(&[0, 17, u64::MAX]) } else { pages };
            let room = room_with(faults.has(FULL), SECTOR * pages as usize, random);
            compare.make_pages(&random.bytes(length), count, room);
        }
    }
}

/// Sets by chance: some pages good, others not, numbers from 0 to 20 and beyond.
pub fn random_sets(compare: &mut Compare, random: &mut Random) {
    for _ in 0..3_000 {
        let pages = random.between_with_edges(1, 16);
        let mut all = Vec::new();
        for number in 0..random.between(0, 20) as u8 {
            match random.between(0, 30) {
                0 => {}
                1 => {
                    let code = random.between(0, 3) as u8;
                    all.push(other(number, code, random));
                }
                2 => all.push(Sector { holds: false, ..master(number, random) }),
                3 => {
                    let mut soiled = master(number, random);
                    soiled.data[CELLS + random.index(24)] = random.byte();
                    all.push(soiled);
                }
                _ => all.push(master(number, random)),
            }
        }
        let mut set = set_of(&shuffled(all, random));
        // a sum that holds is any number but 0
        if let Some(sum) = set.get_mut(2).filter(|sum| **sum != 0) {
            *sum = random.pick(&[1, 2, 128, 255]);
        }
        let room = random.room(CELLS * pages as usize);
        compare.read_pages(&set, pages, room);
        if let Ok((_, merged)) = merge(&set, &[], usize::MAX) {
            let same = read(&set, pages, room) == read(&merged, pages, room);
            compare.claim("a set and its merge with nothing give the same pages", same);
            compare.read_pages(&merged, pages, room);
        }
    }
}
