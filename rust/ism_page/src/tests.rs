//! What the wrapper adds to the library. `tests/outside` compares the answers.

use std::vec;

use crate::*;

#[test]
fn pages_there_and_back() {
    let cells: vec::Vec<u8> = (0..3 * PAGE_CELLS).map(|k| (k * k / 7) as u8).collect();
    let mut set = vec![0xE5; 3 * PAGE_SET_BYTES + 1];
    assert_eq!(make_pages(&cells, 3, &mut set), Ok(3 * PAGE_SET_BYTES));
    assert_eq!(set[3 * PAGE_SET_BYTES], 0xE5);
    let mut back = vec![0; 3 * PAGE_CELLS];
    let pages = read_pages(&set[..3 * PAGE_SET_BYTES], 3, &mut back).expect("pages");
    assert_eq!(back, cells);
    assert_eq!(pages.cells, 3 * PAGE_CELLS);
    let dots = |page: &[u8]| page.iter().map(|cell| cell.count_ones()).sum::<u32>();
    assert_eq!(pages.dots(), [dots(&cells[..1_000]), dots(&cells[1_000..2_000]), dots(&cells[2_000..])]);
}

#[test]
fn refusals_name_the_page() {
    let mut set = vec![0; 2 * PAGE_SET_BYTES];
    let stored = make_pages(&[0; 2 * PAGE_CELLS], 2, &mut set).expect("pages");
    let mut cells = [7; 3 * PAGE_CELLS];
    assert_eq!(read_pages(&set[..stored], 3, &mut cells), Err(Refusal::PageLost { page: 3 }));
    set[stored - 1] = 1;
    assert_eq!(read_pages(&set[..stored], 2, &mut cells), Err(Refusal::FillSoiled { page: 2 }));
    assert_eq!(read_pages(&set[..stored], 17, &mut cells), Err(Refusal::CountOutOfRange));
    assert_eq!(make_pages(&[0; 999], 1, &mut set), Err(Refusal::SectorSizeMismatch));
    assert_eq!(cells, [7; 3 * PAGE_CELLS]);
}
