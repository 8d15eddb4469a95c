//! The two calls of the page library: pages into a set of sectors, and a set into pages.

use ism::Refusal;
use ism_page::PAGE_SET_BYTES as SET_BYTES;

use crate::page::{Page, CELLS, MOST_PAGES};

/// A page that was read, and how many dots it has.
#[derive(Clone, Debug, PartialEq, Eq)]
pub struct Read {
    pub page: Page,
    pub dots: u32,
}

/// The set of the sectors of pages.
pub fn set_of(pages: &[Page]) -> Result<Vec<u8>, Refusal> {
    let cells: Vec<u8> = pages.iter().flat_map(|page| page.0).collect();
    let mut set = vec![0; pages.len() * SET_BYTES];
    let used = ism_page::make_pages(&cells, pages.len(), &mut set)?;
    set.truncate(used);
    Ok(set)
}

/// Pages 1 to `count` of a set.
pub fn pages_of(set: &[u8], count: usize) -> Result<Vec<Read>, Refusal> {
    let pages = count.min(MOST_PAGES);
    let mut cells = vec![0; pages * CELLS];
    let answer = ism_page::read_pages(set, count, &mut cells)?;
    let read = |(cells, dots): (&[u8], &u32)| {
        let mut page = Page::BLANK;
        page.0.copy_from_slice(cells);
        Read { page, dots: *dots }
    };
    Ok(cells.chunks(CELLS).zip(answer.dots()).map(read).collect())
}

/// The page of one sector alone, whatever its number.
pub fn page_of(sector: &ism::Sector<'_>) -> Result<Read, Refusal> {
    let mut buffer = [0; SET_BYTES];
    let mut set = ism::SectorSet::new(&mut buffer);
    set.push(ism::Sector { number: 1, ..*sector })?;
    let mut read = pages_of(set.bytes(), 1)?;
    Ok(read.swap_remove(0))
}

/// The library's refusal of a page count or number, if it is one that no master has.
pub fn count_refused(count: usize) -> Option<Refusal> {
    // an empty set has no page, so that every count is refused: one out of range for that
    pages_of(&[], count).err().filter(|refusal| refusal.number() == 12)
}

#[cfg(test)]
mod tests {
    use super::*;

    #[test]
    fn pages_become_a_set_and_back() {
        let pages = [Page([255; CELLS]), Page::BLANK, Page([1; CELLS])];
        let set = set_of(&pages).unwrap();
        assert_eq!(set.len(), 3 * SET_BYTES);
        let read = pages_of(&set, 3).unwrap();
        assert!(read.iter().map(|read| read.page).eq(pages));
        assert_eq!(read.iter().map(|read| read.dots).collect::<Vec<_>>(), [8_000, 0, 1_000]);
        let third = ism::sectors(&set).nth(2).unwrap();
        assert_eq!(page_of(&third).unwrap(), read[2]);
    }

    #[test]
    fn refusals_have_number_and_place() {
        let refused = |set: &[u8], count| pages_of(set, count).map_err(|refusal| (refusal.number(), refusal.place()));
        let mut set = set_of(&[Page::BLANK; 2]).unwrap();
        assert_eq!(refused(&set, 3), Err((19, 3)));
        assert_eq!(refused(&set, 0), Err((12, 0)));
        assert_eq!(refused(&set, usize::MAX), Err((12, 0)));
        set[SET_BYTES + 3 + 1_023] = 1;
        assert_eq!(refused(&set, 2), Err((20, 2)));
        set[2] = 0;
        assert_eq!(refused(&set, 2), Err((19, 1)));
        assert_eq!(set_of(&[]).unwrap_err().number(), 12);
        assert_eq!(refused(&set[1..], 1), Err((13, 0)));
    }

    #[test]
    fn counts_are_1_to_16() {
        let taken: Vec<usize> = (0..100).filter(|count| count_refused(*count).is_none()).collect();
        assert_eq!(taken, (1..=16).collect::<Vec<usize>>());
    }
}
