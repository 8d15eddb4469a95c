//! Pages of braille as braille files and page masters share them.

use std::fmt;

pub use ism_page::{LINE_CELLS as COLUMNS, MAX_PAGES as MOST_PAGES, PAGE_CELLS as CELLS, PAGE_LINES as LINES};

/// Dots 7 and 8 of a cell.
pub const LOWER_DOTS: u8 = 0xC0;
/// The character of the cell without dots; cell n is n characters behind it.
const FIRST_CHARACTER: u32 = 0x2800;

/// A page, line after line, one byte a cell: bit 0 is dot 1, and so on up to bit 7 for dot 8.
#[derive(Clone, Copy, PartialEq, Eq)]
pub struct Page(pub [u8; CELLS]);

impl Page {
    /// A page without dots.
    pub const BLANK: Page = Page([0; CELLS]);

    /// The lines, from the first.
    pub fn lines(&self) -> impl DoubleEndedIterator<Item = &[u8]> + ExactSizeIterator {
        self.0.chunks(COLUMNS)
    }

    /// The lines up to the last that has a dot, each up to its last cell that has one.
    pub fn written(&self) -> Vec<&[u8]> {
        let end = |cells: &[u8]| cells.iter().rposition(|cell| *cell != 0).map_or(0, |last| last + 1);
        let mut lines: Vec<&[u8]> = self.lines().map(|line| &line[..end(line)]).collect();
        while lines.last().is_some_and(|line| line.is_empty()) {
            lines.pop();
        }
        lines
    }

    /// The page in Unicode, all lines and cells.
    pub fn shown(&self) -> String {
        let shown = |line: &[u8]| line.iter().map(|cell| character_of(*cell)).chain(['\n']).collect::<String>();
        self.lines().map(shown).collect()
    }
}

impl fmt::Debug for Page {
    fn fmt(&self, f: &mut fmt::Formatter<'_>) -> fmt::Result {
        f.write_str(&self.shown())
    }
}

/// The Unicode character of a cell.
pub fn character_of(cell: u8) -> char {
    // every number from 2800 to 28FF is a character
    char::from_u32(FIRST_CHARACTER + u32::from(cell)).unwrap_or(' ')
}

/// The cell of a Unicode character.
pub fn cell_of(character: char) -> Option<u8> {
    u8::try_from(u32::from(character).checked_sub(FIRST_CHARACTER)?).ok()
}

/// A place in a braille file, all counted from 1.
#[derive(Clone, Copy, Debug, PartialEq, Eq)]
pub struct Spot {
    pub page: usize,
    pub line: usize,
    pub column: usize,
}

impl fmt::Display for Spot {
    fn fmt(&self, f: &mut fmt::Formatter<'_>) -> fmt::Result {
        write!(f, "page {}, line {}, column {}", self.page, self.line, self.column)
    }
}

/// Pages as they are filled cell by cell. What does not fit is refused in words, with its place.
#[derive(Default)]
pub struct Filling {
    pages: Vec<Page>,
    /// cells of the line that is open, and lines before it
    column: usize,
    line: usize,
    open: bool,
}

impl Filling {
    /// Where the next cell stands.
    pub fn spot(&self) -> Spot {
        let page = self.pages.len() + usize::from(!self.open);
        Spot { page, line: self.line + 1, column: self.column + 1 }
    }

    /// Whether a page is begun and not ended.
    pub fn is_open(&self) -> bool {
        self.open
    }

    /// Lines that the open page has, the open one left out.
    pub fn lines(&self) -> usize {
        self.line
    }

    /// Begins a page, if none is open.
    pub fn begin_page(&mut self) -> Result<(), String> {
        if self.open {
            return Ok(());
        }
        if self.pages.len() == MOST_PAGES {
            return Err(format!("{}: a master has at most {MOST_PAGES} pages", self.spot()));
        }
        self.pages.push(Page::BLANK);
        self.open = true;
        Ok(())
    }

    /// One cell more on the line.
    pub fn cell(&mut self, cell: u8) -> Result<(), String> {
        self.begin_page()?;
        self.fits_line()?;
        if self.column == COLUMNS {
            return Err(format!("{}: a line has at most {COLUMNS} cells", self.spot()));
        }
        if let Some(page) = self.pages.last_mut() {
            page.0[self.line * COLUMNS + self.column] = cell;
        }
        self.column += 1;
        Ok(())
    }

    /// Refuses a line behind the last of a page.
    pub fn fits_line(&self) -> Result<(), String> {
        match self.line == LINES {
            true => Err(format!("{}: a page has at most {LINES} lines", self.spot())),
            false => Ok(()),
        }
    }

    /// Ends the line, be it empty.
    pub fn end_line(&mut self) -> Result<(), String> {
        self.begin_page()?;
        self.fits_line()?;
        (self.line, self.column) = (self.line + 1, 0);
        Ok(())
    }

    /// Ends the page, be it empty.
    pub fn end_page(&mut self) -> Result<(), String> {
        self.begin_page()?;
        (self.line, self.column, self.open) = (0, 0, false);
        Ok(())
    }

    /// The pages.
    pub fn pages(self) -> Vec<Page> {
        self.pages
    }
}

#[cfg(test)]
mod tests {
    use super::*;

    #[test]
    fn every_cell_is_a_character_and_back() {
        assert!((0..=255).all(|cell| cell_of(character_of(cell)) == Some(cell)));
        assert_eq!([character_of(0), character_of(0b0100_0111), character_of(255)], ['\u{2800}', '⡇', '⣿']);
        assert_eq!(['\u{27FF}', '\u{2900}', 'a', '\u{12801}'].map(cell_of), [None; 4]);
    }

    #[test]
    fn blank_ends_are_left_out() {
        let mut page = Page::BLANK;
        assert!(page.written().is_empty());
        (page.0[1], page.0[2 * COLUMNS + 39]) = (3, 1);
        let lines: Vec<usize> = page.written().iter().map(|line| line.len()).collect();
        assert_eq!(lines, [2, 0, 40]);
        assert_eq!(page.shown().chars().count(), 25 * 41);
    }

    #[test]
    fn what_does_not_fit_has_its_place() {
        let mut filling = Filling::default();
        (0..40).for_each(|cell| filling.cell(cell).unwrap());
        assert_eq!(filling.cell(1).unwrap_err(), "page 1, line 1, column 41: a line has at most 40 cells");
        (0..25).for_each(|_| filling.end_line().unwrap());
        assert_eq!(filling.cell(1).unwrap_err(), "page 1, line 26, column 1: a page has at most 25 lines");
        assert!(filling.end_line().is_err());
        (0..16).for_each(|_| filling.end_page().unwrap());
        assert_eq!(filling.cell(1).unwrap_err(), "page 17, line 1, column 1: a master has at most 16 pages");
        assert_eq!((filling.pages.len(), filling.pages[0].0[39]), (16, 39));
    }
}
