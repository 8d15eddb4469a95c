//! BRF: pages in North American braille ASCII.
//!
//! Lines end in LF or CRLF, pages in FF or after 25 lines. An FF right behind the 25th line, or at the end of the file,
//! begins no empty page. Blank ends of lines and pages may be missing.

use crate::page::{Filling, Page, Spot, LINES, LOWER_DOTS};

/// The character of each cell of dots 1 to 6.
pub const CHARACTERS: &[u8; 64] = b" A1B'K2L@CIF/MSP\"E3H9O6R^DJG>NTQ,*5<-U8V.%[$+X!&;:4\\0Z7(_?W]#Y)=";

/// The cell of a character; 60 to 7E are taken as 40 to 5E.
pub fn cell_of(character: u8) -> Option<u8> {
    let folded = match character {
        0x60..=0x7E => character - 0x20,
        _ => character,
    };
    CHARACTERS.iter().position(|one| *one == folded).map(|cell| cell as u8)
}

/// The pages of a file.
pub fn parse(file: &[u8]) -> Result<Vec<Page>, String> {
    let mut filling = Filling::default();
    // whether the byte before ended the 25th line of a page
    let mut filled = false;
    let mut rest = file;
    while let Some((first, behind)) = rest.split_first() {
        let was_filled = std::mem::take(&mut filled);
        let line_end = match rest {
            [b'\n', ..] => 1,
            [b'\r', b'\n', ..] => 2,
            _ => 0,
        };
        if line_end > 0 {
            filling.end_line()?;
            if filling.lines() == LINES {
                filling.end_page()?;
                filled = true;
            }
            rest = &rest[line_end..];
            continue;
        }
        match (*first, cell_of(*first)) {
            (0x0C, _) if was_filled => {}
            (0x0C, _) => filling.end_page()?,
            (_, Some(cell)) => filling.cell(cell)?,
            (_, None) => {
                filling.begin_page()?;
                return Err(format!("{}: {}", filling.spot(), foreign(rest)));
            }
        }
        rest = behind;
    }
    Ok(filling.pages())
}

/// What stands there instead of a cell.
fn foreign(rest: &[u8]) -> String {
    let hexadecimal = format!("{:02X}", rest[0]);
    let shown = match rest[0] {
        b'\t' => "a tab, 09,".to_string(),
        b'\r' => "a CR, 0D, without LF behind it,".to_string(),
        _ => match first_character(rest).filter(|character| !character.is_control()) {
            Some(character) => format!("the character {character} (byte {hexadecimal})"),
            None => format!("the byte {hexadecimal}"),
        },
    };
    format!("{shown} is no cell of North American braille ASCII")
}

/// The character of UTF-8 with which the bytes begin.
fn first_character(bytes: &[u8]) -> Option<char> {
    (1..=4).find_map(|length| std::str::from_utf8(bytes.get(..length)?).ok()?.chars().next())
}

/// The file of pages, or the first cell that BRF has not. Every page ends in FF, every line in LF.
pub fn build(pages: &[Page]) -> Result<Vec<u8>, String> {
    let mut file = Vec::new();
    for (page, cells) in (1..).zip(pages) {
        for (line, cells) in (1..).zip(cells.written()) {
            for (column, cell) in (1..).zip(cells) {
                let character = CHARACTERS.get(usize::from(*cell));
                file.push(*character.ok_or_else(|| not_six(Spot { page, line, column }, *cell))?);
            }
            file.push(b'\n');
        }
        file.push(0x0C);
    }
    Ok(file)
}

/// Why a cell is not written.
fn not_six(spot: Spot, cell: u8) -> String {
    let dots = match cell & LOWER_DOTS {
        0x40 => "dot 7",
        0x80 => "dot 8",
        _ => "dots 7 and 8",
    };
    format!("{spot}: {dots}, which BRF has not; PEF has them")
}

#[cfg(test)]
mod tests {
    use super::*;

    /// The first cell of each page.
    fn begins(file: &str) -> Result<Vec<u8>, String> {
        Ok(parse(file.as_bytes())?.iter().map(|page| page.0[0]).collect())
    }

    #[test]
    fn characters_fold_and_all_cells_come_back() {
        assert!((0..64).all(|cell| cell_of(CHARACTERS[usize::from(cell)]) == Some(cell)));
        for byte in 0x60..=0x7E_u8 {
            assert_eq!(cell_of(byte), cell_of(byte - 0x20));
        }
        let taken: Vec<u8> = (0..=255).filter(|byte| cell_of(*byte).is_some()).collect();
        assert_eq!(taken, (0x20..=0x7E).collect::<Vec<u8>>());
        assert_eq!([b'a', b'A', b'=', b'_', b'{', b'|'].map(cell_of), [1, 1, 63, 56, 42, 51].map(Some));
    }

    #[test]
    fn lines_and_pages_end() {
        assert_eq!(begins("A\nB").unwrap(), [1]);
        assert_eq!(parse(b"A\r\nB\n"), parse(b"a\nb"));
        assert_eq!(begins("A\x0CB\n").unwrap(), [1, 3]);
        assert_eq!(begins("A\n\x0CB\n\x0C").unwrap(), [1, 3]);
        assert_eq!(begins("A\x0C\x0CB\n").unwrap(), [1, 0, 3]);
        assert_eq!(begins("A\x0C\x0C").unwrap(), [1, 0]);
        assert_eq!(begins("\x0C").unwrap(), [0]);
        assert_eq!(begins("").unwrap(), []);
        let full = "A\n".repeat(25);
        for (behind, more) in [("", 0), ("\x0C", 0), ("\x0C\x0C", 1), ("\n", 1), ("B", 1), ("\x0CB\n\x0C", 1)] {
            assert_eq!(begins(&format!("{full}{behind}")).unwrap().len(), 1 + more, "{behind:?}");
        }
        // without an end of the 25th line
        let full = &full[..49];
        for (behind, more) in [("", 0), ("\x0C", 0), ("\x0C\x0C", 1), ("\r\n\x0C", 0), ("\x0C\n", 1)] {
            assert_eq!(begins(&format!("{full}{behind}")).unwrap().len(), 1 + more, "{behind:?}");
        }
    }

    #[test]
    fn what_is_no_page_is_told_by_its_place() {
        let told = |file: &str| begins(file).unwrap_err();
        assert_eq!(told(&"A".repeat(41)), "page 1, line 1, column 41: a line has at most 40 cells");
        assert_eq!(told(&" ".repeat(41)), "page 1, line 1, column 41: a line has at most 40 cells");
        assert_eq!(told("A\nAB\tC"), "page 1, line 2, column 3: a tab, 09, is no cell of North American braille ASCII");
        assert!(told("A\x0C\nAé").starts_with("page 2, line 2, column 2: the character é (byte C3) is no cell"));
        assert!(told("A\rB").starts_with("page 1, line 1, column 2: a CR, 0D, without LF behind it, is no"));
        assert!(told("\x7F").starts_with("page 1, line 1, column 1: the byte 7F is no cell"));
        assert!(parse(b"A\xFF").unwrap_err().starts_with("page 1, line 1, column 2: the byte FF"));
        let many = "page 17, line 1, column 1: a master has at most 16 pages";
        for behind in ["A", "\n", "\t", "\x0C\x0C"] {
            assert_eq!(told(&format!("{}{behind}", "\n".repeat(400))), many);
            assert_eq!(told(&format!("{}{behind}", "\x0C".repeat(16))), many);
        }
        assert_eq!(begins(&format!("{}\x0C", "\n".repeat(400))).unwrap().len(), 16);
        assert_eq!(begins(&"\n".repeat(400)).unwrap().len(), 16);
    }

    #[test]
    fn lower_dots_are_not_written() {
        let mut page = Page::BLANK;
        page.0[3 * 40 + 7] = 0x41;
        assert_eq!(
            build(&[Page::BLANK, page]).unwrap_err(),
            "page 2, line 4, column 8: dot 7, which BRF has not; PEF has them"
        );
        page.0[5] = 0x80;
        assert!(build(&[page]).unwrap_err().starts_with("page 1, line 1, column 6: dot 8, "));
    }

    #[test]
    fn pages_come_back() {
        let mut full = Page([63; 1000]);
        full.0[999] = 0;
        let pages = [Page::BLANK, full, Page::BLANK, Page([1; 1000]), Page::BLANK, Page::BLANK];
        assert_eq!(parse(&build(&pages).unwrap()).unwrap(), pages);
        assert_eq!(build(&[Page::BLANK]).unwrap(), b"\x0C");
    }
}
