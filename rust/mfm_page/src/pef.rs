//! PEF, the portable embosser format: pages in Unicode braille, in XML.
//!
//! Pages count on through all sections and volumes. What else the file says, of paper and title, belongs to no page.

use crate::page::{cell_of, character_of, Filling, Page};
use crate::xml::{Event, Reader};

/// The elements around a page and around a row.
const IN_PAGE: [&str; 5] = ["pef", "body", "volume", "section", "page"];
const IN_ROW: [&str; 6] = ["pef", "body", "volume", "section", "page", "row"];

/// The pages of a file.
pub fn parse(file: &[u8]) -> Result<Vec<Page>, String> {
    let mut reader = Reader::new(file)?;
    let mut filling = Filling::default();
    while let Some(event) = reader.next()? {
        let path = reader.path();
        match event {
            Event::Begin(name) if path.len() == 1 && name != "pef" => {
                return Err(reader.told(&format!("the root element is {name}, in a PEF file pef")));
            }
            Event::Begin(_) if path == IN_PAGE => filling.begin_page()?,
            Event::Begin(_) if path == IN_ROW => filling.fits_line()?,
            Event::Begin(name) if path.starts_with(&IN_PAGE) => {
                return Err(reader.told(&format!("page {}: the element {name} in a page", filling.spot().page)));
            }
            Event::End("row") if path == IN_PAGE => filling.end_line()?,
            Event::End("page") if path == &IN_PAGE[..4] => filling.end_page()?,
            Event::Character(character) if path == IN_ROW => match cell_of(character) {
                Some(cell) => filling.cell(cell)?,
                None => return Err(format!("{}: {} is no braille cell", filling.spot(), shown(character))),
            },
            Event::Character(character) if path == IN_PAGE && !character.is_ascii_whitespace() => {
                return Err(format!("{}: {} outside of a row", filling.spot(), shown(character)));
            }
            _ => {}
        }
    }
    Ok(filling.pages())
}

fn shown(character: char) -> String {
    match character.is_control() || character.is_whitespace() {
        true => format!("the character {:04X}", u32::from(character)),
        false => format!("the character {character}"),
    }
}

/// The file of pages.
pub fn build(pages: &[Page]) -> Vec<u8> {
    let mut file = String::from(
        r#"<?xml version="1.0" encoding="UTF-8"?>
<pef version="2008-1" xmlns="http://www.daisy.org/ns/2008/pef">
<head>
<meta xmlns:dc="http://purl.org/dc/elements/1.1/">
<dc:format>application/x-pef+xml</dc:format>
"#,
    );
    file.push_str(&format!("<dc:identifier>page-master-{:016x}</dc:identifier>\n", sum_of(pages)));
    file.push_str("</meta>\n</head>\n<body>\n");
    file.push_str("<volume cols=\"40\" rows=\"25\" rowgap=\"0\" duplex=\"false\">\n<section>\n");
    for page in pages {
        file.push_str("<page>\n");
        for line in page.written() {
            file.push_str("<row>");
            file.extend(line.iter().map(|cell| character_of(*cell)));
            file.push_str("</row>\n");
        }
        file.push_str("</page>\n");
    }
    file.push_str("</section>\n</volume>\n</body>\n</pef>\n");
    file.into_bytes()
}

/// A number by which files of unlike pages differ, as PEF asks for (FNV-1a, 64 bits).
fn sum_of(pages: &[Page]) -> u64 {
    let cells = pages.iter().flat_map(|page| page.0);
    cells.fold(0xCBF2_9CE4_8422_2325, |sum, cell| (sum ^ u64::from(cell)).wrapping_mul(0x0100_0000_01B3))
}

#[cfg(test)]
mod tests {
    use super::*;

    fn around(pages: &str) -> String {
        format!(
            "<pef><head><title>x &amp; y</title></head><body><volume><section>{pages}</section></volume></body></pef>"
        )
    }

    fn told(pages: &str) -> String {
        parse(around(pages).as_bytes()).unwrap_err()
    }

    #[test]
    fn pages_come_back() {
        let mut cells = [0; 1000];
        (0..1000).for_each(|i| cells[i] = (i * 7) as u8);
        let pages = [Page::BLANK, Page(cells), Page([255; 1000]), Page::BLANK];
        assert_eq!(parse(&build(&pages)).unwrap(), pages);
        assert_eq!(parse(&build(&[])).unwrap(), []);
        assert_ne!(sum_of(&pages), sum_of(&pages[1..]));
    }

    #[test]
    fn pages_count_on_through_sections_and_volumes() {
        let file = around(
            "<page><row>⠁</row></page></section><section><page/></section></volume>\
             <volume cols='30'><section><page><row/><row>&#x28FF;</row></page>",
        );
        let pages = parse(file.as_bytes()).unwrap();
        assert_eq!((pages.len(), pages[0].0[0], pages[1], pages[2].0[40]), (3, 1, Page::BLANK, 255));
    }

    #[test]
    fn what_is_no_page_is_told_by_its_place() {
        let row = |cells: usize| format!("<row>{}</row>", "⠿".repeat(cells));
        assert_eq!(
            told(&format!("<page>{}</page>", row(41))),
            "page 1, line 1, column 41: a line has at most 40 cells"
        );
        let long = format!("<page/><page>{}</page>", "<row/>".repeat(26));
        assert_eq!(told(&long), "page 2, line 26, column 1: a page has at most 25 lines");
        assert_eq!(told(&"<page/>".repeat(17)), "page 17, line 1, column 1: a master has at most 16 pages");
        assert_eq!(told("<page><row>⠁A</row></page>"), "page 1, line 1, column 2: the character A is no braille cell");
        assert!(told("<page><row>⠁ </row></page>").ends_with("the character 0020 is no braille cell"));
        assert_eq!(told("<page>⠁</page>"), "page 1, line 1, column 1: the character ⠁ outside of a row");
        assert!(told("<page><b/></page>").ends_with("page 1: the element b in a page"));
        assert!(parse(b"<html/>").unwrap_err().ends_with("the root element is html, in a PEF file pef"));
        assert!(told("<page><row>⠁</page>").contains("the end of page"));
        assert_eq!(parse(around(&"<page/>".repeat(16)).as_bytes()).unwrap().len(), 16);
    }
}
