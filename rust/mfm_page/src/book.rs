//! Braille files, told by the ending of a file's name.

use std::path::Path;

use mfm_disk::failure::Failure;

use crate::page::Page;
use crate::{brf, pef};

/// A kind of braille file.
#[derive(Clone, Copy, Debug, PartialEq, Eq)]
pub enum Book {
    Brf,
    Pef,
}

impl Book {
    /// The kind that a file's name asks for.
    pub fn of(path: &Path) -> Result<Book, Failure> {
        let ending = path.extension().and_then(|ending| ending.to_str()).map(str::to_ascii_lowercase);
        match ending.as_deref() {
            Some("brf") => Ok(Book::Brf),
            Some("pef") => Ok(Book::Pef),
            _ => Err(Failure::Usage(format!("{}: a braille file has the ending .brf or .pef", path.display()))),
        }
    }

    /// The pages of a file, or what it has that no page has.
    pub fn parse(self, file: &[u8]) -> Result<Vec<Page>, String> {
        match self {
            Book::Brf => brf::parse(file),
            Book::Pef => pef::parse(file),
        }
    }

    /// The file of pages, or what they have that it cannot have.
    pub fn build(self, pages: &[Page]) -> Result<Vec<u8>, String> {
        match self {
            Book::Brf => brf::build(pages),
            Book::Pef => Ok(pef::build(pages)),
        }
    }
}

#[cfg(test)]
mod tests {
    use super::*;

    #[test]
    fn the_ending_tells_the_kind() {
        assert_eq!(Book::of(Path::new("a/b.BRF")), Ok(Book::Brf));
        assert_eq!(Book::of(Path::new("b.pef")), Ok(Book::Pef));
        for name in ["b.txt", "brf", ".brf", "b.brf.gz", "b.hfe"] {
            assert_eq!(Book::of(Path::new(name)).unwrap_err().status(), 2);
        }
    }
}
