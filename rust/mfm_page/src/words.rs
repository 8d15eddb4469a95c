//! Refusals of the libraries in words, as far as they speak of pages.

use ism::Refusal;
use mfm_disk::failure::{refused, word_of};

use crate::page::MOST_PAGES;

/// A refusal of the page library: word, number, and what it means for pages.
pub fn page_refused(refusal: Refusal) -> String {
    let page = refusal.place();
    let meaning = match refusal.number() {
        12 => format!("a master has 1 to {MOST_PAGES} pages"),
        17 => format!("page {page} is twice on one master, or its two good copies differ"),
        19 => format!("page {page} is missing, or not of length code 3, or its sum fails"),
        20 => format!("page {page} has other bytes than 00 behind its cells"),
        _ => return refused(refusal),
    };
    format!("{} (refusal {}): {meaning}", word_of(refusal), refusal.number())
}

#[cfg(test)]
mod tests {
    use super::*;

    #[test]
    fn refusals_name_the_page() {
        let refusal = |number| page_refused(Refusal::from_numbers(number, 7).unwrap());
        assert_eq!(refusal(12), "miscount (refusal 12): a master has 1 to 16 pages");
        assert!(refusal(17).starts_with("at odds (refusal 17): page 7 is twice"));
        assert!(refusal(19).starts_with("lost page (refusal 19): page 7 is missing"));
        assert!(refusal(20).starts_with("soiled fill (refusal 20): page 7 has other"));
        assert!(page_refused(Refusal::TooManySectors).starts_with("crowded (refusal 15): more than 32 sectors"));
    }
}
