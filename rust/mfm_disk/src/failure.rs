//! What ends a command: a message and the exit status that goes with it.

use std::fmt;

/// The command could not be done as asked.
#[derive(Debug, PartialEq, Eq)]
pub enum Failure {
    /// status 2: the command line asks for what cannot be done
    Usage(String),
    /// status 1: something was not read or not written; the message says what
    Unread(String),
    /// status 1: the messages were printed where they arose
    Told,
}

impl Failure {
    /// The exit status of the program.
    pub fn status(&self) -> u8 {
        match self {
            Failure::Usage(_) => 2,
            Failure::Unread(_) | Failure::Told => 1,
        }
    }
}

impl fmt::Display for Failure {
    fn fmt(&self, f: &mut fmt::Formatter<'_>) -> fmt::Result {
        match self {
            Failure::Usage(text) | Failure::Unread(text) => f.write_str(text),
            Failure::Told => Ok(()),
        }
    }
}

/// The library's word for a refusal, with its number.
pub fn word_of(refusal: ism::Refusal) -> String {
    let word = match refusal.number() {
        1 => "unset",
        2 => "crossed",
        3 => "foreign",
        4 => "overlong",
        5 => "narrow",
        6 => "wide",
        7 => "ragged",
        8 => "stray",
        9 => "full",
        10 => "adrift",
        11 => "short",
        12 => "miscount",
        13 => "misfit",
        15 => "crowded",
        16 => "unruly",
        17 => "at odds",
        18 => "off speed",
        19 => "lost page",
        20 => "soiled fill",
        _ => "unlisted",
    };
    word.to_string()
}

/// A refusal as messages say it: word, number and what it means.
pub fn refused(refusal: ism::Refusal) -> String {
    format!("{} (refusal {}): {refusal}", word_of(refusal), refusal.number())
}

#[cfg(test)]
mod tests {
    use super::*;

    #[test]
    fn a_refusal_is_named_by_its_word() {
        let text = refused(ism::Refusal::TooManySectors);
        assert_eq!(text, "crowded (refusal 15): more than 32 sectors");
    }

    #[test]
    fn bad_use_is_status_2_and_what_is_unread_status_1() {
        assert_eq!(Failure::Usage(String::new()).status(), 2);
        assert_eq!(Failure::Unread(String::new()).status(), 1);
        assert_eq!(Failure::Told.status(), 1);
    }
}
