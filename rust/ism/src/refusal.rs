//! Why a call was refused.

use core::fmt;

use crate::sys::Answer;

/// A refusal with its number and place. A refused call has changed no buffer. Later versions may add refusals.
#[derive(Clone, Copy, Debug, PartialEq, Eq, Hash)]
#[non_exhaustive]
pub enum Refusal {
    /// 1, unset: a profile number is out of range; `field` is which of the eleven, 1 to 11, the lowest
    ProfileOutOfRange {
        /// which number, from 1
        field: usize,
    },
    /// 2, crossed: the windows of the profile miss its own cell lengths
    ProfileInconsistent,
    /// 3, foreign: the lowest number in the list that is no item
    NotAnItem {
        /// which number of the list, from 0
        place: usize,
    },
    /// 4, overlong: over 6,400 items, written bytes, bytes read or words; over 51,202 intervals in a strip or a
    /// report's list; a count or sum of added reports over 64 bits
    TooLong,
    /// 5, narrow: an interval below Min
    IntervalTooShort {
        /// which interval, from 0
        place: usize,
    },
    /// 6, wide: an interval of Rpt or more
    IntervalTooLong {
        /// which interval, from 0
        place: usize,
    },
    /// 7, ragged: the bits are not whole bytes with the lead 0 and a closing 0
    NotWholeBytes,
    /// 8, stray: the lowest interval that is a mark's gap out of place
    MisplacedMark {
        /// which interval, from 0
        place: usize,
    },
    /// 9, full: the output is shorter than the result
    OutputTooShort,
    /// 10, adrift: no lock at or after the start
    NoLock,
    /// 11, short: the list ends before the bytes asked for
    EndsEarly,
    /// 12, miscount: the byte count is outside 1 to 1,030; in the crate `ism_page` the page count outside 1 to 16
    CountOutOfRange,
    /// 13, misfit: length code above 3, or data not that long; in the sector maker alone, code 0 too; in the crate
    /// `ism_page` also cells that are not 1,000 for each page
    SectorSizeMismatch,
    /// 15, crowded: more than 32 sectors in a set or entries on a track
    TooManySectors,
    /// 16, unruly: the lowest word of an image that no item has after its previous bit
    UnrulyWord {
        /// which word, from 0
        place: usize,
    },
    /// 17, at odds: the lowest sector number that is twice in one set, or whose two good copies are unlike
    SectorsAtOdds {
        /// the sector's number
        sector: u8,
    },
    /// 18, off speed: the drive is more than a sixteenth off
    OffSpeed {
        /// 0 by the even intervals, 1 by the odd
        half: usize,
    },
    /// 19, lost page: the lowest page whose sector is missing, not of length code 3, or whose sum fails; only from the
    /// crate `ism_page`
    PageLost {
        /// which page, from 1
        page: usize,
    },
    /// 20, soiled fill: the lowest page whose last 24 bytes are not all 00; only from the crate `ism_page`
    FillSoiled {
        /// which page, from 1
        page: usize,
    },
    /// A number that this version of the interface does not list: the linked library is of another version
    Unlisted {
        /// the refusal's number
        number: u32,
        /// its place
        place: usize,
    },
}

impl Refusal {
    /// The refusal that a C answer carries, if its number is not 0.
    pub fn from_numbers(number: u32, place: u32) -> Option<Refusal> {
        let place = place as usize;
        Some(match number {
            0 => return None,
            1 => Refusal::ProfileOutOfRange { field: place },
            2 => Refusal::ProfileInconsistent,
            3 => Refusal::NotAnItem { place },
            4 => Refusal::TooLong,
            5 => Refusal::IntervalTooShort { place },
            6 => Refusal::IntervalTooLong { place },
            7 => Refusal::NotWholeBytes,
            8 => Refusal::MisplacedMark { place },
            9 => Refusal::OutputTooShort,
            10 => Refusal::NoLock,
            11 => Refusal::EndsEarly,
            12 => Refusal::CountOutOfRange,
            13 => Refusal::SectorSizeMismatch,
            15 => Refusal::TooManySectors,
            16 => Refusal::UnrulyWord { place },
            17 => Refusal::SectorsAtOdds { sector: place as u8 },
            18 => Refusal::OffSpeed { half: place },
            19 => Refusal::PageLost { page: place },
            20 => Refusal::FillSoiled { page: place },
            _ => Refusal::Unlisted { number, place },
        })
    }

    /// The number in the table of refusals.
    pub fn number(&self) -> u32 {
        match self {
            Refusal::ProfileOutOfRange { .. } => 1,
            Refusal::ProfileInconsistent => 2,
            Refusal::NotAnItem { .. } => 3,
            Refusal::TooLong => 4,
            Refusal::IntervalTooShort { .. } => 5,
            Refusal::IntervalTooLong { .. } => 6,
            Refusal::NotWholeBytes => 7,
            Refusal::MisplacedMark { .. } => 8,
            Refusal::OutputTooShort => 9,
            Refusal::NoLock => 10,
            Refusal::EndsEarly => 11,
            Refusal::CountOutOfRange => 12,
            Refusal::SectorSizeMismatch => 13,
            Refusal::TooManySectors => 15,
            Refusal::UnrulyWord { .. } => 16,
            Refusal::SectorsAtOdds { .. } => 17,
            Refusal::OffSpeed { .. } => 18,
            Refusal::PageLost { .. } => 19,
            Refusal::FillSoiled { .. } => 20,
            Refusal::Unlisted { number, .. } => *number,
        }
    }

    /// The place: which profile number or page (from 1), which item, interval or word (from 0), which sector number,
    /// which half of a pair; else 0.
    pub fn place(&self) -> usize {
        match self {
            Refusal::ProfileOutOfRange { field } => *field,
            Refusal::SectorsAtOdds { sector } => usize::from(*sector),
            Refusal::OffSpeed { half } => *half,
            Refusal::PageLost { page } | Refusal::FillSoiled { page } => *page,
            Refusal::NotAnItem { place }
            | Refusal::IntervalTooShort { place }
            | Refusal::IntervalTooLong { place }
            | Refusal::MisplacedMark { place }
            | Refusal::UnrulyWord { place }
            | Refusal::Unlisted { place, .. } => *place,
            _ => 0,
        }
    }
}

impl fmt::Display for Refusal {
    fn fmt(&self, f: &mut fmt::Formatter<'_>) -> fmt::Result {
        match self {
            Refusal::ProfileOutOfRange { field } => write!(f, "profile number {field} of 11 is out of range"),
            Refusal::ProfileInconsistent => write!(f, "the profile's windows miss its own cell lengths"),
            Refusal::NotAnItem { place } => {
                write!(f, "number {place} of the list is no data byte, mark A1 or C2, or check order")
            }
            Refusal::TooLong => {
                write!(f, "more than 6,400 bytes or words or 51,202 intervals, or a report over 64 bits")
            }
            Refusal::IntervalTooShort { place } => write!(f, "interval {place} is below Min"),
            Refusal::IntervalTooLong { place } => write!(f, "interval {place} is Rpt or more"),
            Refusal::NotWholeBytes => write!(f, "the intervals do not end on a whole byte"),
            Refusal::MisplacedMark { place } => write!(f, "interval {place} is a mark's gap outside a mark byte"),
            Refusal::OutputTooShort => write!(f, "the output is shorter than the result"),
            Refusal::NoLock => write!(f, "no lock: no sync field with the classes of a mark behind it"),
            Refusal::EndsEarly => write!(f, "the intervals end before the bytes asked for"),
            Refusal::CountOutOfRange => write!(f, "the byte count is outside 1 to 1,030, or the page count 1 to 16"),
            Refusal::SectorSizeMismatch => {
                write!(f, "the length code is above 3, or 0 in making a sector, or the data is not that long")
            }
            Refusal::TooManySectors => write!(f, "more than 32 sectors"),
            Refusal::UnrulyWord { place } => write!(f, "word {place} is that of no item after its previous bit"),
            Refusal::SectorsAtOdds { sector } => {
                write!(f, "sector {sector} is twice in one set, or its two good copies differ")
            }
            Refusal::OffSpeed { half } => {
                let which = if *half == 0 { "even" } else { "odd" };
                write!(f, "the drive is more than a sixteenth off its speed, by the {which} intervals before the lock")
            }
            Refusal::PageLost { page } => {
                write!(f, "page {page} is lost: its sector is missing, not of length code 3, or its sum fails")
            }
            Refusal::FillSoiled { page } => write!(f, "the last 24 bytes of page {page} are not all 00"),
            Refusal::Unlisted { number, place } => write!(f, "unlisted refusal {number} at place {place}"),
        }
    }
}

impl core::error::Error for Refusal {}

/// The answer itself if it is an acceptance.
pub(crate) fn accepted(answer: Answer) -> Result<Answer, Refusal> {
    Refusal::from_numbers(answer.number, answer.place).map_or(Ok(answer), Err)
}
