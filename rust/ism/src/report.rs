//! How worn a drive is: intervals by class.

use crate::sys::{self, ReportRow};
use crate::{Class, Profile, Refusal};

/// For each class of interval how many there are, the least, the greatest and the sum, in half clocks. An empty class
/// has four zeros.
#[derive(Clone, Copy, Debug, Default, PartialEq, Eq)]
pub struct Report {
    /// narrow, 2, 3, 4, wide
    pub rows: [ReportRow; 5],
}

impl Report {
    /// The row of a class.
    pub fn row(&self, class: Class) -> ReportRow {
        self.rows[class as usize]
    }

    /// Two reports added: the figures of both lists, each classed from its own beginning. That is the report of the
    /// lists joined where the first is empty or ends in class 2, or where the profile's pairs are equal; elsewhere it
    /// need not be. A row whose count is 0 is passed over.
    ///
    /// Refused: too long, where a count or a sum does not fit in 64 bits.
    #[allow(clippy::should_implement_trait)] // it can be refused, as the operator cannot
    pub fn add(self, other: Report) -> Result<Report, Refusal> {
        // SAFETY: numbers in, numbers out
        accepted(unsafe { sys::ism_add_reports(self.into_sys(), other.into_sys()) })
    }

    fn into_sys(self) -> sys::Report {
        sys::Report { number: 0, place: 0, rows: self.rows }
    }
}

/// The report of one list of intervals, the first of them classed as after class 2.
///
/// Refusals in order: profile, too many intervals.
pub fn drive_report(profile: Profile, intervals: &[u16]) -> Result<Report, Refusal> {
    // SAFETY: the pointer comes with the length of its slice
    accepted(unsafe { sys::ism_drive_report(profile, intervals.as_ptr(), intervals.len()) })
}

fn accepted(report: sys::Report) -> Result<Report, Refusal> {
    Refusal::from_numbers(report.number, report.place).map_or(Ok(Report { rows: report.rows }), Err)
}
