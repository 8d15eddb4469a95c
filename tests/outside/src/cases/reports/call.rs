//! The calls of the drive report, as the header declares them.

use ism::{Profile, Refusal};

use crate::call::{Call, Expected, Reply};
use crate::compare::{profile, Compare};
use crate::paper::report::{self, Row, Rows};
use crate::paper::{Eleven, Refused};

/// `ism_report_row`
#[repr(C)]
#[derive(Clone, Copy, Debug, PartialEq, Eq)]
pub struct ReportRow {
    pub count: u64,
    pub least: u64,
    pub greatest: u64,
    pub sum: u64,
}

/// `ism_report`
#[repr(C)]
#[derive(Clone, Copy, Debug, PartialEq, Eq)]
pub struct Report {
    pub number: u32,
    pub place: u32,
    pub rows: [ReportRow; 5],
}

extern "C" {
    pub fn ism_drive_report(profile: Profile, intervals: *const u16, n: usize) -> Report;
    pub fn ism_add_reports(a: Report, b: Report) -> Report;
}

impl Report {
    /// Rows under a number and a place, which adding does not look at.
    pub fn under(number: u32, place: u32, rows: &Rows) -> Report {
        let row = |[count, least, greatest, sum]: Row| ReportRow { count, least, greatest, sum };
        Report { number, place, rows: rows.map(row) }
    }

    /// The rows as the wrapper takes them.
    fn wrapped(&self) -> ism::Report {
        let row = |row: ReportRow| ism::sys::ReportRow {
            count: row.count,
            least: row.least,
            greatest: row.greatest,
            sum: row.sum,
        };
        ism::Report { rows: self.rows.map(row) }
    }

    fn rows(&self) -> Rows {
        self.rows.map(|row| [row.count, row.least, row.greatest, row.sum])
    }
}

impl Reply for Report {
    fn refusal(Refused { number, place }: Refused) -> Report {
        Report::under(number, place, &[[0; 4]; 5])
    }

    fn number(&self) -> u32 {
        self.number
    }
}

/// The wrapper's answer as the interface gives it.
fn from_wrapper(result: Result<ism::Report, Refusal>) -> Report {
    let row = |row: ism::sys::ReportRow| [row.count, row.least, row.greatest, row.sum];
    result.map_or_else(
        |refusal| Report::refusal(Refused { number: refusal.number(), place: refusal.place() as u32 }),
        |report| Report::under(0, 0, &report.rows.map(row)),
    )
}

fn expected(rows: Result<Rows, Refused>) -> Expected<u16, Report> {
    Expected::new(rows.map(|rows| Expected::answer(Report::under(0, 0, &rows))))
}

/// The library's report of a list.
pub fn library_report(eleven: &Eleven, intervals: &[u16]) -> Report {
    // SAFETY: the pointer comes with the length of its slice
    unsafe { ism_drive_report(profile(eleven), intervals.as_ptr(), intervals.len()) }
}

/// The library's sum of two reports.
pub fn library_sum(a: Report, b: Report) -> Report {
    // SAFETY: numbers in, numbers out
    unsafe { ism_add_reports(a, b) }
}

impl Compare {
    pub fn drive_report(&mut self, eleven: &Eleven, intervals: &[u16]) {
        let call = Call {
            name: "ism_drive_report",
            arguments: format!("profile {eleven:?}"),
            room: 0,
            paper: &|intervals| expected(report::drive_report(eleven, intervals)),
            interface: &|intervals: &[u16], _| library_report(eleven, intervals),
            wrapper: Some(&|intervals, _| from_wrapper(ism::drive_report(profile(eleven), intervals))),
        };
        self.run(intervals, call);
    }

    pub fn add_reports(&mut self, a: Report, b: Report) {
        let call = Call::<u16, u16, Report> {
            name: "ism_add_reports",
            arguments: format!("{a:?}\n{b:?}"),
            room: 0,
            paper: &|_| expected(report::add_reports(&a.rows(), &b.rows())),
            interface: &|_, _| library_sum(a, b),
            wrapper: Some(&|_, _| from_wrapper(a.wrapped().add(b.wrapped()))),
        };
        self.run(&[], call);
    }
}
