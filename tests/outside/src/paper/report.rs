//! Drive report, request (i): count, least, greatest and sum of the classes narrow, 2, 3, 4 and wide.

use super::{check_profile, classes, refuse, Eleven, Refused, MOST_INTERVALS};

/// Count, least, greatest, sum.
pub type Row = [u64; 4];

/// One row for each class, in the order narrow, 2, 3, 4, wide.
pub type Rows = [Row; 5];

/// The row of a class that has no interval.
const EMPTY: Row = [0; 4];

/// The rows of a list, however long.
pub fn rows_of(eleven: &Eleven, intervals: &[u16]) -> Rows {
    let letters = classes(eleven, intervals);
    let of_class = |letter: char| -> Vec<u64> {
        let lengths = intervals.iter().zip(letters.chars()).filter(|(_, class)| *class == letter);
        lengths.map(|(d, _)| u64::from(*d)).collect()
    };
    ['n', '2', '3', '4', 'w'].map(|letter| row_of(&of_class(letter)))
}

fn row_of(lengths: &[u64]) -> Row {
    match (lengths.iter().min(), lengths.iter().max()) {
        (Some(least), Some(greatest)) => [lengths.len() as u64, *least, *greatest, lengths.iter().sum()],
        _ => EMPTY,
    }
}

/// The report: 1, 2, 4.
pub fn drive_report(eleven: &Eleven, intervals: &[u16]) -> Result<Rows, Refused> {
    check_profile(eleven)?;
    if intervals.len() > MOST_INTERVALS {
        return refuse(4, 0);
    }
    Ok(rows_of(eleven, intervals))
}

/// Adding two reports: 4 when a count or a sum would not fit in 64 bits.
pub fn add_reports(a: &Rows, b: &Rows) -> Result<Rows, Refused> {
    let mut rows = [EMPTY; 5];
    for (row, (x, y)) in rows.iter_mut().zip(a.iter().zip(b)) {
        *row = add_rows(*x, *y)?;
    }
    Ok(rows)
}

fn add_rows(a: Row, b: Row) -> Result<Row, Refused> {
    // a row of count zero is passed over, whatever else it holds
    match (a[0], b[0]) {
        (0, 0) => Ok(EMPTY),
        (0, _) => Ok(b),
        (_, 0) => Ok(a),
        _ => Ok([fitting(a[0], b[0])?, a[1].min(b[1]), a[2].max(b[2]), fitting(a[3], b[3])?]),
    }
}

fn fitting(a: u64, b: u64) -> Result<u64, Refused> {
    u64::try_from(u128::from(a) + u128::from(b)).or(refuse(4, 0))
}
