//! Drives that run slow, request (xi).

use super::{find, read_field, refuse, Eleven, Field, Refused};

/// What the corrected reader gives.
#[derive(Clone, Debug, PartialEq, Eq)]
pub struct Corrected {
    pub lock: u64,
    pub field: Field,
    /// S0 - 32 x T1 and S1 - 32 x T1
    pub differences: [i64; 2],
}

/// The sum of every second interval from the first on, and from the second on.
pub fn sums(run: &[u16]) -> [i64; 2] {
    [0, 1].map(|first| run.iter().skip(first).step_by(2).map(|d| i64::from(*d)).sum())
}

/// Reads n bytes at the first lock from a start. Where the lock stands is told by the intervals as they are.
pub fn read_corrected(
    eleven: &Eleven,
    intervals: &[u16],
    start: u64,
    n: u64,
    room: usize,
) -> Result<Corrected, Refused> {
    let lock = find(eleven, intervals, start)?;
    let (before, following) = intervals.split_at(lock as usize);
    let nominal = 32 * i64::from(eleven[0]);
    let sums = sums(&before[before.len() - 64..]);
    let differences = sums.map(|sum| sum - nominal);
    if let Some(half) = differences.iter().position(|difference| 16 * difference.abs() > nominal) {
        return refuse(18, half);
    }
    let correct = |(k, d): (usize, &u16)| i64::from(*d) * nominal / sums[k % 2];
    let numbers: Vec<i64> = following.iter().enumerate().map(correct).collect();
    Ok(Corrected { lock, field: read_field(eleven, &numbers, n, room)?, differences })
}
