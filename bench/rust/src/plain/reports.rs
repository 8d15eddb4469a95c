//! Drive reports.

use ism::sys::{Profile, Report, ReportRow};

use super::clearance::KINDS;
use super::kinds::{bounds_behind, has_pairs, kinds_before, of_kind, BEHIND_TWO};
use super::{check_profile, refused, MAX_INTERVALS};

const NO_ROW: ReportRow = ReportRow { count: 0, least: 0, greatest: 0, sum: 0 };
const NO_REPORT: Report = Report { number: 0, place: 0, rows: [NO_ROW; 5] };

/// What of a list reaches an edge, and the greatest interval that does not.
struct Above {
    count: u32,
    sum: u32,
    least: u32,
    greatest_below: u32,
}

/// Numbers of sixteen bits with a sign. An interval less the edge is taken around the circle, so that those which reach
/// the edge come first, the least of them the lowest, and those below it last. No count or sum is too great for its
/// type.
#[inline(never)]
fn above(edge: u16, intervals: &[u16]) -> Above {
    let (start, top) = (edge ^ 0x8000, (0x7FFF - edge) as i16);
    let (mut count, mut sum, mut least, mut greatest) = (0_u16, 0_i32, i16::MAX, i16::MIN);
    for interval in intervals {
        let distance = interval.wrapping_sub(start) as i16;
        let reaches = -i16::from(distance <= top);
        count = count.wrapping_sub(reaches as u16);
        sum = sum.wrapping_sub(i32::from(distance) * i32::from(reaches));
        least = least.min(distance);
        greatest = greatest.max(distance);
    }
    let sum = (sum as u32).wrapping_add(u32::from(count) * (u32::from(edge) + 0x8000));
    let [least, greatest_below] = [least, greatest].map(|distance| u32::from((distance as u16).wrapping_add(start)));
    Above { count: u32::from(count), sum, least, greatest_below }
}

/// Nothing where the count is 0.
fn row_between(lower: &Above, upper: &Above) -> ReportRow {
    let [count, least, greatest, sum] =
        [lower.count - upper.count, lower.least, upper.greatest_below, lower.sum - upper.sum].map(u64::from);
    if count > 0 {
        ReportRow { count, least, greatest, sum }
    } else {
        NO_ROW
    }
}

/// Equal pairs. Classes ascend, so a row is the difference of what reaches its two edges; its least is the least that
/// reaches the lower one, and its greatest the greatest that does not reach the upper one. The sum of a list fits in 32
/// bits.
fn rows_alike(p: &Profile, intervals: &[u16]) -> [ReportRow; 5] {
    let mut lower = above(0, intervals);
    let none = Above { count: 0, sum: 0, least: 0, greatest_below: lower.greatest_below };
    let uppers = [p.min, p.b23_short, p.b34_short, p.rpt].map(|edge| above(edge, intervals)).into_iter().chain([none]);
    let mut rows = [NO_ROW; 5];
    for (row, upper) in rows.iter_mut().zip(uppers) {
        *row = row_between(&lower, &upper);
        lower = upper;
    }
    rows
}

/// The edges of a class, behind class 2 and behind any other.
struct Window {
    from: [u16; 2],
    to: [u16; 2],
}

impl Window {
    /// The row of this window's intervals among some. Those are below 4,096, and so none is 0 or has a sign.
    #[inline(never)]
    fn row(&self, intervals: &[u16], kinds: &[u16]) -> ReportRow {
        let ([from_two, from_other], [to_two, to_other]) = (self.from, self.to);
        let (mut count, mut sum, mut least, mut greatest) = (0_u16, 0_i32, i16::MAX, 0_i16);
        for (interval, kind) in intervals.iter().zip(kinds) {
            let number = *interval as i16;
            let from = of_kind(*kind, from_two, from_other) as i16;
            let to = of_kind(*kind, to_two, to_other) as i16;
            let inside = -i16::from((number >= from) & (number < to));
            count = count.wrapping_sub(inside as u16);
            sum -= i32::from(number) * i32::from(inside);
            least = least.min((number | !inside) & i16::MAX);
            greatest = greatest.max(number & inside);
        }
        if count == 0 {
            return NO_ROW;
        }
        ReportRow { count: count.into(), least: least as u64, greatest: greatest as u64, sum: sum as u64 }
    }
}

/// Pairs: narrow and wide as before, the windows between them by blocks, each interval behind its kind.
fn rows_in_turn(p: &Profile, intervals: &[u16]) -> [ReportRow; 5] {
    let (two, other) = (bounds_behind(p, true), bounds_behind(p, false));
    let edges = [[p.min; 2], [two.b23, other.b23], [two.b34, other.b34], [p.rpt; 2]];
    let windows = [0, 1, 2].map(|k| Window { from: edges[k], to: edges[k + 1] });
    let all = above(0, intervals);
    let none = Above { count: 0, sum: 0, least: 0, greatest_below: all.greatest_below };
    let mut rows = [NO_ROW; 5];
    rows[0] = row_between(&all, &above(p.min, intervals));
    rows[4] = row_between(&above(p.rpt, intervals), &none);
    let (mut is_two, mut kinds) = (true, [BEHIND_TWO; KINDS]);
    for block in intervals.chunks(KINDS) {
        let kinds = &mut kinds[..block.len()];
        is_two = kinds_before(p, is_two, block, kinds);
        for (row, window) in rows[1..4].iter_mut().zip(&windows) {
            *row = added(row, &window.row(block, kinds)).unwrap_or(NO_ROW);
        }
    }
    rows
}

#[inline(never)]
pub fn plain_rust_drive_report(p: Profile, intervals: &[u16]) -> Report {
    let too_long = if intervals.len() > MAX_INTERVALS { Err(refused(4, 0)) } else { Ok(()) };
    if let Err(refusal) = check_profile(&p).and(too_long) {
        return Report { number: refusal.number, place: refusal.place, ..NO_REPORT };
    }
    let rows = if has_pairs(&p) { rows_in_turn(&p, intervals) } else { rows_alike(&p, intervals) };
    Report { rows, ..NO_REPORT }
}

/// A row of count 0 is passed over whatever else it holds. Nothing if a count or a sum does not fit.
fn added(a: &ReportRow, b: &ReportRow) -> Option<ReportRow> {
    match (a.count, b.count) {
        (0, 0) => Some(NO_ROW),
        (0, _) => Some(*b),
        (_, 0) => Some(*a),
        _ => Some(ReportRow {
            count: a.count.checked_add(b.count)?,
            least: a.least.min(b.least),
            greatest: a.greatest.max(b.greatest),
            sum: a.sum.checked_add(b.sum)?,
        }),
    }
}

#[inline(never)]
pub fn plain_rust_add_reports(a: &Report, b: &Report) -> Report {
    let mut sum = NO_REPORT;
    for (row, (a, b)) in sum.rows.iter_mut().zip(a.rows.iter().zip(&b.rows)) {
        let Some(both) = added(a, b) else { return Report { number: 4, ..NO_REPORT } };
        *row = both;
    }
    sum
}
