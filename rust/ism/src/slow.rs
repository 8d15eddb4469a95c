//! Drives that run slow.

use crate::{sys, Field, Profile, Refusal};

/// What the corrected reader gives besides the items.
#[derive(Clone, Copy, Debug, PartialEq, Eq)]
pub struct Corrected {
    /// the lock's place in the list; `field.used` counts from there
    pub lock: usize,
    /// as the field reader gives it, of the corrected numbers
    pub field: Field,
    /// by how much the even ones of the 64 intervals before the lock are together longer than 32 x T1
    pub even: i32,
    /// and the odd ones
    pub odd: i32,
}

impl Corrected {
    /// By how many percent the intervals are longer than at nominal speed.
    pub fn percent(&self, profile: Profile) -> f64 {
        100.0 * f64::from(self.even + self.odd) / (64.0 * f64::from(profile.t1))
    }

    /// By how many half clocks the even intervals are longer than the odd, on the average.
    pub fn asymmetry(&self) -> f64 {
        f64::from(self.even - self.odd) / 32.0
    }
}

/// Reads `bytes` items at the first lock from `start` on to the front of `out`, each interval corrected by the speed
/// that the 64 before the lock tell. Places of refusals count from the lock.
///
/// ```no_run
/// # let profile = ism::Profile {
/// #     t1: 58, t0: 29, early: 8, normal: 10, late: 12, min: 36,
/// #     b23_short: 73, b23_long: 73, b34_short: 106, b34_long: 106, rpt: 139,
/// # };
/// # let track = [0; 64];
/// let mut items = [0; 10];
/// let read = ism::read_corrected(profile, &track, 0, 10, &mut items)?;
/// println!("{:+.1} percent, halves {:+.1} half clocks apart", read.percent(profile), read.asymmetry());
/// # Ok::<(), ism::Refusal>(())
/// ```
///
/// Refusals in order: profile, no lock, off speed, count out of range, interval too short, too long or ends early as
/// first met, misplaced mark, output too short.
pub fn read_corrected(
    profile: Profile,
    intervals: &[u16],
    start: usize,
    bytes: usize,
    out: &mut [u16],
) -> Result<Corrected, Refusal> {
    // SAFETY: each pointer comes with the length of its slice, and slices do not overlap
    let read = unsafe {
        let (list, n, room) = (intervals.as_ptr(), intervals.len(), out.len());
        sys::ism_read_corrected(profile, list, n, start as u64, bytes as u64, out.as_mut_ptr(), room)
    };
    match Refusal::from_numbers(read.number, read.place) {
        Some(refusal) => Err(refusal),
        None => Ok(Corrected {
            lock: read.lock as usize,
            field: Field {
                items: read.count as usize,
                used: read.used as usize,
                holds: read.holds != 0,
                clearance: read.clearance,
            },
            even: read.even,
            odd: read.odd,
        }),
    }
}
