//! The best windows.

use crate::{sys, Profile, Refusal};

/// A profile that has the largest margin, and that margin.
#[derive(Clone, Copy, Debug, PartialEq, Eq)]
pub struct Best {
    /// half clocks, as [`crate::margin`] gives them for the profile
    pub margin: u32,
    /// the five numbers given, and the six that were chosen
    pub profile: Profile,
}

/// The profile with the largest margin that any choice of Min, both B23, both B34 and Rpt has, given the five numbers
/// that a drive writes with. The C header gives the formula, and says which of several equally good ones it is.
///
/// ```
/// let best = ism::best_windows(58, 29, 8, 10, 12)?;
/// assert_eq!((best.margin, best.profile.b23_short, best.profile.b34_long), (12, 75, 104));
/// # Ok::<(), ism::Refusal>(())
/// ```
///
/// Refused: one of the five is out of range, or no choice of the six makes the profile true.
pub fn best_windows(t1: u16, t0: u16, early: u16, normal: u16, late: u16) -> Result<Best, Refusal> {
    // SAFETY: numbers in, numbers out
    let best = unsafe { sys::ism_best_windows(t1, t0, early, normal, late) };
    match Refusal::from_numbers(best.number, best.place) {
        Some(refusal) => Err(refusal),
        None => Ok(Best { margin: best.margin as u32, profile: best.profile }),
    }
}
