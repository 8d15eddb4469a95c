//! How long half cells are in the half clocks of a profile.

use ism::Profile;

/// Half clocks in a microsecond where the tool makes the profile.
const HALF_CLOCKS_PER_MICROSECOND: u32 = 16;

/// A profile for the cells of a container: a transition stands in the middle of its window, and nothing is early or
/// late. At 250 thousand bits a second a half cell is 32 half clocks, at 500 thousand 16.
pub fn profile_for(rate: u16) -> Profile {
    let t0 = (HALF_CLOCKS_PER_MICROSECOND * 500 / u32::from(rate.max(1))).clamp(4, 500) as u16;
    let (half, t1) = (t0 / 2, 2 * t0);
    let (b23, b34) = (t1 + half, t1 + t0 + half);
    Profile {
        t1,
        t0,
        early: 0,
        normal: 0,
        late: 0,
        min: t1 - half,
        b23_short: b23,
        b23_long: b23,
        b34_short: b34,
        b34_long: b34,
        rpt: t1 + 2 * t0 + half,
    }
}

/// The length in half clocks of each distance of two transitions in half cells.
pub struct Lengths {
    short: [u16; 256],
    profile: Profile,
}

impl Lengths {
    /// Two half cells are T1, each one more T0 more.
    pub fn of(profile: Profile) -> Lengths {
        let mut short = [0; 256];
        for (half_cells, length) in short.iter_mut().enumerate() {
            *length = length_of(profile, half_cells as u32);
        }
        Lengths { short, profile }
    }

    /// The interval between two transitions.
    pub fn interval(&self, half_cells: u32) -> u16 {
        match self.short.get(half_cells as usize) {
            Some(&length) => length,
            None => length_of(self.profile, half_cells),
        }
    }
}

fn length_of(profile: Profile, half_cells: u32) -> u16 {
    let length = i64::from(profile.t1) + (i64::from(half_cells) - 2) * i64::from(profile.t0);
    length.clamp(0, i64::from(u16::MAX)) as u16
}

#[cfg(test)]
mod tests {
    use super::*;

    #[test]
    fn profiles_for_every_rate_are_true() {
        for rate in [0, 1, 125, 250, 253, 300, 500, 1000, u16::MAX] {
            assert!(ism::margin(profile_for(rate)).is_ok(), "rate {rate}");
        }
        assert_eq!(ism::margin(profile_for(250)), Ok(15));
        assert_eq!(ism::margin(profile_for(500)), Ok(7));
    }

    #[test]
    fn lengths_follow_the_profile_and_stop_at_the_largest_number() {
        let lengths = Lengths::of(profile_for(250));
        assert_eq!([1, 2, 3, 4].map(|cells| lengths.interval(cells)), [32, 64, 96, 128]);
        assert_eq!(lengths.interval(300), 9_600);
        assert_eq!(lengths.interval(100_000), u16::MAX);
    }
}
