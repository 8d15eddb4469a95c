//! The sectors that passes over one track read, and the merge of two of them.

use crate::refusal::accepted;
use crate::{sector_bytes, sys, Profile, Refusal};

/// The most sectors of one set.
pub const MAX_SECTORS: usize = 32;
/// The most bytes of a set that [`merge`] takes; always room enough for its result.
pub const MAX_SET_BYTES: usize = 32_864;

/// One sector of a set.
#[derive(Clone, Copy, Debug, PartialEq, Eq)]
pub struct Sector<'a> {
    /// its sector number
    pub number: u8,
    /// 0, 1, 2, 3 for 128, 256, 512, 1,024 bytes
    pub code: u8,
    /// whether its sum holds
    pub holds: bool,
    /// its data
    pub data: &'a [u8],
}

/// A set of sectors as [`merge`] takes it, packed into a buffer of the caller's.
///
/// ```
/// let (mut first, mut second) = ([0; ism::MAX_SET_BYTES], [0; ism::MAX_SET_BYTES]);
/// let mut one = ism::SectorSet::new(&mut first);
/// one.push(ism::Sector { number: 1, code: 0, holds: false, data: &[0; 128] })?;
/// let mut two = ism::SectorSet::new(&mut second);
/// two.push(ism::Sector { number: 1, code: 0, holds: true, data: &[7; 128] })?;
/// let mut out = [0; ism::MAX_SET_BYTES];
/// for sector in ism::merge(one.bytes(), two.bytes(), &mut out)? {
///     assert!(sector.holds && sector.data == [7; 128]);
/// }
/// # Ok::<(), ism::Refusal>(())
/// ```
#[derive(Debug)]
pub struct SectorSet<'a> {
    buffer: &'a mut [u8],
    used: usize,
}

impl<'a> SectorSet<'a> {
    /// An empty set over a buffer.
    pub fn new(buffer: &'a mut [u8]) -> SectorSet<'a> {
        SectorSet { buffer, used: 0 }
    }

    /// One sector more: refused where its data has not the size of its code, or the buffer has no room.
    pub fn push(&mut self, sector: Sector<'_>) -> Result<(), Refusal> {
        if sector_bytes(sector.code) != Some(sector.data.len()) {
            return Err(Refusal::SectorSizeMismatch);
        }
        let end = self.used + 3 + sector.data.len();
        let place = self.buffer.get_mut(self.used..end).ok_or(Refusal::OutputTooShort)?;
        place[..3].copy_from_slice(&[sector.number, sector.code, sector.holds as u8]);
        place[3..].copy_from_slice(sector.data);
        self.used = end;
        Ok(())
    }

    /// The set as bytes.
    pub fn bytes(&self) -> &[u8] {
        &self.buffer[..self.used]
    }

    /// Its sectors in order.
    pub fn sectors(&self) -> Sectors<'_> {
        sectors(self.bytes())
    }
}

/// Reads one pass over a track: the sectors of [`index_track`](crate::index_track) whose data was found, in its order,
/// as a set for [`merge`] over the caller's buffer. A mark byte among the data gives the byte.
///
/// ```no_run
/// # let profile = ism::Profile {
/// #     t1: 58, t0: 29, early: 8, normal: 10, late: 12, min: 36,
/// #     b23_short: 73, b23_long: 73, b34_short: 106, b34_long: 106, rpt: 139,
/// # };
/// # let (one, two) = ([0; 64], [0; 64]);
/// let [mut first, mut second, mut out] = [[0; ism::MAX_SET_BYTES]; 3];
/// let first = ism::read_track(profile, &one, &mut first)?;
/// let second = ism::read_track(profile, &two, &mut second)?;
/// for sector in ism::merge(first.bytes(), second.bytes(), &mut out)? {
///     println!("sector {}: {}", sector.number, if sector.holds { "good" } else { "bad" });
/// }
/// # Ok::<(), ism::Refusal>(())
/// ```
///
/// A number that stands on the track twice is in the set twice: the merge judges that. Refusals in order: profile, too
/// many sectors, output too short; the buffer is then as it was.
pub fn read_track<'a>(profile: Profile, intervals: &[u16], buffer: &'a mut [u8]) -> Result<SectorSet<'a>, Refusal> {
    // SAFETY: each pointer comes with the length of its slice, and slices do not overlap
    let answer =
        unsafe { sys::ism_read_track(profile, intervals.as_ptr(), intervals.len(), buffer.as_mut_ptr(), buffer.len()) };
    let used = accepted(answer)?.used as usize;
    Ok(SectorSet { buffer, used })
}

/// The sectors of a set as bytes, in order; it ends where the bytes are no whole sector.
#[derive(Clone, Debug)]
pub struct Sectors<'a> {
    bytes: &'a [u8],
}

/// The sectors of a set as bytes.
pub fn sectors(bytes: &[u8]) -> Sectors<'_> {
    Sectors { bytes }
}

impl<'a> Iterator for Sectors<'a> {
    type Item = Sector<'a>;

    fn next(&mut self) -> Option<Sector<'a>> {
        let &[number, code, sum, ref rest @ ..] = self.bytes else { return None };
        let size = sector_bytes(code)?;
        let data = rest.get(..size)?;
        self.bytes = &rest[size..];
        Some(Sector { number, code, holds: sum != 0, data })
    }
}

/// Merges the sectors that two passes over one track read, to the front of `out`, by ascending sector number.
///
/// A number in one set only is taken from it. In both, the copy whose sum holds is taken; if neither holds, the first
/// set's. Refusals in order: sector size mismatch, too many sectors, sectors at odds, output too short.
pub fn merge<'a>(first: &[u8], second: &[u8], out: &'a mut [u8]) -> Result<Sectors<'a>, Refusal> {
    // SAFETY: each pointer comes with the length of its slice, and slices do not overlap
    let answer = unsafe {
        sys::ism_merge(first.as_ptr(), first.len(), second.as_ptr(), second.len(), out.as_mut_ptr(), out.len())
    };
    let used = accepted(answer)?.used as usize;
    Ok(sectors(&out[..used]))
}
