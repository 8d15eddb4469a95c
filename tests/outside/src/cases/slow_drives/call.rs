//! The corrected reader's call, as the header declares it.

use ism::{Profile, Refusal};

use crate::call::{Call, Expected, Reply};
use crate::compare::{profile, Compare};
use crate::paper::slow::{self, read_corrected};
use crate::paper::{Eleven, Refused};

/// `ism_corrected`
#[repr(C)]
#[derive(Clone, Copy, Debug, Default, PartialEq, Eq)]
pub struct CorrectedAnswer {
    pub number: u32,
    pub place: u32,
    pub lock: u64,
    pub count: u64,
    pub used: u64,
    pub holds: u32,
    pub clearance: u32,
    pub even: i32,
    pub odd: i32,
}

extern "C" {
    fn ism_read_corrected(
        profile: Profile,
        intervals: *const u16,
        n: usize,
        start: u64,
        bytes: u64,
        out: *mut u16,
        room: usize,
    ) -> CorrectedAnswer;
}

impl Reply for CorrectedAnswer {
    fn refusal(Refused { number, place }: Refused) -> CorrectedAnswer {
        CorrectedAnswer { number, place, ..CorrectedAnswer::default() }
    }

    fn number(&self) -> u32 {
        self.number
    }
}

fn expected(read: slow::Corrected) -> Expected<u16, CorrectedAnswer> {
    let [even, odd] = read.differences.map(|difference| difference as i32);
    let answer = CorrectedAnswer {
        number: 0,
        place: 0,
        lock: read.lock,
        count: read.field.items.len() as u64,
        used: read.field.used as u64,
        holds: u32::from(read.field.holds),
        clearance: read.field.clearance,
        even,
        odd,
    };
    Expected::storing(answer, read.field.items)
}

/// The wrapper's answer as the interface gives it.
fn from_wrapper(result: Result<ism::Corrected, Refusal>) -> CorrectedAnswer {
    match result {
        Ok(read) => CorrectedAnswer {
            number: 0,
            place: 0,
            lock: read.lock as u64,
            count: read.field.items as u64,
            used: read.field.used as u64,
            holds: u32::from(read.field.holds),
            clearance: read.field.clearance,
            even: read.even,
            odd: read.odd,
        },
        Err(refusal) => CorrectedAnswer::refusal(Refused { number: refusal.number(), place: refusal.place() as u32 }),
    }
}

/// What the library says, and the output.
pub fn library_corrected(
    eleven: &Eleven,
    intervals: &[u16],
    start: u64,
    bytes: u64,
    out: &mut [u16],
) -> CorrectedAnswer {
    // SAFETY: each pointer comes with the length of its slice
    unsafe {
        ism_read_corrected(
            profile(eleven),
            intervals.as_ptr(),
            intervals.len(),
            start,
            bytes,
            out.as_mut_ptr(),
            out.len(),
        )
    }
}

impl Compare {
    pub fn corrected(&mut self, eleven: &Eleven, intervals: &[u16], start: u64, bytes: u64, room: usize) {
        let p = profile(eleven);
        let call = Call::<u16, u16, CorrectedAnswer> {
            name: "ism_read_corrected",
            arguments: format!("profile {eleven:?}, start {start}, bytes {bytes}"),
            room,
            paper: &|intervals| Expected::new(read_corrected(eleven, intervals, start, bytes, room).map(expected)),
            interface: &|intervals, out| library_corrected(eleven, intervals, start, bytes, out),
            wrapper: Some(&|intervals, out| from_wrapper(ism::read_corrected(p, intervals, start as usize, bytes as usize, out))),
        };
        self.run(intervals, call);
    }
}
