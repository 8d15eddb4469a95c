//! The call that says what holds the margin down, as the header declares it.

use ism::{Profile, Refusal};

use crate::call::{Call, Expected, Reply};
use crate::compare::{profile, Compare};
use crate::paper::held::{margin_limits, Limit, MOST_LIMITS};
use crate::paper::{Eleven, Refused};

/// `ism_limit`
#[repr(C)]
#[derive(Clone, Copy, Debug, Default, PartialEq, Eq)]
pub struct LimitNumbers {
    pub edge: u16,
    pub after: u16,
    pub above: u16,
    pub item: u16,
    pub interval: u16,
    pub moved: u16,
}

/// `ism_limits`
#[repr(C)]
#[derive(Clone, Copy, Debug, Default, PartialEq, Eq)]
pub struct LimitsAnswer {
    pub number: u32,
    pub place: u32,
    pub count: u64,
    pub limits: [LimitNumbers; MOST_LIMITS],
}

extern "C" {
    fn ism_margin_limits(profile: Profile) -> LimitsAnswer;
}

impl LimitNumbers {
    fn of(limit: &Limit) -> LimitNumbers {
        let among = |names: &[&str], name: &str| names.iter().position(|n| *n == name).expect("a name") as u16;
        LimitNumbers {
            edge: 1 + among(&["Min", "B23", "B34", "Rpt"], limit.side.edge),
            after: among(&["both", "short", "long"], limit.side.after),
            above: u16::from(limit.side.above),
            item: limit.item,
            interval: limit.interval as u16,
            moved: u16::try_from(limit.moved).expect("a changed interval is a 16-bit number"),
        }
    }

    /// From the numbers of the safe function's enums.
    fn from_wrapper(limit: ism::Limit) -> LimitNumbers {
        LimitNumbers {
            edge: 1 + limit.edge as u16,
            after: limit.after as u16,
            above: limit.side as u16,
            item: limit.item,
            interval: limit.interval as u16,
            moved: limit.moved,
        }
    }
}

impl LimitsAnswer {
    /// The limits at the front; all that is beyond them is 0.
    fn of(limits: impl ExactSizeIterator<Item = LimitNumbers>) -> LimitsAnswer {
        let mut answer = LimitsAnswer { count: limits.len() as u64, ..LimitsAnswer::default() };
        assert!(limits.len() <= MOST_LIMITS, "no length is written below Min or above Rpt");
        answer.limits.iter_mut().zip(limits).for_each(|(place, limit)| *place = limit);
        answer
    }

    /// The limits without the places beyond them.
    pub fn named(&self) -> &[LimitNumbers] {
        &self.limits[..self.count as usize]
    }
}

impl Reply for LimitsAnswer {
    fn refusal(Refused { number, place }: Refused) -> LimitsAnswer {
        LimitsAnswer { number, place, ..LimitsAnswer::default() }
    }

    fn number(&self) -> u32 {
        self.number
    }
}

/// The wrapper's answer as the interface gives it.
fn from_wrapper(result: Result<ism::Limits, Refusal>) -> LimitsAnswer {
    match result {
        Ok(limits) => LimitsAnswer::of(limits.iter().map(LimitNumbers::from_wrapper)),
        Err(refusal) => LimitsAnswer::refusal(Refused { number: refusal.number(), place: refusal.place() as u32 }),
    }
}

/// What the library says.
pub fn library_limits(eleven: &Eleven) -> LimitsAnswer {
    // SAFETY: numbers in, numbers out
    unsafe { ism_margin_limits(profile(eleven)) }
}

impl Compare {
    pub fn margin_limits(&mut self, eleven: &Eleven) {
        let call = Call::<u16, u16, LimitsAnswer> {
            name: "ism_margin_limits",
            arguments: format!("profile {eleven:?}"),
            room: 0,
            paper: &|_| {
                let given = |limits: Vec<Limit>| LimitsAnswer::of(limits.iter().map(LimitNumbers::of));
                Expected::new(margin_limits(eleven).map(|limits| Expected::answer(given(limits))))
            },
            interface: &|_, _| library_limits(eleven),
            wrapper: Some(&|_, _| from_wrapper(ism::margin_limits(profile(eleven)))),
        };
        self.run(&[], call);
    }
}
