//! The call that gives the best windows, as the header declares it.

use ism::{Profile, Refusal};

use crate::call::{Call, Expected, Reply};
use crate::compare::{profile, Compare};
use crate::paper::best::{best_windows, Five};
use crate::paper::{Eleven, Refused};

/// `ism_best`
#[repr(C)]
#[derive(Clone, Copy, Debug, PartialEq, Eq)]
pub struct BestAnswer {
    pub number: u32,
    pub place: u32,
    pub margin: u64,
    pub profile: Profile,
}

extern "C" {
    fn ism_best_windows(t1: u16, t0: u16, early: u16, normal: u16, late: u16) -> BestAnswer;
}

impl BestAnswer {
    fn of((margin, eleven): (u64, Eleven)) -> BestAnswer {
        BestAnswer { number: 0, place: 0, margin, profile: profile(&eleven) }
    }
}

impl Reply for BestAnswer {
    fn refusal(Refused { number, place }: Refused) -> BestAnswer {
        BestAnswer { number, place, margin: 0, profile: profile(&[0; 11]) }
    }

    fn number(&self) -> u32 {
        self.number
    }
}

/// The wrapper's answer as the interface gives it.
fn from_wrapper(result: Result<ism::Best, Refusal>) -> BestAnswer {
    match result {
        Ok(best) => BestAnswer { number: 0, place: 0, margin: u64::from(best.margin), profile: best.profile },
        Err(refusal) => BestAnswer::refusal(Refused { number: refusal.number(), place: refusal.place() as u32 }),
    }
}

/// What the library says.
pub fn library_best([t1, t0, early, normal, late]: Five) -> BestAnswer {
    // SAFETY: numbers in, numbers out
    unsafe { ism_best_windows(t1, t0, early, normal, late) }
}

impl Compare {
    pub fn best_windows(&mut self, five: &Five) {
        let [t1, t0, early, normal, late] = *five;
        let call = Call::<u16, u16, BestAnswer> {
            name: "ism_best_windows",
            arguments: format!("five {five:?}"),
            room: 0,
            paper: &|_| Expected::new(best_windows(five).map(|best| Expected::answer(BestAnswer::of(best)))),
            interface: &|_, _| library_best(*five),
            wrapper: Some(&|_, _| from_wrapper(ism::best_windows(t1, t0, early, normal, late))),
        };
        self.run(&[], call);
    }
}
