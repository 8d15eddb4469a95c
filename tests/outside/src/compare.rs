//! One case: the same input to the paper, to the C interface and to the Rust wrapper, and their answers side by side.

use std::collections::BTreeMap;
use std::fmt::Debug;
use std::io::Write;
use std::process::exit;

use ism::sys::{self, Answer};
use ism::{Classed, Field, Profile, Refusal, SectorId, Strip};

use crate::call::{Call, Cell, Expected, Reply, ACCEPTED};
use crate::paper::{self, Eleven};
use crate::random::Random;

/// Runs cases and counts them by group, and the refusals by function.
pub struct Compare {
    groups: Vec<u64>,
    seen: BTreeMap<(&'static str, u32), u64>,
}

/// The wrapper's result in the form of a C answer.
pub fn from_wrapper<T>(result: Result<T, Refusal>, answer: impl Fn(T) -> Answer) -> Answer {
    match result {
        Ok(given) => answer(given),
        Err(refusal) => Answer { number: refusal.number(), place: refusal.place() as u32, ..ACCEPTED },
    }
}

pub fn count_answer(count: usize) -> Answer {
    Answer { count: count as u64, ..ACCEPTED }
}

pub fn profile(eleven: &Eleven) -> Profile {
    let [t1, t0, early, normal, late, min, b23_short, b23_long, b34_short, b34_long, rpt] = *eleven;
    Profile { t1, t0, early, normal, late, min, b23_short, b23_long, b34_short, b34_long, rpt }
}

impl Compare {
    pub fn new() -> Self {
        Compare { groups: Vec::new(), seen: BTreeMap::new() }
    }

    /// Runs a group of cases with random numbers of its own. The name comes first, in case a call does not return.
    pub fn group(&mut self, name: &str, seed: u64, cases: fn(&mut Compare, &mut Random)) {
        print!("{name:32} seed {seed:#06x} ");
        std::io::stdout().flush().expect("standard output");
        self.groups.push(0);
        let begin = std::time::Instant::now();
        cases(self, &mut Random::new(seed));
        let count = self.groups.last().expect("pushed above");
        println!("{count:8} cases {:6.1} s", begin.elapsed().as_secs_f64());
    }

    pub fn total(&self) -> u64 {
        self.groups.iter().sum()
    }

    /// How often a function gave a refusal; 0 stands for acceptance.
    pub fn seen(&self, name: &'static str, number: u32) -> u64 {
        self.seen.get(&(name, number)).copied().unwrap_or(0)
    }

    /// Counts a case, and the answer that its function gave.
    pub fn count(&mut self, name: &'static str, number: u32) {
        *self.groups.last_mut().expect("cases run in a group") += 1;
        *self.seen.entry((name, number)).or_insert(0) += 1;
    }

    /// Counts a case that is a plain claim, or stops with its description.
    pub fn claim(&mut self, what: &str, holds: bool) {
        if !holds {
            println!("\nDISAGREEMENT: {what}");
            exit(1);
        }
        self.count("claim", 0);
    }

    /// One case of a function.
    pub fn run<T: Clone + PartialEq + Debug, O: Cell, A: Reply>(&mut self, list: &[T], call: Call<T, O, A>) {
        let number = call.check(list);
        self.count(call.name, number);
    }

    pub fn margin(&mut self, eleven: &Eleven) {
        let p = profile(eleven);
        let call = Call::<u16> {
            name: "ism_margin",
            arguments: format!("profile {eleven:?}"),
            room: 0,
            paper: &|_| Expected::new(paper::margin(eleven).map(Expected::count)),
            // SAFETY: numbers in, numbers out
            interface: &|_, _| unsafe { sys::ism_margin(p) },
            wrapper: Some(&|_, _| from_wrapper(ism::margin(p), |count| count_answer(count as usize))),
        };
        self.run(&[], call);
    }

    /// After an interval of class 2 and after another.
    pub fn class(&mut self, eleven: &Eleven, interval: u16) {
        self.class_after(eleven, interval, 1);
        self.class_after(eleven, interval, 0);
    }

    /// Told by this number whether the interval before was of class 2.
    pub fn class_after(&mut self, eleven: &Eleven, interval: u16, number: u32) {
        let p = profile(eleven);
        let after_short = number != 0;
        let answer =
            |classed: Classed| Answer { clearance: classed.clearance, ..count_answer(1 + classed.class as usize) };
        let call = Call::<u16> {
            name: "ism_class",
            arguments: format!("profile {eleven:?}, interval {interval}, after_short {number}"),
            room: 0,
            paper: &|_| {
                let given = |class| Expected::count(class).cleared(paper::clearance(eleven, after_short, interval));
                Expected::new(paper::class(eleven, after_short, interval).map(given))
            },
            // SAFETY: numbers in, numbers out
            interface: &|_, _| unsafe { sys::ism_class(p, interval, number) },
            wrapper: Some(&|_, _| from_wrapper(ism::classify(p, interval, after_short), answer)),
        };
        self.run(&[], call);
    }

    pub fn write(&mut self, eleven: &Eleven, items: &[u16], room: usize) {
        let p = profile(eleven);
        let call = Call {
            name: "ism_write",
            arguments: format!("profile {eleven:?}"),
            room,
            paper: &|items| Expected::new(paper::write(eleven, items, room).map(Expected::list)),
            // SAFETY: each pointer comes with the length of its slice
            interface: &|items: &[u16], out| unsafe {
                sys::ism_write(p, items.as_ptr(), items.len(), out.as_mut_ptr(), out.len())
            },
            wrapper: Some(&|items, out| from_wrapper(ism::write(p, items, out), count_answer)),
        };
        self.run(items, call);
    }

    pub fn read(&mut self, eleven: &Eleven, intervals: &[u16], room: usize) {
        let p = profile(eleven);
        let answer = |strip: Strip| Answer { clearance: strip.clearance, ..count_answer(strip.items) };
        let call = Call {
            name: "ism_read",
            arguments: format!("profile {eleven:?}"),
            room,
            paper: &|intervals| {
                let given = |items| Expected::list(items).cleared(paper::least_clearance(eleven, intervals));
                Expected::new(paper::read(eleven, intervals, room).map(given))
            },
            // SAFETY: each pointer comes with the length of its slice
            interface: &|intervals: &[u16], out| unsafe {
                sys::ism_read(p, intervals.as_ptr(), intervals.len(), out.as_mut_ptr(), out.len())
            },
            wrapper: Some(&|intervals, out| from_wrapper(ism::read(p, intervals, out), answer)),
        };
        self.run(intervals, call);
    }

    pub fn find(&mut self, eleven: &Eleven, intervals: &[u16], start: u64) {
        let p = profile(eleven);
        let call = Call::<u16> {
            name: "ism_find",
            arguments: format!("profile {eleven:?}, start {start}"),
            room: 0,
            paper: &|intervals| Expected::new(paper::find(eleven, intervals, start).map(Expected::count)),
            // SAFETY: the pointer comes with the length of its slice
            interface: &|intervals: &[u16], _| unsafe { sys::ism_find(p, intervals.as_ptr(), intervals.len(), start) },
            wrapper: Some(&|intervals, _| from_wrapper(ism::find_lock(p, intervals, start as usize), count_answer)),
        };
        self.run(intervals, call);
    }

    pub fn field(&mut self, eleven: &Eleven, intervals: &[u16], bytes: u64, room: usize) {
        let p = profile(eleven);
        let answer = |field: Field| Answer {
            used: field.used as u64,
            holds: u32::from(field.holds),
            clearance: field.clearance,
            ..count_answer(field.items)
        };
        let call = Call {
            name: "ism_read_field",
            arguments: format!("profile {eleven:?}, bytes {bytes}"),
            room,
            paper: &|intervals| Expected::new(paper::read_field(eleven, intervals, bytes, room).map(Expected::field)),
            // SAFETY: each pointer comes with the length of its slice
            interface: &|intervals: &[u16], out| unsafe {
                sys::ism_read_field(p, intervals.as_ptr(), intervals.len(), bytes, out.as_mut_ptr(), out.len())
            },
            wrapper: Some(&|intervals, out| from_wrapper(ism::read_field(p, intervals, bytes as usize, out), answer)),
        };
        self.run(intervals, call);
    }

    pub fn sector(&mut self, id: [u8; 4], data: &[u8], room: usize) {
        let [track, side, sector, code] = id;
        let call = Call {
            name: "ism_make_sector",
            arguments: format!("track, side, sector, code {id:?}"),
            room,
            paper: &|data| Expected::new(paper::make_sector(id, data, room).map(Expected::list)),
            // SAFETY: each pointer comes with the length of its slice
            interface: &|data: &[u8], out| unsafe {
                let (out, room) = (out.as_mut_ptr(), out.len());
                sys::ism_make_sector(track, side, sector, code, data.as_ptr(), data.len(), out, room)
            },
            wrapper: Some(&|data, out| {
                let made = ism::make_sector(SectorId { track, side, sector, code }, data, out);
                from_wrapper(made, count_answer)
            }),
        };
        self.run(data, call);
    }
}
