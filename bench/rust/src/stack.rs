//! Depth of stack by painting; the painting itself is in `bench/c/stack.c`.

use std::os::raw::{c_int, c_void};

use ism::sys::{Answer, Profile};

use crate::tasks::PROFILE;

extern "C" {
    fn bench_stack_run(run: extern "C" fn(*mut c_void), data: *mut c_void) -> c_int;
    fn bench_stack_paint();
    fn bench_stack_depth() -> usize;
    fn plain_c_nothing(profile: Profile, items: *const u16, n: usize, out: *mut u16, room: usize) -> Answer;
}

struct Measurement<'a> {
    call: &'a mut dyn FnMut() -> Answer,
    depth: usize,
}

extern "C" fn measure(data: *mut c_void) {
    // SAFETY: `depth` below lends its measurement for the whole run
    let measurement = unsafe { &mut *data.cast::<Measurement>() };
    // SAFETY: this runs on the stack that bench_stack_run has set up
    unsafe { bench_stack_paint() };
    std::hint::black_box((measurement.call)());
    // SAFETY: as above
    measurement.depth = unsafe { bench_stack_depth() };
}

/// Bytes of stack that a call reaches down.
pub fn depth(mut call: impl FnMut() -> Answer) -> usize {
    let mut measurement = Measurement { call: &mut call, depth: 0 };
    // SAFETY: the thread has ended when the call returns
    let ran = unsafe { bench_stack_run(measure, (&mut measurement as *mut Measurement).cast()) };
    assert!(ran != 0, "the thread for the stack measurement cannot be made");
    measurement.depth
}

/// A call of the C interface that does nothing.
pub fn nothing() -> Answer {
    // SAFETY: the function uses none of its arguments
    unsafe { plain_c_nothing(PROFILE, std::ptr::null(), 0, std::ptr::null_mut(), 0) }
}

type Entry = (&'static str, Box<dyn FnMut() -> Answer>);

/// The library's entries that no task runs alone.
pub fn other_entries() -> Vec<Entry> {
    use ism::sys::*;
    let row = ReportRow { count: 1, least: 7, greatest: 7, sum: 7 };
    let report = Report { number: 0, place: 0, rows: [row; 5] };
    let fifo = |answer: FifoAnswer| Answer { number: answer.number, ..nothing() };
    // SAFETY: numbers in, numbers out
    vec![
        ("margin", Box::new(|| unsafe { ism_margin(PROFILE) })),
        ("margin_limits", Box::new(|| Answer { number: unsafe { ism_margin_limits(PROFILE) }.number, ..nothing() })),
        (
            "best_windows",
            Box::new(|| Answer { number: unsafe { ism_best_windows(58, 29, 8, 10, 12) }.number, ..nothing() }),
        ),
        ("class", Box::new(|| unsafe { ism_class(PROFILE, 100, 1) })),
        (
            "add_reports",
            Box::new(move || Answer { number: unsafe { ism_add_reports(report, report) }.number, ..nothing() }),
        ),
        ("fifo_put", Box::new(move || fifo(unsafe { ism_fifo_put(ism_fifo_new(0), 7) }))),
        ("fifo_chip_put", Box::new(move || fifo(unsafe { ism_fifo_chip_put(ism_fifo_new(1), 7) }))),
        ("fifo_take_data", Box::new(move || fifo(unsafe { ism_fifo_take_data(ism_fifo_new(1)) }))),
        ("fifo_take_mark", Box::new(move || fifo(unsafe { ism_fifo_take_mark(ism_fifo_new(1)) }))),
        ("fifo_chip_take", Box::new(move || fifo(unsafe { ism_fifo_chip_take(ism_fifo_new(0)) }))),
        ("fifo_read_error", Box::new(move || fifo(unsafe { ism_fifo_read_error(ism_fifo_new(0)) }))),
    ]
}
