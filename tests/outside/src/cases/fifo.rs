//! The FIFO: every operation on states of every kind, and long rows of operations through the wrapper.
//!
//! States are compared by what they mean: mode 0 or not, items held, error register. The C interface leaves the numbers
//! in places that `held` does not count open.

use std::process::exit;

use ism::sys::{self, FifoAnswer};
use ism::{FifoMode, Refusal};

use crate::compare::Compare;
use crate::paper::fifo::{Fifo, Mode, Operation};
use crate::paper::Refused;
use crate::random::Random;

const NUMBERS: [u16; 10] = [0, 0x4E, 0xA1, 255, 256, 0x1A1, 0x1C2, 512, 513, 65535];

/// What a state of the C interface means.
fn meaning(state: sys::Fifo) -> Fifo {
    let mode = if state.mode == 0 { Mode::Write } else { Mode::Read };
    let mut queue = vec![state.first, state.second];
    queue.truncate(usize::from(state.held));
    Fifo { mode, queue, error: state.error }
}

fn operations() -> Vec<Operation> {
    let puts = NUMBERS.iter().flat_map(|n| [Operation::ProcessorPut(*n), Operation::ChipPut(*n)]);
    let others = [Operation::TakeData, Operation::TakeMark, Operation::ChipTake, Operation::ReadError];
    puts.chain(others).collect()
}

fn call(state: sys::Fifo, operation: Operation) -> FifoAnswer {
    // SAFETY: numbers in, numbers out
    unsafe {
        match operation {
            Operation::ProcessorPut(item) => sys::ism_fifo_put(state, item),
            Operation::ChipPut(item) => sys::ism_fifo_chip_put(state, item),
            Operation::TakeData => sys::ism_fifo_take_data(state),
            Operation::TakeMark => sys::ism_fifo_take_mark(state),
            Operation::ChipTake => sys::ism_fifo_chip_take(state),
            Operation::ReadError => sys::ism_fifo_read_error(state),
        }
    }
}

fn check(compare: &mut Compare, state: sys::Fifo, operation: Operation) {
    let (given, next) = meaning(state).after(operation);
    let (number, place, item) = match given {
        Ok(item) => (0, 0, item),
        Err(Refused { number, place }) => (number, place, 0),
    };
    let answer = call(state, operation);
    if (answer.number, answer.place, answer.item) != (number, place, item) || meaning(answer.next) != next {
        println!("\nDISAGREEMENT in {operation:?} on {state:?}");
        println!("C interface answers {answer:?}");
        println!("paper answers number {number}, place {place}, item {item}, next {next:?}");
        exit(1);
    }
    compare.count("ism_fifo", number);
}

/// Every operation on every state built from a few numbers, those that no operation makes included.
pub fn every_state(compare: &mut Compare, _: &mut Random) {
    let operations = operations();
    for mode in [0, 1, 2, 65535] {
        for held in [0, 1, 2, 3, 65535] {
            for (first, second) in NUMBERS.iter().flat_map(|a| NUMBERS.iter().map(move |b| (*a, *b))) {
                for error in [0, 1, 2, 4, 3, 7, 8, 0x8000, 65535] {
                    let state = sys::Fifo { mode, held, first, second, error };
                    operations.iter().for_each(|operation| check(compare, state, *operation));
                }
            }
        }
    }
}

/// Rows of operations from a fresh FIFO, by the wrapper.
pub fn rows(compare: &mut Compare, random: &mut Random) {
    for mode in [0, 1, 2, 65535] {
        // SAFETY: numbers in, numbers out
        let fresh = meaning(unsafe { sys::ism_fifo_new(mode) });
        let expected = Fifo::new(if mode == 0 { Mode::Write } else { Mode::Read });
        compare.claim("a fresh FIFO is empty with register 0", fresh == expected);
    }
    for _ in 0..1_000 {
        let write_mode = random.one_in(2);
        let mut paper = Fifo::new(if write_mode { Mode::Write } else { Mode::Read });
        let mut fifo = ism::Fifo::new(if write_mode { FifoMode::Write } else { FifoMode::Read });
        for _ in 0..30 {
            let operation = random.pick(&operations());
            let (given, next) = paper.after(operation);
            paper = next;
            let same = by_wrapper(&mut fifo, operation) == given && meaning(fifo.state()) == paper;
            compare.claim(&format!("wrapper's FIFO after {operation:?}: {fifo:?}, paper {paper:?}"), same);
        }
    }
}

fn by_wrapper(fifo: &mut ism::Fifo, operation: Operation) -> Result<u16, Refused> {
    let given = match operation {
        Operation::ProcessorPut(item) => fifo.put(item).map(|()| 0),
        Operation::ChipPut(item) => fifo.chip_put(item).map(|()| 0),
        Operation::TakeData => Ok(fifo.take_data()),
        Operation::TakeMark => Ok(fifo.take_mark()),
        Operation::ChipTake => Ok(fifo.chip_take()),
        Operation::ReadError => Ok(fifo.read_error()),
    };
    given.map_err(|refusal: Refusal| Refused { number: refusal.number(), place: refusal.place() as u32 })
}
