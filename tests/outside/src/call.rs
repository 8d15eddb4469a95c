//! One call of a function under comparison: what the paper expects of it, the buffers it is lent, and what disagrees.

use std::fmt::Debug;
use std::process::exit;

use ism::sys::Answer;

use crate::paper::{self, Refused};

/// The answer of an acceptance that gives nothing.
pub const ACCEPTED: Answer = Answer { number: 0, place: 0, count: 0, used: 0, holds: 0, clearance: 0 };

/// Cells on each side of the lent output that no call may touch.
const GUARD: usize = 8;

/// What a function under comparison answers by value.
pub trait Reply: PartialEq + Debug {
    /// The answer of a refusal: all but number and place is 0.
    fn refusal(refused: Refused) -> Self;
    fn number(&self) -> u32;
}

impl Reply for Answer {
    fn refusal(Refused { number, place }: Refused) -> Answer {
        Answer { number, place, ..ACCEPTED }
    }

    fn number(&self) -> u32 {
        self.number
    }
}

/// What the paper says a call gives: the answer and the front of the output.
pub struct Expected<O = u16, A = Answer> {
    pub answer: A,
    front: Vec<O>,
}

impl<O, A: Reply> Expected<O, A> {
    pub fn new(result: Result<Expected<O, A>, Refused>) -> Self {
        result.unwrap_or_else(|refused| Expected::answer(A::refusal(refused)))
    }

    /// An answer that stores this.
    pub fn with_front(answer: A, front: Vec<O>) -> Self {
        Expected { answer, front }
    }

    /// An answer that stores nothing.
    pub fn answer(answer: A) -> Self {
        Expected::storing(answer, Vec::new())
    }

    /// An answer with the front of the output.
    pub fn storing(answer: A, front: Vec<O>) -> Self {
        Expected { answer, front }
    }
}

impl<O> Expected<O> {
    pub fn count(count: u64) -> Self {
        Expected::answer(Answer { count, ..ACCEPTED })
    }

    pub fn cleared(mut self, clearance: u32) -> Self {
        self.answer.clearance = clearance;
        self
    }

    pub fn list(front: Vec<O>) -> Self {
        Expected { answer: Answer { count: front.len() as u64, ..ACCEPTED }, front }
    }
}

impl Expected {
    pub fn field(field: paper::Field) -> Expected {
        let mut expected = Expected::list(field.items).cleared(field.clearance);
        expected.answer.used = field.used as u64;
        expected.answer.holds = u32::from(field.holds);
        expected
    }
}

/// An element of an output.
pub trait Cell: Copy + PartialEq + Debug {
    /// What a place of a lent output holds before the call.
    fn pattern(place: usize) -> Self;
}

impl Cell for u16 {
    fn pattern(place: usize) -> u16 {
        (place as u16).wrapping_mul(0x6255) ^ 0xC3A5
    }
}

/// An output between guards, filled with numbers that differ from place to place.
struct Lent<O> {
    cells: Vec<O>,
}

impl<O: Cell> Lent<O> {
    fn new(room: usize) -> Self {
        Lent { cells: (0..room + 2 * GUARD).map(O::pattern).collect() }
    }

    fn room(&mut self) -> &mut [O] {
        let end = self.cells.len() - GUARD;
        &mut self.cells[GUARD..end]
    }

    /// Whether the front is `front` and every other cell, guards included, is as it was.
    fn holds(&self, front: &[O]) -> bool {
        let whole = |(place, cell): (usize, &O)| {
            let expected = place.checked_sub(GUARD).and_then(|p| front.get(p).copied());
            *cell == expected.unwrap_or(O::pattern(place))
        };
        self.cells.iter().enumerate().all(whole)
    }
}

/// One way to call a function: the list and the output in, its answer out.
pub type Side<'a, T, O = u16, A = Answer> = &'a dyn Fn(&[T], &mut [O]) -> A;

/// A function under comparison with all its arguments but the list and the output.
pub struct Call<'a, T, O = u16, A = Answer> {
    pub name: &'static str,
    pub arguments: String,
    pub room: usize,
    pub paper: &'a dyn Fn(&[T]) -> Expected<O, A>,
    pub interface: Side<'a, T, O, A>,
    /// none if the wrapper does not offer the function
    pub wrapper: Option<Side<'a, T, O, A>>,
}

impl<T: Clone + PartialEq + Debug, O: Cell, A: Reply> Call<'_, T, O, A> {
    /// Stops with the least list found if something disagrees on this one; gives the refusal's number.
    pub fn check(&self, list: &[T]) -> u32 {
        let expected = (self.paper)(list);
        if self.fault(list, &expected).is_some() {
            self.complain(list);
        }
        expected.answer.number()
    }

    /// What disagrees on this list, if anything.
    fn fault(&self, list: &[T], expected: &Expected<O, A>) -> Option<String> {
        let wrapper = self.wrapper.map(|call| ("Rust wrapper", call));
        for (side, call) in [("C interface", self.interface)].into_iter().chain(wrapper) {
            let lent_list = list.to_vec();
            let mut lent = Lent::new(self.room);
            let answer = call(&lent_list, lent.room());
            if answer != expected.answer {
                return Some(format!("{side} answers {answer:?}\npaper answers {:?}", expected.answer));
            }
            if !lent.holds(&expected.front) {
                let front = brief(&expected.front);
                return Some(format!("{side} leaves the output otherwise than with the front {front}"));
            }
            if lent_list != list {
                return Some(format!("{side} changes the input"));
            }
        }
        None
    }

    fn complain(&self, list: &[T]) -> ! {
        let fault = |list: &[T]| self.fault(list, &(self.paper)(list));
        let least = shrink(list, |fewer| fault(fewer).is_some());
        let fault = fault(&least).expect("the shorter list disagrees too");
        println!("\nDISAGREEMENT in {}", self.name);
        println!("arguments: {}, room {}", self.arguments, self.room);
        println!("list of {}: {}", least.len(), brief(&least));
        println!("{fault}");
        exit(1);
    }
}

/// Removes stretches of a list as long as it still fails, within a bound on the tries.
fn shrink<T: Clone>(list: &[T], fails: impl Fn(&[T]) -> bool) -> Vec<T> {
    let mut least = list.to_vec();
    let mut tries = 2_000;
    let mut stretch = list.len().div_ceil(2);
    while stretch > 0 {
        let mut at = 0;
        while at < least.len() && tries > 0 {
            let end = least.len().min(at + stretch);
            let fewer = [&least[..at], &least[end..]].concat();
            tries -= 1;
            if fails(&fewer) {
                least = fewer;
            } else {
                at += stretch;
            }
        }
        stretch /= 2;
    }
    least
}

/// A list with repeated elements gathered.
fn brief<T: PartialEq + Debug>(list: &[T]) -> String {
    let runs = list.chunk_by(|a, b| a == b);
    let texts = runs.map(|run| match run.len() {
        1 => format!("{:?}", run[0]),
        times => format!("{times} x {:?}", run[0]),
    });
    texts.collect::<Vec<_>>().join(" ")
}
