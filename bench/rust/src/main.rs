//! The library beside C and Rust. `bench/run` builds this, counts instructions and prints the tables.
//!
//!     bench agree [CALLS]         check that all give the same answers on every task and on so many random calls
//!     bench list                  tasks, one a line: name, input, units, unit
//!     bench names TASK            implementations that have it, the library first: kind, name
//!     bench repeat TASK WHO TIMES run a task so many times and print nothing
//!     bench times                 nanoseconds for each task and implementation
//!     bench stacks                bytes of stack for each task and implementation

mod agreement;
mod implementations;
mod stack;
mod tasks;

use std::hint::black_box;
use std::process::exit;
use std::time::Instant;

use implementations::Implementation;
use tasks::Task;

const USAGE: &str = "usage: bench agree [CALLS] | list | names TASK | repeat TASK WHO TIMES | times | stacks";

/// Random calls where no number is given.
const CALLS: u64 = 20_000;

fn main() {
    let arguments: Vec<String> = std::env::args().skip(1).collect();
    let arguments: Vec<&str> = arguments.iter().map(String::as_str).collect();
    let implementations = implementations::all();
    match arguments[..] {
        ["agree"] => agree(&implementations, CALLS),
        ["agree", calls] => agree(&implementations, calls.parse().expect("a number of calls")),
        ["list"] => list(),
        ["names", task] => names(task, &implementations),
        ["repeat", task, who, times] => repeat(task, who, times.parse().expect("a number of times"), &implementations),
        ["times"] => each("time", &implementations, time),
        ["stacks"] => {
            each("stack", &implementations, |task, who| beyond_calling(|| task.run(who)));
            for (name, call) in stack::other_entries() {
                println!("stack\t{name}\tlibrary\t{:.2}", beyond_calling(call));
            }
        }
        _ => fail(USAGE, 2),
    }
}

fn fail(message: &str, code: i32) -> ! {
    eprintln!("bench: {message}");
    exit(code);
}

fn list() {
    for plan in tasks::all() {
        let task = (plan.make)();
        println!("{}\t{}\t{}\t{}", plan.name, plan.input, task.units, task.unit);
    }
}

fn plan_of(name: &str) -> tasks::Plan {
    let plan = tasks::all().into_iter().find(|plan| plan.name == name);
    plan.unwrap_or_else(|| fail(&format!("no task {name}"), 2))
}

fn names(task: &str, implementations: &[Implementation]) {
    let plan = plan_of(task);
    for who in implementations.iter().filter(|who| plan.measures(who)) {
        println!("{}\t{}", who.kind.word(), who.name);
    }
}

/// Bytes of stack that a call takes, its own frame and what it calls.
fn beyond_calling(call: impl FnMut() -> ism::sys::Answer) -> f64 {
    stack::depth(call).saturating_sub(stack::depth(stack::nothing)) as f64
}

/// Prints one line for each task: name, then kind and number of each implementation.
fn each(what: &str, implementations: &[Implementation], measure: impl Fn(&mut Task, &Implementation) -> f64) {
    for plan in tasks::all() {
        let mut task = (plan.make)();
        let measured = implementations.iter().filter(|who| plan.measures(who));
        let numbers = measured.map(|who| format!("{}\t{:.2}", who.kind.word(), measure(&mut task, who)));
        println!("{what}\t{}\t{}", plan.name, numbers.collect::<Vec<_>>().join("\t"));
    }
}

/// Nanoseconds of one run: the least of many, the one that was disturbed least.
fn time(task: &mut Task, who: &Implementation) -> f64 {
    let mut run = || {
        let begin = Instant::now();
        black_box(task.run(who));
        begin.elapsed().as_nanos() as f64
    };
    (0..300).map(|_| run()).fold(f64::INFINITY, f64::min)
}

fn repeat(name: &str, who: &str, times: usize, implementations: &[Implementation]) {
    let who = implementations.iter().find(|one| one.name == who);
    let Some(who) = who else { fail("no such implementation", 2) };
    let mut task = (plan_of(name).make)();
    for _ in 0..times {
        black_box(task.run(who));
    }
}

fn agree(implementations: &[Implementation], calls: u64) {
    for plan in tasks::all() {
        let mut task = (plan.make)();
        let answering: Vec<_> = implementations.iter().filter(|who| plan.answers(who)).collect();
        let results: Vec<_> = answering.iter().map(|who| (task.run(who), task.output())).collect();
        if results[0].0.number != task.number {
            fail(&format!("{} is answered with {:?}", plan.name, results[0].0), 1);
        }
        if let Some(who) = results.iter().position(|result| *result != results[0]) {
            fail(&format!("{} and the library disagree on {}", answering[who].name, plan.name), 1);
        }
    }
    if let Err(difference) = agreement::run(implementations, calls) {
        fail(&difference, 1);
    }
}
