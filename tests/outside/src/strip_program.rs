//! The strip program as a process of its own, compared with the paper's text format.

use std::io::{ErrorKind, Write};
use std::process::{exit, Command, ExitStatus, Output, Stdio};
use std::time::Duration;

use crate::cases::strip_texts as texts;
use crate::paper::strip;
use crate::random::Random;

const SEED: u64 = 0xA0;

pub struct Program {
    path: String,
    cases: u64,
}

/// Compares the program at `path` on many inputs.
pub fn compare(path: &str) {
    let mut program = Program { path: path.to_string(), cases: 0 };
    let random = &mut Random::new(SEED);
    for (name, group) in texts::GROUPS {
        let before = program.cases;
        group(&mut program, random);
        println!("{name:32} seed {SEED:#06x} {:8} cases", program.cases - before);
    }
    program.run_slowly(texts::example().as_bytes());
    println!("outside: {} strip cases agree", program.cases);
}

impl Program {
    /// One case: the program and the paper on the same input.
    pub fn run(&mut self, input: &[u8]) {
        self.check(input, |stdin| stdin.write_all(input));
    }

    /// As `run`, the input arriving a few bytes at a time.
    fn run_slowly(&mut self, input: &[u8]) {
        self.check(input, |stdin| {
            for few in input.chunks(5) {
                stdin.write_all(few)?;
                stdin.flush()?;
                std::thread::sleep(Duration::from_millis(10));
            }
            Ok(())
        });
    }

    fn check(&mut self, input: &[u8], feed: impl Fn(&mut dyn Write) -> std::io::Result<()>) {
        let expected = strip::output(input);
        let output = self.output_of(feed);
        let ended = ended_by_itself(output.status);
        if output.stdout != expected.as_bytes() || !output.stderr.is_empty() || !ended {
            println!("DISAGREEMENT of the strip program, {}", output.status);
            println!("input of {} bytes: {}", input.len(), start_of(input));
            println!("paper prints: {}", start_of(expected.as_bytes()));
            println!("program prints: {}", start_of(&output.stdout));
            println!("program prints on standard error: {}", start_of(&output.stderr));
            exit(1);
        }
        self.cases += 1;
    }

    fn output_of(&self, feed: impl Fn(&mut dyn Write) -> std::io::Result<()>) -> Output {
        let pipes =
            Command::new(&self.path).stdin(Stdio::piped()).stdout(Stdio::piped()).stderr(Stdio::piped()).spawn();
        let mut child = match pipes {
            Ok(child) => child,
            Err(error) => {
                eprintln!("outside: {} cannot be started: {error}", self.path);
                exit(2);
            }
        };
        let mut stdin = child.stdin.take().expect("a pipe");
        match feed(&mut stdin) {
            // the program may stop reading once the input is too long
            Err(error) if error.kind() != ErrorKind::BrokenPipe => panic!("feeding the program: {error}"),
            _ => drop(stdin),
        }
        child.wait_with_output().expect("the program ends")
    }
}

fn ended_by_itself(status: ExitStatus) -> bool {
    status.code().is_some()
}

fn start_of(text: &[u8]) -> String {
    let shown: String = text.iter().take(600).map(|b| b.escape_ascii().to_string()).collect();
    if text.len() > 600 {
        shown + "..."
    } else {
        shown
    }
}
