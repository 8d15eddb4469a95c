//! The card of a drive type on one page: its numbers, its margin and what holds it down, the best windows, a drawing.
//!
//!     card text|svg|brf NAME CLOCK T1 T0 EARLY NORMAL LATE MIN B23S B23L B34S B34L RPT
//!
//! CLOCK is in Hz; the eleven numbers are the profile's, in the order of `include/ism.h`. `text` is plain text, `svg` a
//! drawing with the same words, `brf` a page of 25 lines of 40 cells for an embosser. The exit status is 2 for arguments
//! that cannot be read, else 0, for a refused profile too: its card says why it is refused.

mod braille;
mod drawing;
mod facts;
mod svg;
mod text;

use facts::Card;
use ism::Profile;
use std::process::exit;

const USAGE: &str = "usage: card text|svg|brf NAME CLOCK T1 T0 EARLY NORMAL LATE MIN B23S B23L B34S B34L RPT";

fn main() {
    let arguments: Vec<String> = std::env::args().skip(1).collect();
    match page(&arguments) {
        Ok(page) => print!("{page}"),
        Err(why) => {
            eprintln!("card: {why}\n{USAGE}");
            exit(2);
        }
    }
}

fn page(arguments: &[String]) -> Result<String, String> {
    let [form, name, clock, numbers @ ..] = arguments else { return Err("too few arguments".into()) };
    let card = Card::new(name, hertz(clock)?, profile(numbers)?);
    match form.as_str() {
        "text" => Ok(text::page(&card)),
        "svg" => Ok(svg::page(&card)),
        "brf" => Ok(braille::page(&card)),
        _ => Err(format!("no form is called {form}")),
    }
}

fn hertz(clock: &str) -> Result<u64, String> {
    let clocks = clock.parse().ok().filter(|hertz| (100_000..=1_000_000_000).contains(hertz));
    clocks.ok_or_else(|| format!("the clock is 100,000 to 1,000,000,000 Hz, not {clock}"))
}

fn profile(numbers: &[String]) -> Result<Profile, String> {
    let read = |number: &String| number.parse().map_err(|_| format!("{number} is not a number up to 65,535"));
    let numbers: Vec<u16> = numbers.iter().map(read).collect::<Result<_, _>>()?;
    let eleven: [u16; 11] = numbers.try_into().map_err(|_| "a profile has eleven numbers")?;
    let [t1, t0, early, normal, late, min, b23_short, b23_long, b34_short, b34_long, rpt] = eleven;
    Ok(Profile { t1, t0, early, normal, late, min, b23_short, b23_long, b34_short, b34_long, rpt })
}
