//! The command line of `mfm_page`.

#![forbid(unsafe_code)]

use std::process::ExitCode;

use mfm_page::{arguments, commands};

fn main() -> ExitCode {
    match arguments::parse(std::env::args_os().skip(1)).and_then(commands::run) {
        Ok(()) => ExitCode::SUCCESS,
        Err(failure) => {
            let text = failure.to_string();
            if !text.is_empty() {
                commands::tell(&text);
            }
            ExitCode::from(failure.status())
        }
    }
}
