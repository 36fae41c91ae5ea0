//! Reads a call list on standard input and writes the Rust's change list to standard output; or
//! prints `refused TEXT` or `panicked` on standard error and ends with status 1.

use oracle::Outcome;
use std::io::{Read, Write};
use std::process::ExitCode;

fn main() -> ExitCode {
    oracle::quiet_panics();
    let mut list = Vec::new();
    std::io::stdin()
        .read_to_end(&mut list)
        .expect("standard input is read");
    match oracle::run(&list) {
        Outcome::Accepted(change) => {
            std::io::stdout()
                .write_all(&change)
                .expect("standard output is written");
            return ExitCode::SUCCESS;
        }
        Outcome::Refused(text) => eprintln!("refused {text}"),
        Outcome::Panicked => eprintln!("panicked"),
        Outcome::Unreadable => eprintln!("refused the list breaks its layout"),
    }
    ExitCode::FAILURE
}
