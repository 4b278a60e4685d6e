//! A board of six joined units: the firmware library's beside a model of it, over schedules of offers and ticks.
//!
//!     board WORD..        the words are those of compare/board
//!
//! Built with `--cfg calls` and the library.

/// The firmware library, as its users in Rust declare it.
#[path = "../examples/rust/woldgrater.rs"]
mod woldgrater;

#[allow(dead_code)]
#[path = "generate/clock.rs"]
mod clock;
/// Joined rows: their lists, and the joined call.
mod joined {
    pub mod library;
    pub mod plans;
    #[allow(dead_code)]
    pub mod row;
}
#[allow(dead_code)]
#[path = "generate/mean.rs"]
mod mean;
#[allow(dead_code)]
#[path = "generate/random.rs"]
mod random;
mod units {
    mod board;
    mod events;
    mod faults;
    mod forged;
    pub mod lists;
    mod measure;
    mod model;
    mod pair;
    mod play;
    mod same;
    mod schedule;
}

use std::io::{self, Write};
use std::process::ExitCode;

fn main() -> ExitCode {
    let words: Vec<String> = std::env::args_os().skip(1).map(|word| word.to_string_lossy().into_owned()).collect();
    let words: Vec<&str> = words.iter().map(String::as_str).collect();
    match run(&words) {
        Ok(()) => ExitCode::SUCCESS,
        Err(message) => {
            eprintln!("board: {message}");
            ExitCode::FAILURE
        }
    }
}

fn run(words: &[&str]) -> Result<(), String> {
    let (told, passed) = units::lists::run(words)?;
    let mut out = io::stdout().lock();
    let written = out.write_all(told.as_bytes()).and_then(|()| out.flush());
    written.map_err(|error| format!("cannot write: {error}"))?;
    if passed { Ok(()) } else { Err("the board does not answer as it has to".into()) }
}
