//! The reference program: the published trace functions behind the row lines of document 01.
//!
//!     reference < ROWS > ANSWERS      the lines that `rows` must print
//!     reference keep-hour < ROWS      the lines that `rows keep-hour` must print: those of freeze protection from
//!                                     a model whose stage 2 keeps to its hour
//!     reference scenario NAME         the rows of the Rust's own scenario, as a row file
//!     reference blocks                the lines that `replay_blocks` must print
//!     events count FILE..             how often each kind of event occurs in these row files
//!     calls measure < ROWS            nanoseconds a row, of the published trace function and of the firmware library's calls
//!     calls measure rooftop ROWS GAP  the same of joined rows so many seconds apart, and of the three trace functions
//!     rooftop rooftop WORD..          joined rows: the words are those of compare/rooftop
//!
//! `events` is this program built with `--cfg events`, `calls` with `--cfg calls` and the library, `rooftop` with both.

#[path = "reference/acceptance.rs"]
mod acceptance;
#[cfg(calls)]
mod calls;
#[cfg(calls)]
#[allow(dead_code)]
#[path = "generate/clock.rs"]
mod clock;
#[path = "reference/columns.rs"]
mod columns;
#[cfg(events)]
mod events;
#[path = "reference/input.rs"]
mod input;
#[cfg(any(calls, test))]
#[cfg_attr(not(events), allow(dead_code))]
mod joined;
#[path = "reference/lines.rs"]
mod lines;
#[path = "reference/marks.rs"]
mod marks;
#[cfg(calls)]
#[allow(dead_code)]
#[path = "generate/mean.rs"]
mod mean;
#[cfg(calls)]
#[allow(dead_code)]
#[path = "generate/random.rs"]
mod random;
/// The published sequences, as compare/extract takes them from docs/src.
#[allow(dead_code)]
#[path = "../target/compare/sequences"]
mod sequences {
    mod cdl_recurrences;
    pub mod economizer_controller;
    pub mod freeze_protection;
    pub mod relief_fan_group;

    use cdl_recurrences::{buildings_line, clamp};

    /// The blocks of cdl_recurrences.rs that no sequence here uses, on their own. The elapsed seconds of the port's other two timers, which the
    /// published ones do not give, are held to `timer`.
    pub fn blocks() -> String {
        let hysteresis = cdl_recurrences::hysteresis(&[0.5, f64::NAN, -1.0, -2.0, f64::NAN], -1.0, 0.0, false);
        let elapsed = cdl_recurrences::timer(&[5.2, 5.6, 305.2, 306.0, 306.5], &[true, true, true, false, true]);
        let patterns: String = elapsed.iter().map(|seconds| format!(" {}", seconds.to_bits())).collect();
        [
            crate::marks::line("hysteresis -1 0 of cdl_recurrences.rs, 0.5 nan -1 -2 nan", hysteresis),
            format!("elapsed seconds, true at 5.2 5.6 305.2, false at 306, true at 306.5 s, patterns, of timer:{patterns}\n"),
            format!("the same, of the freeze timer:{patterns}\n"),
            format!("the same, of the relief timer:{patterns}\n"),
        ]
        .concat()
    }
}

/// The firmware library, as its users in Rust declare it.
#[cfg(calls)]
#[allow(clashing_extern_declarations)] // joined/library.rs declares some calls with the words in sight
#[path = "../examples/rust/woldgrater.rs"]
mod woldgrater;

use std::io::{self, Read, Write};
use std::process::ExitCode;

use input::Input;
use sequences::economizer_controller::econ;
use sequences::freeze_protection::{freeze, keep_hour};
use sequences::relief_fan_group::relief;

const USAGE: &str = "usage: reference < ROWS > ANSWERS
       reference keep-hour < ROWS > ANSWERS
       reference scenario freeze|fine_step|relief|econ
       reference blocks";

fn main() -> ExitCode {
    let arguments: Vec<String> = std::env::args_os()
        .skip(1)
        .map(|word| word.to_string_lossy().into_owned())
        .collect();
    let words: Vec<&str> = arguments.iter().map(String::as_str).collect();
    match run(&words) {
        Ok(()) => ExitCode::SUCCESS,
        Err(message) => {
            eprintln!("reference: {message}");
            ExitCode::FAILURE
        }
    }
}

fn run(words: &[&str]) -> Result<(), String> {
    match words {
        [] => play(freeze::answer),
        ["keep-hour"] => play(keep_hour::answer),
        ["scenario", "freeze"] => print(&freeze::staged_scenario()),
        ["scenario", "fine_step"] => print(&freeze::fine_step_scenario()),
        ["scenario", "relief"] => print(&relief::scenario()),
        ["scenario", "econ"] => print(&econ::scenario()),
        ["blocks"] => print([freeze::blocks(), relief::blocks(), econ::blocks(), sequences::blocks()].concat().as_bytes()),
        #[cfg(calls)]
        ["measure"] => print(measure(io::stdin().lock()).map_err(|error| error.to_string())?.as_bytes()),
        #[cfg(calls)]
        ["measure", "rooftop", words @ ..] => print(joined::measure::run(words)?.as_bytes()),
        #[cfg(all(calls, events))]
        ["rooftop", words @ ..] => joined::play::run(words).and_then(|(told, passed)| {
            print(told.as_bytes())?;
            if passed { Ok(()) } else { Err("joined rows are not answered as they have to be".into()) }
        }),
        #[cfg(events)]
        ["count", files @ ..] if !files.is_empty() => print(&events::count(files)?),
        _ => Err(format!(
            "this command line has no meaning: {}\n{USAGE}",
            words.join(" ")
        )),
    }
}

fn print(text: &[u8]) -> Result<(), String> {
    let mut out = io::stdout().lock();
    let written = out.write_all(text).and_then(|()| out.flush());
    written.map_err(|error| format!("cannot write: {error}"))
}

/// Answers standard input, whose freeze rows are answered by `freeze`.
fn play(
    freeze: fn(&mut Input<io::StdinLock<'static>>, &mut io::StdoutLock<'static>) -> io::Result<()>,
) -> Result<(), String> {
    let played = answer(io::stdin().lock(), &mut io::stdout().lock(), freeze);
    played.map_err(|error| format!("cannot read or write: {error}"))
}

/// Answers a whole row file, whose freeze rows are answered by `freeze`.
fn answer<Source: Read, Out: Write>(
    rows: Source,
    out: &mut Out,
    freeze: fn(&mut Input<Source>, &mut Out) -> io::Result<()>,
) -> io::Result<()> {
    let mut input = first_line(rows)?;
    if take(&mut input, b"freeze\n") {
        freeze(&mut input, out)?;
    } else if take(&mut input, b"relief\n") {
        relief::answer(&mut input, out)?;
    } else if take(&mut input, b"econ\n") {
        econ::answer(&mut input, out)?;
    } else {
        let mut text = Vec::new();
        columns::put_signed(&mut text, acceptance::NO_KIND.into());
        text.push(b'\n');
        out.write_all(&text)?;
    }
    out.flush()
}

/// Measures the calls on a row file.
#[cfg(calls)]
fn measure(rows: impl Read) -> io::Result<String> {
    let mut input = first_line(rows)?;
    if take(&mut input, b"freeze\n") {
        freeze::measure(&mut input)
    } else if take(&mut input, b"relief\n") {
        relief::measure(&mut input)
    } else if take(&mut input, b"econ\n") {
        econ::measure(&mut input)
    } else {
        Err(io::Error::other("the first line names no kind"))
    }
}

/// A row file, read as far as the kind.
fn first_line<Source: Read>(rows: Source) -> io::Result<Input<Source>> {
    let mut input = Input::new(rows);
    // No kind has more letters than `freeze` and `relief`.
    while input.text().len() < 7 && input.more()? {}
    Ok(input)
}

fn take(input: &mut Input<impl Read>, first_line: &[u8]) -> bool {
    let is_there = input.text().starts_with(first_line);
    if is_there {
        input.consume(first_line.len());
    }
    is_there
}
