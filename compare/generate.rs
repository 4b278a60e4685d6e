//! Makes row files from a seed.
//!
//!     generate KIND SEED [ROWS]          a file of one of the plans for this kind, with odd rows
//!                                        and damaged lines in some; ROWS is the length of the plan
//!     generate KIND clean ROWS [SEED]    ROWS well-formed rows that are all accepted
//!     generate relief dense ROWS [SEED]  the same, with 500 points in the window
//!
//! Files of the kind keep-hour are freeze files, for the start in which stage 2 keeps to its hour.

#[path = "generate/cells.rs"]
mod cells;
#[path = "generate/clock.rs"]
mod clock;
#[path = "generate/damage.rs"]
mod damage;
#[path = "generate/econ.rs"]
mod econ;
#[path = "generate/freeze.rs"]
mod freeze;
#[path = "generate/mean.rs"]
mod mean;
#[path = "generate/odd.rs"]
mod odd;
#[path = "generate/random.rs"]
mod random;
#[path = "generate/relief.rs"]
mod relief;

use std::io::{self, Write};
use std::process::ExitCode;

use cells::{Row, line};
use random::Random;

const USAGE: &str = "usage: generate KIND SEED [ROWS]
       generate KIND clean ROWS [SEED]
       generate relief dense ROWS [SEED]
KIND is freeze, relief, econ or keep-hour; SEED and ROWS are whole numbers, ROWS from 1 to 10000000";

fn main() -> ExitCode {
    let arguments: Vec<String> = std::env::args_os()
        .skip(1)
        .map(|word| word.to_string_lossy().into_owned())
        .collect();
    let words: Vec<&str> = arguments.iter().map(String::as_str).collect();
    let written = file(&words).and_then(|file| {
        let mut out = io::stdout().lock();
        let written = out.write_all(&file).and_then(|()| out.flush());
        written.map_err(|error| format!("cannot write: {error}"))
    });
    match written {
        Ok(()) => ExitCode::SUCCESS,
        Err(message) => {
            eprintln!("generate: {message}");
            ExitCode::FAILURE
        }
    }
}

fn file(words: &[&str]) -> Result<Vec<u8>, String> {
    let (&kind, rest) = words.split_first().ok_or(USAGE)?;
    if !["freeze", "relief", "econ", "keep-hour"].contains(&kind) {
        return Err(format!("no such kind: {kind}\n{USAGE}"));
    }
    match *rest {
        ["clean", count] => clean(kind, rows(count)?, 0, 15.0),
        ["clean", count, seed] => clean(kind, rows(count)?, whole(seed)?, 15.0),
        ["dense", count] if kind == "relief" => clean(kind, rows(count)?, 0, 0.6),
        ["dense", count, seed] if kind == "relief" => clean(kind, rows(count)?, whole(seed)?, 0.6),
        [seed] => Ok(played(kind, whole(seed)?, None)),
        [seed, count] => Ok(played(kind, whole(seed)?, Some(rows(count)?))),
        _ => Err(format!(
            "this command line has no meaning: {}\n{USAGE}",
            words.join(" ")
        )),
    }
}

fn whole(word: &str) -> Result<u64, String> {
    word.parse()
        .map_err(|_| format!("not a whole number: {word}\n{USAGE}"))
}

fn rows(word: &str) -> Result<usize, String> {
    match whole(word)? {
        count @ 1..=10_000_000 => Ok(count as usize),
        _ => Err(format!("not a number of rows: {word}\n{USAGE}")),
    }
}

fn clean(kind: &str, count: usize, seed: u64, relief_gap: f64) -> Result<Vec<u8>, String> {
    let mut random = Random::new(seed);
    let rows = match kind {
        "freeze" | "keep-hour" => freeze::clean(&mut random, count),
        "relief" => relief::clean(&mut random, count, relief_gap),
        _ => econ::clean(&mut random, count),
    };
    let mut file = format!("{}\n", word(kind)).into_bytes();
    for row in rows {
        file.extend(line(&row));
        file.push(b'\n');
    }
    Ok(file)
}

/// What is put between the rows of a plan. Rows of the plan stay as they are, so that the events it
/// is made for still occur.
#[derive(Clone, Copy, PartialEq)]
enum Between {
    Nothing,
    OddTimes,
    OddFields,
    AnySize,
    Damage,
    Everything,
}

fn played(kind: &str, seed: u64, count: Option<usize>) -> Vec<u8> {
    use Between::*;
    let plans = match kind {
        "freeze" => freeze::PLANS,
        "keep-hour" => freeze::KEEP_HOUR_PLANS,
        "relief" => relief::PLANS,
        _ => econ::PLANS,
    };
    let betweens = [
        Nothing, OddTimes, OddFields, Damage, Everything, AnySize, Damage,
    ];
    let plan = plans[(seed % plans.len() as u64) as usize];
    let between = betweens[(seed / plans.len() as u64 % betweens.len() as u64) as usize];

    let mut random =
        Random::new(seed ^ (kind.len() as u64) << 56 ^ u64::from(kind.as_bytes()[0]) << 48);
    let mut rows = plan(&mut random, count);
    if kind == "relief" {
        rows = odd::alarms_out_of_range(&mut random, &rows);
    }
    let mut file = first_line(&mut random, kind, between);
    let often = random.pick(&[2, 10, 40]);
    for row in rows {
        if between != Nothing && random.one_in(often) {
            file.extend(put_between(&mut random, between, &row));
        }
        file.extend(line(&row));
        file.push(b'\n');
    }
    if matches!(between, Damage | Everything) && random.one_in(3) {
        damage::damage_end(&mut random, &mut file);
    }
    file
}

fn first_line(random: &mut Random, kind: &str, between: Between) -> Vec<u8> {
    if between == Between::Damage && random.one_in(6) {
        damage::damaged_first_line(random, word(kind))
    } else {
        format!("{}\n", word(kind)).into_bytes()
    }
}

/// The first line of a file of this kind.
fn word(kind: &str) -> &str {
    if kind == "keep-hour" { "freeze" } else { kind }
}

fn put_between(random: &mut Random, between: Between, row: &Row) -> Vec<u8> {
    use Between::*;
    let odd = match between {
        Everything => random.pick(&[OddTimes, OddFields, Damage]),
        other => other,
    };
    let row = match odd {
        OddTimes => odd::odd_time(random, row),
        OddFields => odd::odd_field(random, row),
        AnySize => odd::any_size(random, row),
        _ => return damage::damaged_line(random, row),
    };
    let mut text = line(&row);
    text.push(b'\n');
    text
}
