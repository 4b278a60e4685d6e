//! Plays the reference and the library beside each other over lists of joined rows, in both starts.

use std::num::NonZero;
use std::sync::Mutex;
use std::sync::atomic::{AtomicU64, Ordering};
use std::thread;

use super::forbidden::forbidden;
use super::library::Library;
use super::plans;
use super::reference::{FAULTS, Fault, Reference};
use super::row::{NUMBERS, Row, difference, other_signs};
use super::tally::Tally;

/// The seeds of a full run, in which each event must occur in either start.
const SEEDS: u64 = 400;

/// How often a list is tried with some rows less.
const TRIES: usize = 100;

const STARTS: [(&str, bool); 2] = [("published", false), ("keep-hour", true)];

/// What a run over lists tells and whether all passed, or a message about the words.
pub fn run(words: &[&str]) -> Result<(String, bool), String> {
    let (seeds, fault) = match words {
        ["--faults"] => return Ok((faults(), true)),
        [] => (SEEDS, None),
        ["--fault", name] => (SEEDS, Some(named(name)?)),
        [seeds] => (whole(seeds)?, None),
        [seeds, "--fault", name] => (whole(seeds)?, Some(named(name)?)),
        _ => return Err(format!("this command line has no meaning: {}", words.join(" "))),
    };
    Ok(lists(seeds, fault))
}

fn whole(word: &str) -> Result<u64, String> {
    match word.parse() {
        Ok(seeds @ 1..=1_000_000) => Ok(seeds),
        _ => Err(format!("not a number of seeds: {word}")),
    }
}

/// Every fault with what it does, a line each.
fn faults() -> String {
    FAULTS.map(|(name, _, what)| format!("{name}: {what}\n")).concat()
}

fn named(word: &str) -> Result<Fault, String> {
    let found = FAULTS.iter().find(|(name, ..)| *name == word);
    found.map(|&(_, fault, _)| fault).ok_or(format!("no such fault: {word}; there are\n{}", faults().trim_end()))
}

#[derive(Default)]
struct Sum {
    passed: u64,
    failed: u64,
    rows: u64,
    /// Zeros of the other sign.
    signs: u64,
    tallies: [Tally; 2],
    /// The first list that is answered otherwise: its seed and start.
    first: Option<(u64, usize)>,
}

fn lists(seeds: u64, fault: Option<Fault>) -> (String, bool) {
    let sum = Mutex::new(Sum::default());
    let next = AtomicU64::new(0);
    let workers = thread::available_parallelism().map_or(2, NonZero::get);
    thread::scope(|scope| {
        for _ in 0..workers {
            scope.spawn(|| {
                // A fault need not be found twice. Each seed that is taken is played: the first that shows it is always
                // the same one.
                while fault.is_none() || sum.lock().unwrap().failed == 0 {
                    let seed = next.fetch_add(1, Ordering::Relaxed);
                    if seed >= seeds {
                        break;
                    }
                    one(seed, fault, &sum);
                }
            });
        }
    });
    told(sum.into_inner().unwrap(), seeds, fault)
}

/// Plays the list of a seed in both starts.
fn one(seed: u64, fault: Option<Fault>, sum: &Mutex<Sum>) {
    let rows = plans::list(seed);
    for (index, &(_, keeps_hour)) in STARTS.iter().enumerate() {
        let mut tally = Tally::default();
        let found = play(&rows, keeps_hour, fault, Some(&mut tally));
        let mut sum = sum.lock().unwrap();
        sum.signs += tally.signs;
        sum.rows += rows.len() as u64;
        sum.tallies[index].add(tally);
        match found {
            None => sum.passed += 1,
            Some(_) => {
                sum.failed += 1;
                let first = (seed, index);
                sum.first = Some(sum.first.map_or(first, |other| other.min(first)));
            }
        }
    }
}

/// Plays a list: the first row that is not as it has to be, and what is wrong with it. A fault is found only by what
/// the library answers and keeps, not by what the reference's own answers break.
fn play(rows: &[Row], keeps_hour: bool, fault: Option<Fault>, mut tally: Option<&mut Tally>) -> Option<(usize, String)> {
    let mut reference = Reference::start(keeps_hour, fault);
    let mut library = Library::start(keeps_hour);
    let mut stage = 0;
    for (index, row) in rows.iter().enumerate() {
        let before = tally.as_ref().map(|_| reference.before.clone());
        let expected = reference.row(row);
        let given = library.row(row);
        if given.is_err() && matches!(fault, Some(Fault::RefusedState | Fault::RefusedWindow)) {
            library.damage(fault == Some(Fault::RefusedWindow));
        }
        let mut found = difference(&expected, &given)
            .or_else(|| (expected.is_err() && library.changed()).then(|| "a refused row changed the state".into()));
        if found.is_none() && fault.is_none() {
            found = forbidden(row, &expected, stage, reference.seen.enable.enabled).map(String::from);
        }
        if let Some(found) = found {
            return Some((index, found));
        }
        if let (Some(tally), Some(before)) = (tally.as_mut(), before) {
            tally.signs += other_signs(&expected, &given) as u64;
            tally.count(&before, row, &expected);
            if let Ok(commands) = &expected {
                tally.count_accepted(row, commands, &reference.seen);
            }
        }
        if let Ok(commands) = expected {
            stage = commands.freeze.freeze_protection_stage;
        }
    }
    None
}

/// A list that is still answered otherwise, cut down to rows that matter, as far as that goes in so many tries.
fn cut_down(rows: &[Row], differs: impl Fn(&[Row]) -> Option<usize>) -> Vec<Row> {
    let mut rows = rows.to_vec();
    if let Some(last) = differs(&rows) {
        rows.truncate(last + 1);
    }
    let (mut size, mut tries) = (rows.len() / 2, 0);
    while size > 0 {
        let mut at = 0;
        while at < rows.len() && tries < TRIES {
            tries += 1;
            let mut fewer = rows.clone();
            fewer.drain(at..(at + size).min(rows.len()));
            match differs(&fewer) {
                Some(last) => rows = fewer[..=last].to_vec(),
                None => at += size,
            }
        }
        size /= 2;
    }
    simpler(rows, differs)
}

/// The same list with plainer numbers and flags, where it still is answered otherwise at its last row.
fn simpler(mut rows: Vec<Row>, differs: impl Fn(&[Row]) -> Option<usize>) -> Vec<Row> {
    let flags: [fn(&mut Row); 6] = [
        |row| row.supply_fan_status = false,
        |row| row.software_reset = false,
        |row| row.operation_mode = 0,
        |row| row.alarm = [0; 4],
        |row| row.proof = [false; 4],
        |row| row.time = row.time.round(),
    ];
    let start = rows[0].time;
    let mut keep = |change: &dyn Fn(&mut [Row])| {
        let mut tried = rows.clone();
        change(&mut tried);
        if differs(&tried) == Some(tried.len() - 1) {
            rows = tried;
        }
    };
    keep(&|rows| rows.iter_mut().for_each(|row| row.time -= start));
    flags.iter().for_each(|plain| keep(&|rows| rows.iter_mut().for_each(plain)));
    for (_, number) in &NUMBERS[1..] {
        keep(&|rows| rows.iter_mut().for_each(|row| *number(row) = 0.0));
        keep(&|rows| rows.iter_mut().for_each(|row| *number(row) = number(row).round()));
    }
    rows
}

/// The list of a seed, cut down, and what is wrong with its last row.
fn first_difference(seed: u64, start: usize, fault: Option<Fault>) -> String {
    let (name, keeps_hour) = STARTS[start];
    let differs = |rows: &[Row]| play(rows, keeps_hour, fault, None).map(|(index, _)| index);
    let rows = cut_down(&plans::list(seed), differs);
    let what = play(&rows, keeps_hour, fault, None).map_or(String::new(), |(_, what)| what);
    let mut out = format!("first difference: seed {seed}, start {name}: {what}, at the last of these rows\n");
    for row in rows {
        out += &format!("    {row:?}\n");
    }
    out
}

fn told(sum: Sum, seeds: u64, fault: Option<Fault>) -> (String, bool) {
    let (mut passed, mut failed) = (sum.passed, sum.failed);
    let mut out = String::new();
    if let Some((seed, start)) = sum.first {
        out += &first_difference(seed, start, fault);
    }
    out += &format!("{} joined rows in {seeds} lists, each in both starts; {} zeros of the other sign\n", sum.rows, sum.signs);
    let uncounted = fault == Some(Fault::Uncounted);
    if fault.is_none() || uncounted {
        for ((name, _), tally) in STARTS.iter().zip(&sum.tallies) {
            let mut events = tally.events();
            if uncounted {
                events[0].1 = 0;
            }
            let never: Vec<&str> = events.iter().filter(|(_, count)| *count == 0).map(|(event, _)| event.as_str()).collect();
            out += &format!("  {name}\n{}\n", shown(&events));
            if !never.is_empty() {
                out += &format!("events that never occurred, {name}: {}\n", never.join("; "));
            }
            if seeds >= SEEDS {
                passed += (events.len() - never.len()) as u64;
                failed += never.len() as u64;
            }
        }
    }
    out += &format!("{passed} passed, {failed} failed\n");
    (out, failed == 0)
}

/// The counts, in lines that break between events.
fn shown(events: &[(String, u64)]) -> String {
    let mut lines = vec![String::from("   ")];
    for (event, count) in events {
        let next = format!(" {count} {event};");
        if lines.last().is_some_and(|line| line.len() + next.len() > 110) {
            lines.push("   ".into());
        }
        lines.last_mut().unwrap().push_str(&next);
    }
    lines.join("\n").trim_end_matches(';').into()
}
