//! Plays schedules and forged boards from the seeds 0, 1, 2 and so on, and tells what was found.

use std::num::NonZero;
use std::sync::Mutex;
use std::sync::atomic::{AtomicU64, Ordering};
use std::thread;

use super::events::Tally;
use super::faults::{FAULTS, Fault};
use super::play::play;
use super::schedule::{self, Schedule, Step};
use super::{forged, measure};

/// The seeds of a full run, in which each event must occur.
const SEEDS: u64 = 250;

/// The forged boards of a seed.
const FORGED: u64 = 20;

/// How often a schedule is tried with some steps less.
const TRIES: usize = 200;

/// What a run tells and whether all passed, or a message about the words.
pub fn run(words: &[&str]) -> Result<(String, bool), String> {
    let (seeds, fault) = match words {
        ["--faults"] => return Ok((faults(), true)),
        ["--measure", words @ ..] => return measure::run(words).map(|told| (told, true)),
        [] => (SEEDS, None),
        ["--fault", name] => (SEEDS, Some(named(name)?)),
        [seeds] => (whole(seeds)?, None),
        [seeds, "--fault", name] => (whole(seeds)?, Some(named(name)?)),
        _ => return Err(format!("this command line has no meaning: {}", words.join(" "))),
    };
    Ok(lists(seeds, fault))
}

fn whole(word: &str) -> Result<u64, String> {
    match word.parse() {
        Ok(seeds @ 1..=1_000_000) => Ok(seeds),
        _ => Err(format!("not a number of seeds: {word}")),
    }
}

/// Every fault with what it does, a line each.
fn faults() -> String {
    FAULTS.map(|(name, _, what)| format!("{name}: {what}\n")).concat()
}

fn named(word: &str) -> Result<Fault, String> {
    let found = FAULTS.iter().find(|(name, ..)| *name == word);
    found.map(|&(_, fault, _)| fault).ok_or(format!("no such fault: {word}; there are\n{}", faults().trim_end()))
}

struct Sum {
    passed: u64,
    failed: u64,
    steps: u64,
    tally: Tally,
    /// What the first seed shows that is answered otherwise: in its schedule nothing, or in its forged boards.
    first: Option<(u64, Option<String>)>,
}

impl Sum {
    fn new() -> Self {
        Self { passed: 0, failed: 0, steps: 0, tally: Tally::new(), first: None }
    }
}

fn lists(seeds: u64, fault: Option<Fault>) -> (String, bool) {
    let sum = Mutex::new(Sum::new());
    let next = AtomicU64::new(0);
    let workers = thread::available_parallelism().map_or(2, NonZero::get);
    thread::scope(|scope| {
        for _ in 0..workers {
            scope.spawn(|| {
                // A fault need not be found twice. Each seed that is taken is played: the first that shows it is
                // always the same one.
                while fault.is_none() || sum.lock().unwrap().failed == 0 {
                    let seed = next.fetch_add(1, Ordering::Relaxed);
                    if seed >= seeds {
                        break;
                    }
                    one(seed, fault, &sum);
                }
            });
        }
    });
    told(sum.into_inner().unwrap(), seeds, fault)
}

/// Plays the schedule of a seed and, where that passes, its forged boards.
fn one(seed: u64, fault: Option<Fault>, sum: &Mutex<Sum>) {
    let schedule = schedule::of(seed);
    let mut tally = Tally::new();
    let found = match play(&schedule, fault, &mut tally) {
        Err(_) => Err(None),
        Ok(end) => forged::play(seed, FORGED, &schedule, &end, fault, &mut tally).map_err(Some),
    };
    let mut sum = sum.lock().unwrap();
    sum.steps += schedule.steps.len() as u64;
    sum.tally.add(&tally);
    match found {
        Ok(()) => sum.passed += 1,
        Err(what) => {
            sum.failed += 1;
            if sum.first.as_ref().is_none_or(|(first, _)| seed < *first) {
                sum.first = Some((seed, what));
            }
        }
    }
}

/// A schedule that is still answered otherwise, cut down to steps that matter, as far as that goes in so many tries.
fn cut_down(mut schedule: Schedule, differs: impl Fn(&Schedule) -> Option<usize>) -> Schedule {
    if let Some(last) = differs(&schedule) {
        schedule.steps.truncate(last + 1);
    }
    let (mut size, mut tries) = (schedule.steps.len() / 2, 0);
    while size > 0 {
        let mut at = 0;
        while at < schedule.steps.len() && tries < TRIES {
            tries += 1;
            let mut fewer = Schedule { steps: schedule.steps.clone(), ..schedule };
            fewer.steps.drain(at..(at + size).min(schedule.steps.len()));
            match differs(&fewer) {
                Some(last) => {
                    fewer.steps.truncate(last + 1);
                    schedule = fewer;
                }
                None => at += size,
            }
        }
        size /= 2;
    }
    schedule
}

/// The schedule of a seed, cut down, and what is wrong with its last step.
fn first_difference(seed: u64, fault: Option<Fault>) -> String {
    let found = |schedule: &Schedule| play(schedule, fault, &mut Tally::new()).err();
    let schedule = cut_down(schedule::of(seed), |schedule| found(schedule).map(|(index, _)| index));
    let what = found(&schedule).map_or(String::new(), |(_, what)| what);
    let mut out = format!("first difference: seed {seed}: {what}, at the last of these commands\n");
    out += &format!("    start {:?}\n", schedule.keeps_hour);
    for step in schedule.steps {
        out += &match step {
            Step::Offer(unit, row) => format!("    offer {unit} {row:?}\n"),
            Step::Tick => "    tick\n".into(),
        };
    }
    out
}

fn told(sum: Sum, seeds: u64, fault: Option<Fault>) -> (String, bool) {
    let (mut passed, mut failed) = (sum.passed, sum.failed);
    let mut out = match sum.first {
        None => String::new(),
        Some((seed, None)) => first_difference(seed, fault),
        Some((seed, Some(what))) => format!("first difference: seed {seed}: {what}\n"),
    };
    out += &format!("{} commands in {seeds} schedules, and {FORGED} forged boards after each\n", sum.steps);
    let uncounted = fault == Some(Fault::Uncounted);
    if fault.is_none() || uncounted {
        let mut events = sum.tally.events();
        if uncounted {
            events[0].1 = 0;
        }
        let never: Vec<&str> = events.iter().filter(|(_, count)| *count == 0).map(|(event, _)| *event).collect();
        out += &format!("{}\n", shown(&events));
        if !never.is_empty() {
            out += &format!("events that never occurred: {}\n", never.join("; "));
        }
        if seeds >= SEEDS {
            passed += (events.len() - never.len()) as u64;
            failed += never.len() as u64;
        }
    }
    out += &format!("{passed} passed, {failed} failed\n");
    (out, failed == 0)
}

/// The counts, in lines that break between events.
fn shown(events: &[(&str, u64)]) -> String {
    let mut lines = vec![String::from("   ")];
    for (event, count) in events {
        let next = format!(" {count} {event};");
        if lines.last().is_some_and(|line| line.len() + next.len() > 110) {
            lines.push("   ".into());
        }
        lines.last_mut().unwrap().push_str(&next);
    }
    lines.join("\n").trim_end_matches(';').into()
}
