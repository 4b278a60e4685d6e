//! The joined call beside the three published trace functions, on the same rows, in one run.

use std::hint::black_box;
use std::time::Instant;

use super::library::{Rooftop, commands, sample};
use super::plans;
use super::row::{Commands, Row, difference};
use crate::sequences::economizer_controller::econ;
use crate::sequences::freeze_protection::freeze;
use crate::sequences::relief_fan_group::relief;
use crate::woldgrater as library;

const RUNS: usize = 7;

/// Nanoseconds a row, of the three trace functions together and of the calls: the best of several runs of each, in
/// turn. Fails where the answers differ.
pub fn run(words: &[&str]) -> Result<String, String> {
    let [count, gap] = words else {
        return Err("measure rooftop asks for a number of rows and the seconds between them".into());
    };
    let (Ok(count @ 1..=10_000_000), Ok(gap)) = (count.parse(), gap.parse()) else {
        return Err(format!("not a number of rows and one of seconds: {count} {gap}"));
    };
    let rows = plans::clean(count, gap);
    let samples: Vec<library::RooftopRow> = rows.iter().map(sample).collect();
    let given: Vec<Commands> = called(&samples)?.iter().map(commands).collect();
    let wired = Wired::by(&rows, &given);
    wired.check(&given)?;
    let (mut published, mut library) = (f64::MAX, f64::MAX);
    for _ in 0..RUNS {
        published = published.min(seconds(|| wired.run(count)));
        library = library.min(seconds(|| drop(black_box(called(black_box(&samples))))));
    }
    let each = 1e9 / count as f64;
    Ok(format!("{} {}\n", published * each, library * each))
}

fn called(samples: &[library::RooftopRow]) -> Result<Vec<library::RooftopCommands>, String> {
    let mut sequence = Rooftop::start(false);
    let mut given = Vec::new();
    for (index, &sample) in samples.iter().enumerate() {
        given.push(sequence.row(sample).map_err(|status| format!("row {index} has status {status}"))?);
    }
    Ok(given)
}

fn seconds(run: impl FnOnce()) -> f64 {
    let start = Instant::now();
    run();
    start.elapsed().as_secs_f64()
}

/// The rows as each sequence takes them.
struct Wired {
    economizer: econ::Wired,
    freeze: freeze::Wired,
    relief: relief::Wired,
}

impl Wired {
    /// The rows with what was commanded handed on.
    fn by(rows: &[Row], commanded: &[Commands]) -> Self {
        let mut wired = Self {
            economizer: econ::Wired::default(),
            freeze: freeze::Wired::start(false),
            relief: relief::Wired::default(),
        };
        let mut stage = 0;
        for (row, commands) in rows.iter().zip(commanded) {
            wired.economizer.push(row, stage);
            wired.freeze.push(row, &commands.economizer);
            wired.relief.push(row, [commands.freeze.supply_fan_status != 0; 2]);
            stage = commands.freeze.freeze_protection_stage as i64;
        }
        wired
    }

    /// That the traces command the same. An output hangs on no later row, so what was handed on is then, row for row,
    /// what the traces themselves hand on.
    fn check(&self, commanded: &[Commands]) -> Result<(), String> {
        let traces = self.economizer.commands(0).into_iter().zip(self.freeze.commands(0)).zip(self.relief.commands(0));
        for (index, (((economizer, freeze), relief), &commands)) in traces.zip(commanded).enumerate() {
            if let Some(wrong) = difference(&Ok(Commands { economizer, freeze, relief }), &Ok(commands)) {
                return Err(format!("row {index}: {wrong}"));
            }
        }
        Ok(())
    }

    /// The three traces, and nothing of them.
    fn run(&self, count: usize) {
        drop(black_box(black_box(&self.economizer).commands(count)));
        drop(black_box(black_box(&self.freeze).commands(count)));
        drop(black_box(black_box(&self.relief).commands(count)));
    }
}
