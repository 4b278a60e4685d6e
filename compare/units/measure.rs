//! The board's calls beside the joined call on its own, for six units on the same rows, in one run.

use std::hint::black_box;
use std::time::{Duration, Instant};

use super::board::Board;
use super::same::commands_differ;
use crate::joined::library::{Rooftop, commands, sample};
use crate::joined::plans;
use crate::woldgrater::{PLACES, RooftopRow, UNITS};

const RUNS: usize = 7;

/// The rows of each unit, and the seconds between them: 20 points in the window, and 500.
const ROWS: usize = 5000;
const GAPS: [f64; 2] = [15.0, 0.6];

/// Nanoseconds a call, the best of several runs of each, in turn. Fails where the answers differ.
pub fn run(words: &[&str]) -> Result<String, String> {
    let count = match words {
        [] => ROWS,
        [count] => count.parse().ok().filter(|count| (1..=1_000_000).contains(count)).ok_or("not a number of rows")?,
        _ => return Err("--measure asks for a number of rows, or for nothing".into()),
    };
    let mut out = format!("{:44} {:>12} {:>12}\n", "nanoseconds a call, six units", "15 s apart", "0.6 s apart");
    let [wide, dense] = GAPS.map(|gap| figures(count, gap));
    for ((name, wide), (_, dense)) in wide?.into_iter().zip(dense?) {
        out += &format!("{name:44} {wide:12.1} {dense:12.1}\n");
    }
    Ok(out)
}

fn figures(count: usize, gap: f64) -> Result<[(&'static str, f64); 5], String> {
    // Whole lines, so that each row that is offered is taken.
    let count = count.next_multiple_of(PLACES);
    let rows: Vec<RooftopRow> = plans::clean(count, gap).iter().map(sample).collect();
    check(&rows)?;
    let mut best = [f64::MAX; 5];
    for _ in 0..RUNS {
        let (offers, ticks) = apart(&rows);
        let runs = [alone(&rows), offers, ticks, together(&rows), copied(&rows)];
        best.iter_mut().zip(runs).for_each(|(best, run)| *best = best.min(run.as_secs_f64()));
    }
    let each = 1e9 / (UNITS * count) as f64;
    let names = [
        "woldgrater_rooftop_row on its own",
        "an offer",
        "a tick",
        "an offer and a tick",
        "the same, the board copied in and out",
    ];
    Ok(std::array::from_fn(|index| (names[index], best[index] * each)))
}

fn board() -> Box<Board> {
    let mut board = Board::of(|| 0);
    board.start(&[0; UNITS]);
    board
}

/// That the board commands on each row what the joined call does.
fn check(rows: &[RooftopRow]) -> Result<(), String> {
    let (mut board, mut alone) = (board(), Rooftop::start(false));
    for (index, &row) in rows.iter().enumerate() {
        let expected = alone.row(row).map_err(|status| format!("row {index} has status {status}"))?;
        for unit in 0..UNITS {
            let (status, served) = (board.offer(unit, row), board.tick());
            if (status, served.served, served.unit, served.status) != (0, 1, unit, 0) {
                return Err(format!("row {index} of unit {unit} is not served"));
            }
            if let Some(what) = commands_differ(&served.commands, &commands(&expected)) {
                return Err(format!("row {index} of unit {unit}: {what}"));
            }
        }
    }
    Ok(())
}

/// The joined call on its own, each unit with a state and arrays of its own.
fn alone(rows: &[RooftopRow]) -> Duration {
    let mut units = [Rooftop::start(false); UNITS];
    timed(|| {
        for &row in black_box(rows) {
            for unit in &mut units {
                let _ = black_box(unit.row(row));
            }
        }
    })
}

/// All lines filled and then served, timed apart.
fn apart(rows: &[RooftopRow]) -> (Duration, Duration) {
    let mut board = board();
    let (mut offers, mut ticks) = (Duration::ZERO, Duration::ZERO);
    for rows in black_box(rows).chunks(PLACES) {
        offers += timed(|| {
            for &row in rows {
                for unit in 0..UNITS {
                    black_box(board.offer(unit, row));
                }
            }
        });
        ticks += timed(|| {
            for _ in 0..UNITS * rows.len() {
                black_box(board.tick());
            }
        });
    }
    (offers, ticks)
}

/// Each row offered and served at once.
fn together(rows: &[RooftopRow]) -> Duration {
    let mut board = board();
    timed(|| {
        for &row in black_box(rows) {
            for unit in 0..UNITS {
                black_box(board.offer(unit, row));
                black_box(board.tick());
            }
        }
    })
}

/// The same with the board copied to where the call works and back, at each call.
fn copied(rows: &[RooftopRow]) -> Duration {
    let (mut board, mut place) = (board(), board());
    timed(|| {
        for &row in black_box(rows) {
            for unit in 0..UNITS {
                by_value(&mut board, &mut place, |place| black_box(place.offer(unit, row)));
                by_value(&mut board, &mut place, |place| black_box(place.tick()));
            }
        }
    })
}

fn by_value<T>(board: &mut Board, place: &mut Board, call: impl FnOnce(&mut Board) -> T) -> T {
    *place = *black_box(&*board);
    let given = call(place);
    *board = *black_box(&*place);
    given
}

fn timed(run: impl FnOnce()) -> Duration {
    let start = Instant::now();
    run();
    start.elapsed()
}
