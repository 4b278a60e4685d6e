//! The per-row calls of the firmware library beside the published trace functions, on the same rows, in one run.
//! Built into `calls` only, which links the library (`--cfg calls`).

use std::hint::black_box;
use std::io::{self, Read};
use std::time::Instant;

use crate::input::Input;
use crate::lines::{self, Kind};

const RUNS: usize = 7;

/// A kind of rows that the library takes a call at a time.
pub trait Called: Kind {
    type Sample: Copy;
    type Sequence;
    type Commands;

    fn sample(time: f64, row: &Self::Row) -> Self::Sample;
    fn start() -> Self::Sequence;
    /// The commands of an accepted row, or its status.
    fn call(sequence: &mut Self::Sequence, sample: Self::Sample) -> Result<Self::Commands, u64>;
    /// What `Kind::write` writes of a trace.
    fn put(commands: &Self::Commands, out: &mut Vec<u8>);
}

/// Nanoseconds a row, of the published trace function and of the calls: the best of several runs of each, in turn.
/// Fails where the answers differ.
pub fn measure<K: Called>(input: &mut Input<impl Read>) -> io::Result<String> {
    let (times, rows) = lines::accepted::<K>(input)?;
    let samples: Vec<K::Sample> = times.iter().zip(&rows).map(|(&time, row)| K::sample(time, row)).collect();
    let trace = K::trace(&times, &rows);
    let commands = called::<K>(&samples);
    let (mut expected, mut given) = (Vec::new(), Vec::new());
    for (index, commands) in commands.iter().enumerate() {
        expected.clear();
        given.clear();
        K::write(&trace, index, &mut expected);
        match commands {
            Ok(commands) => K::put(commands, &mut given),
            Err(status) => given.extend(status.to_string().bytes()),
        }
        if expected != given {
            return Err(io::Error::other(format!("the answers differ at row {index}")));
        }
    }
    let (mut published, mut library) = (f64::MAX, f64::MAX);
    for _ in 0..RUNS {
        published = published.min(seconds(|| drop(black_box(K::trace(black_box(&times), black_box(&rows))))));
        library = library.min(seconds(|| drop(black_box(called::<K>(black_box(&samples))))));
    }
    let each = 1e9 / rows.len() as f64;
    Ok(format!("{} {}\n", published * each, library * each))
}

fn called<K: Called>(samples: &[K::Sample]) -> Vec<Result<K::Commands, u64>> {
    let mut sequence = K::start();
    let mut given = Vec::new();
    for &sample in samples {
        given.push(K::call(&mut sequence, sample));
    }
    given
}

fn seconds(run: impl FnOnce()) -> f64 {
    let start = Instant::now();
    run();
    start.elapsed().as_secs_f64()
}
