//! Plans of relief fan group row files.

use crate::cells::{Cell::*, Row};
use crate::clock::{Clock, spans, too_far};
use crate::mean::Mean;
use crate::random::{Random, marks};

pub const PLANS: &[fn(&mut Random, Option<usize>) -> Vec<Row>] =
    &[day, edges, pulses, pulses, echo, fill, overflow, spans_plan];

const DELAYS: [f64; 3] = [2.0, 300.0, 420.0];

/// The fans in the order in which they start, by weight.
const ORDER: [usize; 4] = [2, 0, 1, 3];

struct Rows {
    rows: Vec<Row>,
    supply: [bool; 2],
    alarm: [i64; 4],
    proof: [bool; 4],
}

impl Rows {
    fn new() -> Self {
        Self {
            rows: Vec::new(),
            supply: [true; 2],
            alarm: [0; 4],
            proof: [false; 4],
        }
    }

    /// Proofs of the first `count` fans, as if the commands had been followed.
    fn prove(&mut self, count: usize) {
        self.proof = [false; 4];
        for fan in &ORDER[..count] {
            self.proof[*fan] = true;
        }
    }

    fn wander(&mut self, random: &mut Random) {
        match random.below(25) {
            0 => self.supply[random.below(2)] = false,
            1..=4 => self.supply = [true; 2],
            5 => self.alarm[random.below(4)] = random.pick(&[2, 2, 2, 3, 1, -128, 127]),
            6 => self.alarm = [0; 4],
            7 => self.proof[random.below(4)] ^= true,
            8 if random.one_in(3) => self.supply = [false; 2],
            _ => {}
        }
    }

    fn push(&mut self, time: f64, pressure: f64) {
        let mut row = vec![Float(time)];
        row.extend(self.supply.map(Flag));
        row.push(Float(pressure));
        row.extend(self.alarm.map(Signed));
        row.extend(self.proof.map(Flag));
        self.rows.push(row);
    }
}

/// Pressure high and low by the quarter hour, with proofs that follow the stages.
fn day(random: &mut Random, rows: Option<usize>) -> Vec<Row> {
    let mut out = Rows::new();
    let mut clock = Clock::start(random);
    let gap = random.pick(&[15.0, 15.0, 5.0, 30.0, 60.0, 1.3]);
    let (mut level, mut proven, mut since) = (12.0, 0, 0.0);
    for _ in 0..rows.unwrap_or(random.between(100, 700)) {
        if random.unit() < gap / 1500.0 {
            level = random.pick(&[18.0, 22.0, 15.5, 14.0, 12.0, 12.3, 10.0, 20.0]);
            since = clock.now;
        }
        if level > 15.0 && clock.now - since > 440.0 && proven < 4 {
            (proven, since) = (proven + 1, clock.now);
            out.prove(proven);
        } else if level < 13.0 && clock.now - since > 340.0 && proven > 0 {
            (proven, since) = (proven - 1, clock.now);
            out.prove(proven);
        }
        if random.one_in(3) {
            out.wander(random);
        }
        out.push(clock.now, level + random.range(-0.3, 0.3));
        clock.step(gap);
    }
    out.rows
}

/// Pressures that put the limited loop on each threshold, as near as floats allow, at times on each
/// delay and one step beside it.
fn edges(random: &mut Random, rows: Option<usize>) -> Vec<Row> {
    let (low, high) = (0.1, 0.1 + 0.15);
    let targets = marks(&[
        0.0,
        0.005,
        0.005 + 0.005,
        0.05 - 0.005,
        0.05,
        low,
        low + 0.005,
        high - 0.005,
        high,
        1.0,
    ]);
    let mut out = Rows::new();
    let mut mean = Mean::default();
    let mut clock = Clock::start(random);
    let mut place = random.below(targets.len());
    for _ in 0..rows.unwrap_or(random.between(50, 400)) {
        let (at_most, at_least) = mean.aim(clock.now, targets[place]);
        let pressure = if random.one_in(2) { at_most } else { at_least };
        if random.one_in(2) {
            out.wander(random);
        }
        mean.take(clock.now, pressure);
        out.push(clock.now, pressure);
        place = random.walk(place, targets.len());
        match random.below(3) {
            0 => clock.edge(random, &DELAYS),
            1 => clock.step(random.pick(&[0.5, 15.0, 15.0, 60.0])),
            _ => clock.delay(random, &DELAYS),
        };
    }
    out.rows
}

/// Runs with a request up or down whose delay ends on a row or one step beside it, and a proof at
/// the pulse or a little later.
fn pulses(random: &mut Random, rows: Option<usize>) -> Vec<Row> {
    let mut out = Rows::new();
    let mut clock = Clock::start(random);
    let count = rows.unwrap_or(random.between(30, 300));
    let mut proven: usize = random.below(3);
    out.prove(proven);
    while out.rows.len() < count {
        let up = random.one_in(2);
        let (pressure, delay) = if up { (24.0, 420.0) } else { (11.0, 300.0) };
        // Two rows, so that the mean has followed when the run begins.
        out.push(clock.step(random.range(0.0, 20.0)), pressure);
        let begin = clock.step(random.pick(&[15.0, 300.0, 301.0]));
        out.push(begin, pressure);
        for _ in 0..random.below(5) {
            let inside = begin + delay * random.range(0.0, 0.999);
            out.push(clock.move_to(inside), pressure);
        }
        let moved = if up {
            (proven + 1).min(4)
        } else {
            proven.saturating_sub(1)
        };
        if random.one_in(4) {
            out.wander(random);
        }
        let end = random.beside(begin + delay);
        if random.one_in(2) {
            // A change of proofs whose 2 s are just over at the pulse, or are not.
            out.prove(random.below(5));
            out.push(clock.move_to(random.beside(end - 2.0)), pressure);
        }
        out.push(clock.move_to(end), pressure);
        for _ in 0..random.below(6) {
            let end = clock.now + random.pick(&[0.0, 1.0, 2.0, 2.0, 2.0, 15.0]);
            if random.one_in(2) {
                proven = moved;
                out.prove(proven);
            }
            out.push(clock.move_to(random.beside(end)), pressure);
        }
        proven = moved;
        out.prove(proven);
    }
    out.rows.truncate(count);
    out.rows
}

/// Rows exactly 300 s after earlier ones, some of them twice, with sums that fall and change sign, so
/// that the roundings of the mean show.
fn echo(random: &mut Random, rows: Option<usize>) -> Vec<Row> {
    let mut out = Rows::new();
    let mut clock = Clock::at(random.pick(&[0.0, 1000.0]));
    let first = random.between(5, 30);
    let mut times = vec![clock.now];
    for index in 1..rows.unwrap_or(random.between(40, 150)) {
        if index < first {
            times.push(clock.step(random.between(1, 1000) as f64 / 128.0));
        } else {
            times.push(clock.move_to(times[index - first] + 300.0));
        }
    }
    let mut mean = Mean::default();
    for time in times {
        if random.one_in(4) {
            out.wander(random);
        }
        for _ in 0..random.between(1, 2) {
            let pressures = [
                random.range(-60.0, 80.0),
                mean.pull(time, random.range(-1.6, -0.4)),
            ];
            let pressure = random.pick(&pressures);
            mean.take(time, pressure);
            out.push(time, pressure);
        }
    }
    out.rows
}

/// More rows in 300 s than the window holds, and the times at which room comes free again.
fn fill(random: &mut Random, rows: Option<usize>) -> Vec<Row> {
    let mut out = Rows::new();
    let mut mean = Mean::default();
    let mut time = random.pick(&[0.0, 0.0, 0.25, 1000.0, 0.1]);
    let gap = random.pick(&[0.5, 0.5, 0.25, 0.1, 0.58]);
    let filling = random.between(508, 530);
    let count = rows.unwrap_or(random.between(550, 650));
    for index in 0..count {
        if random.one_in(5) {
            out.wander(random);
        }
        let pressure = random.range(-10.0, 30.0);
        out.push(time, pressure);
        if mean.has_room(time) {
            mean.take(time, pressure);
        }
        let last = mean.last_time();
        time = match random.below(if index < filling { 1 } else { 8 }) {
            0 => last + gap,
            1 => last,
            2 => last + random.range(0.0, 3.0),
            3 => last + 300.0 * random.unit(),
            _ => random.beside(mean.second_time() + 300.0).max(last),
        };
    }
    out.rows
}

/// Pressures so large that sums and means overflow.
fn overflow(random: &mut Random, rows: Option<usize>) -> Vec<Row> {
    let mut out = Rows::new();
    let mut clock = Clock::start(random);
    if random.one_in(3) {
        // Two sums whose difference overflows, though their step did not, and a mean from between.
        clock = Clock::at(0.0);
        for (gap, pressure) in [
            (0.0, 12.0),
            (1.0, -too_far(random)),
            (1.0, f64::MAX),
            (300.0, 12.0),
            (0.0, 12.0),
        ] {
            out.push(clock.step(gap), pressure);
        }
    }
    let largest = random.pick(&[1e300, 1e307, f64::MAX]);
    for _ in 0..rows.unwrap_or(random.between(20, 120)) {
        out.wander(random);
        if random.one_in(3) {
            out.prove(random.below(5));
        }
        let pressures = [
            18.0,
            12.0,
            largest,
            -largest,
            largest / 300.0,
            random.range(0.0, 40.0),
        ];
        let choices = if random.one_in(4) { 6 } else { 2 };
        out.push(clock.now, pressures[random.below(choices)]);
        clock.edge(random, &[2.0, 15.0, 300.0, 420.0]);
    }
    out.rows
}

/// Times over the whole range of floats.
fn spans_plan(random: &mut Random, rows: Option<usize>) -> Vec<Row> {
    let mut out = Rows::new();
    let mut mean = Mean::default();
    let count = rows.unwrap_or(random.between(5, 80));
    for time in spans(random, count) {
        let pull = mean.pull(time, random.range(-1.6, -0.4));
        let pressures = [
            18.0,
            24.0,
            0.0,
            -0.0,
            1e-310,
            random.range(-20.0, 40.0),
            pull,
            pull,
        ];
        let pressure = random.pick(&pressures);
        mean.take(time, pressure);
        out.wander(random);
        out.push(time, pressure);
    }
    out.rows
}

/// Well-formed rows with rising times `gap` seconds apart.
pub fn clean(random: &mut Random, rows: usize, gap: f64) -> Vec<Row> {
    let mut out = Rows::new();
    let mut level = 12.0;
    for index in 0..rows {
        if random.one_in(60) {
            level = random.pick(&[18.0, 22.0, 15.5, 12.0, 11.0]);
            out.prove(random.below(5));
        }
        out.alarm[index % 4] = if random.one_in(50) { 2 } else { 0 };
        out.push(index as f64 * gap, level + random.range(-1.0, 1.0));
    }
    out.rows
}
