//! Plans of freeze protection row files.

use crate::cells::{Cell::*, Row};
use crate::clock::{Clock, parted, spans};
use crate::random::{Random, marks};

pub const PLANS: &[fn(&mut Random, Option<usize>) -> Vec<Row>] = &[
    winter, edges, ladder, bands, hour, fine_step, overflow, spans_plan,
];

/// For the start in which stage 2 keeps to its hour.
pub const KEEP_HOUR_PLANS: &[fn(&mut Random, Option<usize>) -> Vec<Row>] = &[
    winter, edges, ladder, bands, hour, hours, hours, fine_step, overflow, spans_plan,
];

const DELAYS: [f64; 3] = [300.0, 900.0, 3600.0];

struct Rows {
    rows: Vec<Row>,
    positions: [f64; 7],
    mixed: f64,
    fan: bool,
}

impl Rows {
    fn new(random: &mut Random) -> Self {
        Self {
            rows: Vec::new(),
            positions: [(); 7].map(|_| random.unit()),
            mixed: 300.15,
            fan: true,
        }
    }

    /// Incoming positions, mixed air and fan change now and then.
    fn wander(&mut self, random: &mut Random) {
        if random.one_in(3) {
            let values = [random.unit(), 0.0, 1.0, -0.0, 1.5, -2.0];
            self.positions[random.below(7)] = random.pick(&values);
        }
        if random.one_in(4) {
            let values = [
                300.15,
                299.75,
                300.5,
                random.range(299.5, 300.8),
                random.beside(300.15),
            ];
            self.mixed = random.pick(&values);
        }
        if random.one_in(10) {
            self.fan = !self.fan;
        }
    }

    fn push(&mut self, time: f64, supply: f64, reset: bool) {
        let [
            minimum_position,
            outdoor,
            heating,
            minimum_outdoor,
            back,
            speed,
            cooling,
        ] = self.positions;
        self.rows.push(vec![
            Float(time),
            Float(minimum_position),
            Float(outdoor),
            Float(heating),
            Float(minimum_outdoor),
            Float(back),
            Float(supply),
            Flag(reset),
            Flag(self.fan),
            Float(speed),
            Float(cooling),
            Float(self.mixed),
        ]);
    }
}

/// Cold spells of minutes to hours, now and then a reset.
fn winter(random: &mut Random, rows: Option<usize>) -> Vec<Row> {
    let mut out = Rows::new(random);
    let mut clock = Clock::start(random);
    let gap = random.pick(&[60.0, 60.0, 30.0, 300.0, 5.0, 20.7]);
    let (mut supply, mut target) = (281.0, 281.0);
    for _ in 0..rows.unwrap_or(random.between(100, 700)) {
        if random.unit() < gap / 2400.0 {
            let targets = [281.5, 279.0, 277.0, 276.0, 274.5, 273.0, 271.0];
            target = random.pick(&targets);
        }
        supply += (target - supply) * random.range(0.1, 0.6) + random.range(-0.1, 0.1);
        out.wander(random);
        out.push(clock.now, supply, random.one_in(60));
        clock.step(gap);
    }
    out.rows
}

/// Supply temperatures on each threshold and one step beside it, at times on each delay and one
/// step beside it.
fn edges(random: &mut Random, rows: Option<usize>) -> Vec<Row> {
    let mut supplies = vec![273.0, 274.0];
    for level in [274.15, 276.45, 277.55] {
        supplies.extend(marks(&[level, level + 0.25]));
        supplies.push(level + 0.6);
    }
    supplies.extend(marks(&[280.15 - 0.25, 280.15]));
    supplies.push(281.0);

    let mut out = Rows::new(random);
    let mut clock = Clock::start(random);
    let mut place = random.below(supplies.len());
    for _ in 0..rows.unwrap_or(random.between(50, 400)) {
        out.wander(random);
        out.push(clock.now, supplies[place], random.one_in(12));
        place = random.walk(place, supplies.len());
        clock.edge(random, &DELAYS);
    }
    out.rows
}

/// Up and down the stages: a cold or warm run, its delay, often a reset on the row of the rise.
fn ladder(random: &mut Random, rows: Option<usize>) -> Vec<Row> {
    let mut out = Rows::new(random);
    let mut clock = Clock::start(random);
    let count = rows.unwrap_or(random.between(20, 250));
    while out.rows.len() < count {
        out.wander(random);
        let runs = [
            (273.0, 300.0),
            (276.0, 900.0),
            (276.0, 300.0),
            (277.0, 300.0),
            (281.0, 300.0),
        ];
        let (supply, delay) = random.pick(&runs);
        let begin = clock.step(random.range(0.0, 120.0));
        out.push(begin, supply, false);
        for _ in 0..random.below(4) {
            clock.move_to(begin + delay * random.range(0.0, 0.999));
            out.push(clock.now, supply, random.one_in(20));
        }
        let end = clock.move_to(random.beside(begin + delay));
        out.push(end, supply, random.one_in(3));
        for _ in 0..random.below(3) {
            clock.step(random.pick(&[0.0, 60.0, 1.0]));
            out.push(clock.now, supply, random.one_in(4));
        }
        if random.one_in(2) {
            // The hour of stage 2, with the cold gone for a while or for good.
            let stays = random.pick(&[278.0, 278.0, 276.0, 281.0]);
            for _ in 0..random.below(4) {
                clock.move_to(end + random.range(0.0, 3500.0));
                out.push(clock.now, stays, false);
            }
            clock.move_to(random.beside(end + 3600.0) - random.pick(&[300.0, 310.0, 900.0]));
            let last = random.pick(&[stays, 276.0, 281.0]);
            out.push(clock.now, last, false);
            clock.move_to(random.beside(end + 3600.0));
            out.push(clock.now, last, random.one_in(6));
        }
    }
    out.rows.truncate(count);
    out.rows
}

/// Cold and warm runs that begin one step inside a threshold and stay one step inside its band, or
/// fail to, up to the end of their delay.
fn bands(random: &mut Random, rows: Option<usize>) -> Vec<Row> {
    let mut out = Rows::new(random);
    let mut clock = Clock::start(random);
    let count = rows.unwrap_or(random.between(20, 250));
    while out.rows.len() < count {
        let warm = (280.15, 280.15 - 0.25, 300.0);
        let cold = [
            (277.55, 300.0),
            (276.45, 300.0),
            (276.45, 900.0),
            (274.15, 300.0),
        ];
        let (level, delay) = random.pick(&cold);
        for (enter, stay, delay) in [(level, level + 0.25, delay), warm] {
            out.wander(random);
            let inside = |value: f64| {
                if stay > enter {
                    value.next_down()
                } else {
                    value.next_up()
                }
            };
            let first = if random.one_in(4) {
                random.beside(enter)
            } else {
                inside(enter)
            };
            let begin = clock.step(random.range(0.0, 60.0));
            out.push(begin, first, false);
            for _ in 0..random.below(4) {
                clock.move_to(begin + delay * random.range(0.0, 0.999));
                let value = if random.one_in(6) {
                    random.beside(stay)
                } else {
                    inside(stay)
                };
                out.push(clock.now, value, false);
            }
            clock.move_to(begin + delay);
            out.push(clock.now, inside(stay), random.one_in(8));
        }
    }
    out.rows.truncate(count);
    out.rows
}

/// An hour in uneven steps after a start near 0, where the sum of the gaps and the difference of
/// the times part, with recovery on its last row or before it.
fn hour(random: &mut Random, rows: Option<usize>) -> Vec<Row> {
    let mut out = Rows::new(random);
    let begin = random.unit() * random.pick(&[1.0, 30.0, 600.0]);
    out.push(begin, 276.0, false);
    let supply = random.pick(&[276.0, 278.0, 278.0]);
    let last = random.pick(&[281.0, 281.0, 281.0, 276.0]);
    let turns = random.pick(&[300.0, 700.0]);
    let middle = rows.unwrap_or(random.between(6, 60)).saturating_sub(6);
    let times = parted(random, begin + 300.0, 3600.0, middle, &[turns, turns / 2.0]);
    let (held, end) = (times[0], times[times.len() - 1]);
    for time in times {
        out.wander(random);
        let first = if time == held { 276.0 } else { supply };
        out.push(time, if time < end - turns { first } else { last }, false);
    }
    let mut clock = Clock::at(end);
    out.push(clock.step(random.range(0.0, 400.0)), last, false);
    out.push(clock.step(300.0), random.pick(&[276.0, 281.0]), false);
    out.rows
}

/// Hours one after another in uneven steps, from a start near 0. At the end of each it has been
/// cold again for less than 300 s, so that a hold that drops there comes on again soon after. In
/// the first one the sum of the gaps and the difference of the times mostly part: the hold drops
/// before the hour is over, or stands. Now and then rows follow the end by a few steps.
fn hours(random: &mut Random, rows: Option<usize>) -> Vec<Row> {
    let mut out = Rows::new(random);
    let begin = random.unit() * random.pick(&[1.0, 30.0, 600.0]);
    out.push(begin, 276.0, false);
    let count = rows.unwrap_or(random.between(10, 120));
    let mut passed = begin + 300.0;
    while out.rows.len() < count {
        let again = random.pick(&[0.0, 100.0, 299.0, 299.9]);
        let middle = random.between(1, 12);
        let times = parted(random, passed, 3600.0, middle, &[again]);
        let (on, end) = (times[0], times[times.len() - 1]);
        for time in times {
            out.wander(random);
            let cold = time == on || time >= end - again;
            out.push(time, if cold { 276.0 } else { 278.0 }, random.one_in(40));
        }
        let mut time = end;
        for _ in 0..random.pick(&[0, 0, 1, 3]) {
            time = time.next_up();
            out.push(time, random.pick(&[276.0, 276.0, 278.0, 281.0]), false);
        }
        passed = end - again + 300.0;
    }
    out.rows.truncate(count);
    out.rows
}

/// Steps short enough for the heating-coil loops to stay between their limits.
fn fine_step(random: &mut Random, rows: Option<usize>) -> Vec<Row> {
    let mut out = Rows::new(random);
    let mut clock = Clock::start(random);
    let gap = random.pick(&[0.0625, 0.0625, 0.05, 0.1, 0.3]);
    let cold = random.pick(&[273.0, 277.0]);
    out.push(clock.now, cold, false);
    clock.step(300.0);
    if random.one_in(4) {
        // Sums so large that the order of the factors shows.
        out.mixed = -random.range(0.5e306, 3e306);
        out.push(clock.now, out.mixed, false);
        out.mixed = 300.15;
    } else {
        out.push(clock.now, cold, false);
    }
    let (mut supply, mut reset) = (cold, false);
    for _ in 0..rows.unwrap_or(random.between(100, 400)) {
        if random.one_in(20) {
            supply = random.pick(&[cold, 279.15, 279.15, 278.85, 279.35]) + random.range(-0.2, 0.2);
            out.mixed = random.pick(&[300.15, 300.15, 299.75, 300.5]) + random.range(-0.1, 0.1);
            reset = random.one_in(8);
        }
        out.push(clock.step(gap), supply, reset);
        reset = false;
    }
    out.rows
}

/// Steps so long that the loops overflow, with stages 1 and 3 on to show it.
fn overflow(random: &mut Random, rows: Option<usize>) -> Vec<Row> {
    let mut out = Rows::new(random);
    let mut clock = Clock::start(random);
    let gap = random.pick(&[60.0, 60.0, 45.0, 300.0]);
    let mut supply = 273.0;
    for _ in 0..rows.unwrap_or(random.between(170, 400)) {
        if random.one_in(40) {
            supply = random.pick(&[273.0, 277.0, 279.15, 300.15, 303.0]);
        }
        out.wander(random);
        out.push(clock.now, supply, random.one_in(50));
        clock.step(gap);
    }
    out.rows
}

/// Times over the whole range of floats.
fn spans_plan(random: &mut Random, rows: Option<usize>) -> Vec<Row> {
    let mut out = Rows::new(random);
    let mut supply = 276.0;
    let count = rows.unwrap_or(random.between(5, 80));
    for time in spans(random, count) {
        if random.one_in(6) {
            supply = random.pick(&[273.0, 276.0, 277.0, 278.0, 281.0]);
        }
        out.wander(random);
        out.push(time, supply, random.one_in(10));
    }
    out.rows
}

/// Well-formed rows with rising times, a quarter of a second apart.
pub fn clean(random: &mut Random, rows: usize) -> Vec<Row> {
    let mut out = Rows::new(random);
    let (mut supply, mut target) = (281.0, 281.0);
    for index in 0..rows {
        if random.one_in(2000) {
            target = random.pick(&[281.5, 279.2, 279.0, 277.0, 276.0, 273.0]);
        }
        supply += (target - supply) * 0.02 + random.range(-0.05, 0.05);
        out.positions[index % 7] = random.unit();
        out.mixed = 300.15 + random.range(-0.3, 0.3);
        out.push(index as f64 * 0.25, supply, random.one_in(5000));
    }
    out.rows
}
