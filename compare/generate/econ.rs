//! Plans of economizer row files.

use crate::cells::{Cell::*, Row};
use crate::clock::{Clock, parted, spans};
use crate::random::{Random, marks};

pub const PLANS: &[fn(&mut Random, Option<usize>) -> Vec<Row>] = &[
    season, edges, ladder, ladder, uneven, fine_step, overflow, spans_plan,
];

const DELAYS: [f64; 3] = [15.0, 180.0, 600.0];

struct Rows {
    rows: Vec<Row>,
    flow: f64,
    setpoint: f64,
    signal: f64,
    fan: bool,
    mode: i64,
    stage: i64,
}

impl Rows {
    fn new(random: &mut Random) -> Self {
        Self {
            rows: Vec::new(),
            flow: 0.0,
            setpoint: random.range(0.0, 0.6),
            signal: 0.1,
            fan: !random.one_in(4),
            mode: if random.one_in(6) { 0 } else { 1 },
            stage: if random.one_in(6) { 2 } else { 0 },
        }
    }

    fn wander(&mut self, random: &mut Random) {
        match random.below(12) {
            0 => self.flow = random.unit(),
            1 => self.setpoint = random.unit(),
            2 => {
                let limits = marks(&[-0.25, 0.25]);
                let values = [
                    random.range(-0.5, 0.5),
                    random.pick(&limits),
                    0.0,
                    -0.0,
                    5e-324,
                    -1.0,
                ];
                self.signal = random.pick(&values);
            }
            3 if random.one_in(3) => self.fan = !self.fan,
            4 if random.one_in(2) => self.mode = random.pick(&[1, 1, 1, 0, 2, 7]),
            5 if random.one_in(3) => self.stage = random.pick(&[0, 0, 1, 2, 3]),
            _ => {}
        }
        if !self.fan && random.one_in(10) {
            self.fan = true;
        }
        if self.stage != 0 && random.one_in(10) {
            self.stage = 0;
        }
    }

    fn push(&mut self, time: f64, outdoor: f64) {
        self.rows.push(vec![
            Float(time),
            Float(self.flow),
            Float(self.setpoint),
            Float(self.signal),
            Float(outdoor),
            Flag(self.fan),
            Signed(self.mode),
            Signed(self.stage),
        ]);
    }
}

/// Outdoor air that drifts about the cutoff.
fn season(random: &mut Random, rows: Option<usize>) -> Vec<Row> {
    let mut out = Rows::new(random);
    let mut clock = Clock::start(random);
    let gap = random.pick(&[60.0, 30.0, 5.0, 2.0, 0.7]);
    let mut outdoor = random.range(288.0, 299.0);
    for _ in 0..rows.unwrap_or(random.between(100, 600)) {
        outdoor += random.range(-0.4, 0.4) + (294.0 - outdoor) * 0.02;
        out.wander(random);
        out.push(clock.now, outdoor);
        clock.step(gap);
    }
    out.rows
}

/// Outdoor air with a difference at 0, at -1 and one step beside, at times on each delay and one
/// step beside it.
fn edges(random: &mut Random, rows: Option<usize>) -> Vec<Row> {
    let mut outdoors = vec![256.0, 292.0];
    outdoors.extend(marks(&[293.15]));
    outdoors.push(293.5);
    outdoors.extend(marks(&[294.15]));
    outdoors.push(300.0);

    let mut out = Rows::new(random);
    let mut clock = Clock::start(random);
    let mut place = random.below(outdoors.len());
    for _ in 0..rows.unwrap_or(random.between(50, 400)) {
        out.wander(random);
        out.push(clock.now, outdoors[place]);
        place = random.walk(place, outdoors.len());
        clock.edge(random, &DELAYS);
    }
    out.rows
}

/// On for long enough, then off by outdoor air, fan or stage, and both delays after it.
fn ladder(random: &mut Random, rows: Option<usize>) -> Vec<Row> {
    let mut out = Rows::new(random);
    let mut clock = Clock::start(random);
    let count = rows.unwrap_or(random.between(20, 250));
    while out.rows.len() < count {
        (out.fan, out.stage) = (true, 0);
        let warm = random.range(294.2, 299.0);
        let begin = clock.step(random.range(0.0, 100.0));
        out.push(begin, warm);
        for _ in 0..random.below(3) {
            out.wander(random);
            out.push(clock.move_to(begin + random.range(0.0, 599.0)), warm);
        }
        out.push(clock.move_to(random.beside(begin + 600.0)), warm);
        out.push(clock.step(random.pick(&[0.0, 10.0, 600.0])), warm);

        let mut outdoor = warm;
        match random.below(3) {
            0 => outdoor = random.range(285.0, 293.0),
            1 => out.fan = false,
            _ => out.stage = random.pick(&[1, 2, 3, -1]),
        }
        let off = clock.step(random.pick(&[1.0, 60.0, 600.0]));
        out.push(off, outdoor);
        for delay in [15.0, 180.0] {
            for _ in 0..random.below(3) {
                out.push(
                    clock.move_to(off + delay * random.range(0.0, 0.999)),
                    outdoor,
                );
            }
            out.push(clock.move_to(random.beside(off + delay)), outdoor);
        }
    }
    out.rows.truncate(count);
    out.rows
}

/// Uneven steps after a start near 0, where the sum of the gaps and the difference of the times
/// part, to the end of the hold or of a delay.
fn uneven(random: &mut Random, rows: Option<usize>) -> Vec<Row> {
    let mut out = Rows::new(random);
    (out.fan, out.stage) = (true, 0);
    let delay = random.pick(&DELAYS);
    let middle = rows.unwrap_or(random.between(6, 40)).saturating_sub(4);
    let times = parted(random, 0.0, delay, middle, &[]);
    let mut outdoor = 297.0;
    if delay == 600.0 {
        // The hold waits from row 0.
        outdoor = random.pick(&[290.0, 297.0]);
        out.push(times[0], outdoor);
        outdoor = 587.0 - outdoor;
    } else {
        // The delay waits from row 1, the first that is not enabled.
        out.push(0.0, outdoor);
        out.stage = 1;
        out.push(times[0], outdoor);
    }
    for &time in &times[1..] {
        out.push(time, outdoor);
    }
    let mut clock = Clock::at(times[times.len() - 1]);
    for delay in [15.0, 180.0] {
        let end = clock.now + delay;
        out.push(clock.move_to(random.beside(end)), outdoor);
    }
    out.rows
}

/// Steps short enough for the airflow loop to stay between its limits.
fn fine_step(random: &mut Random, rows: Option<usize>) -> Vec<Row> {
    let mut out = Rows::new(random);
    let mut clock = Clock::start(random);
    let gap = random.pick(&[0.0625, 0.05, 0.1, 0.3]);
    let outdoor = random.pick(&[290.0, 297.0]);
    if random.one_in(4) {
        // Sums so large that the order of the factors shows.
        out.push(clock.now, outdoor);
        let setpoint = out.setpoint;
        out.setpoint = random.range(-3e306, 3e306);
        out.push(clock.step(300.0), outdoor);
        out.setpoint = setpoint;
    }
    for _ in 0..rows.unwrap_or(random.between(100, 400)) {
        out.wander(random);
        if random.one_in(10) {
            out.flow = out.setpoint + random.range(-0.2, 0.2);
        }
        out.push(clock.step(gap), outdoor);
    }
    out.rows
}

/// Steps so long that the loop overflows.
fn overflow(random: &mut Random, rows: Option<usize>) -> Vec<Row> {
    let mut out = Rows::new(random);
    out.fan = random.one_in(2);
    let mut clock = Clock::start(random);
    for _ in 0..rows.unwrap_or(random.between(170, 400)) {
        let fan = out.fan;
        out.wander(random);
        if !random.one_in(100) {
            out.fan = fan;
        }
        out.push(clock.now, random.range(292.0, 296.0));
        clock.step(60.0);
    }
    out.rows
}

/// Times over the whole range of floats.
fn spans_plan(random: &mut Random, rows: Option<usize>) -> Vec<Row> {
    let mut out = Rows::new(random);
    let count = rows.unwrap_or(random.between(5, 80));
    for time in spans(random, count) {
        out.wander(random);
        out.push(time, random.pick(&[290.0, 293.5, 297.0]));
    }
    out.rows
}

/// Well-formed rows with rising times, a quarter of a second apart.
pub fn clean(random: &mut Random, rows: usize) -> Vec<Row> {
    let mut out = Rows::new(random);
    let mut outdoor = 294.0;
    for index in 0..rows {
        outdoor += random.range(-0.05, 0.05) + (294.0 - outdoor) * 0.001;
        out.flow = random.range(0.1, 0.4);
        out.setpoint = random.range(0.2, 0.3);
        out.signal = random.range(-0.4, 0.4);
        out.fan = out.fan != random.one_in(3000);
        out.mode = if random.one_in(50) { 0 } else { 1 };
        out.stage = if random.one_in(3000) { 1 } else { 0 };
        out.push(index as f64 * 0.25, outdoor);
    }
    out.rows
}
