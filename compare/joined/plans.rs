//! Lists of joined rows from a seed: plans that reach what is counted, and odd rows put between their rows.

use super::row::{NUMBERS, Row};
use crate::clock::{Clock, spans};
use crate::mean::Mean;
use crate::random::{Random, marks};

const PLANS: [fn(&mut Random) -> Vec<Row>; 12] =
    [winter, ladder, pulses, edges, fine, fill, winter, pulses, ladder, overflow, fine, spans_plan];

/// The fans in the order in which they start, by weight.
const ORDER: [usize; 4] = [2, 0, 1, 3];

const DELAYS: [f64; 9] = [2.0, 15.0, 180.0, 300.0, 300.0, 420.0, 600.0, 900.0, 3600.0];

const RUNS: [(f64, f64); 5] = [(273.0, 300.0), (276.0, 900.0), (276.0, 300.0), (277.0, 300.0), (281.0, 300.0)];

/// The list of a seed.
pub fn list(seed: u64) -> Vec<Row> {
    let mut random = Random::new(seed ^ u64::from_be_bytes(*b"\0\0joined"));
    let plan = PLANS[(seed % PLANS.len() as u64) as usize];
    let rows = plan(&mut random);
    with_odd_rows(&mut random, &rows)
}

/// `count` rows that are all accepted, so many seconds apart.
pub fn clean(count: usize, gap: f64) -> Vec<Row> {
    let mut random = Random::new(0);
    let mut list = List::new(Clock::at(0.0));
    let (mut supply, mut target, mut level) = (281.0, 281.0, 12.0);
    for _ in 0..count {
        if random.one_in(400) {
            target = random.pick(&[281.5, 281.5, 279.0, 277.0, 276.0, 273.0]);
        }
        if random.one_in(60) {
            level = random.pick(&[18.0, 22.0, 15.5, 12.0, 11.0]);
            list.prove(random.below(5));
        }
        supply += (target - supply) * 0.1 + random.range(-0.05, 0.05);
        list.row.supply_air_temperature = supply;
        list.row.pressure = level + random.range(-1.0, 1.0);
        list.row.supply_temperature_signal = random.range(-0.4, 0.4);
        list.row.outdoor_airflow_normalized = random.unit();
        list.row.software_reset = random.one_in(300);
        list.push();
        list.clock.step(gap);
    }
    list.rows
}

struct List {
    rows: Vec<Row>,
    row: Row,
    clock: Clock,
}

impl List {
    fn new(clock: Clock) -> Self {
        let row = Row {
            supply_fan_status: true,
            minimum_outdoor_airflow_setpoint_normalized: 0.2,
            supply_temperature_signal: 0.5,
            outdoor_air_temperature: 295.0,
            operation_mode: 1,
            heating_coil: 0.31,
            minimum_outdoor_damper: 0.17,
            supply_air_temperature: 279.0,
            supply_fan_speed: 0.58,
            cooling_coil: 0.44,
            mixed_air_temperature: 300.15,
            pressure: 12.0,
            ..Row::default()
        };
        Self { rows: Vec::new(), row, clock }
    }

    /// The row as it is now.
    fn push(&mut self) {
        self.row.time = self.clock.now;
        self.rows.push(self.row);
    }

    fn push_at(&mut self, time: f64) {
        self.clock.move_to(time);
        self.push();
    }

    /// Proofs of the first `count` fans, as if the commands had been followed.
    fn prove(&mut self, count: usize) {
        self.row.proof = [false; 4];
        for fan in &ORDER[..count] {
            self.row.proof[*fan] = true;
        }
    }

    /// What no stage and no pulse hangs on, and now and then the fan.
    fn wander(&mut self, random: &mut Random) {
        let row = &mut self.row;
        match random.below(12) {
            0 => {
                let setpoints = [0.2, 0.8, 0.0, 1.0, random.unit()];
                row.minimum_outdoor_airflow_setpoint_normalized = random.pick(&setpoints);
            }
            1 => {
                let airflows = [0.0, 0.5, random.unit()];
                row.outdoor_airflow_normalized = random.pick(&airflows);
            }
            2..=4 => {
                let signals = [-0.5, -0.25, -0.125, 0.0, 0.125, 0.25, 0.5, random.range(-0.4, 0.4)];
                row.supply_temperature_signal = random.pick(&signals);
            }
            5 => {
                let temperatures = [295.0, 295.0, 295.0, 300.0, 293.0, random.beside(294.15), random.beside(293.15)];
                row.outdoor_air_temperature = random.pick(&temperatures);
            }
            6 => row.operation_mode = random.pick(&[1, 1, 1, 1, 0, 2, -1, i64::MIN, i64::MAX, (1 << 32) + 1]),
            7 => {
                let temperatures = [300.15, 299.75, 300.5, random.beside(300.15)];
                row.mixed_air_temperature = random.pick(&temperatures);
            }
            8 => {
                let positions = [random.unit(), random.unit(), 0.0, 1.0, -0.0, 1.5, -2.0];
                *random.pick(&POSITIONS)(row) = random.pick(&positions);
            }
            9 => row.alarm[random.below(4)] = random.pick(&[2, 2, 0, 3, 1, -128, 127]),
            10 if random.one_in(3) => row.alarm = [0; 4],
            11 if random.one_in(3) => row.supply_fan_status = !random.one_in(3),
            _ => {}
        }
    }
}

const POSITIONS: [fn(&mut Row) -> &mut f64; 4] = [
    |row| &mut row.heating_coil,
    |row| &mut row.minimum_outdoor_damper,
    |row| &mut row.supply_fan_speed,
    |row| &mut row.cooling_coil,
];

/// Cold spells and pressure high and low by the quarter hour, with proofs that follow the stages, now and then a reset.
fn winter(random: &mut Random) -> Vec<Row> {
    let mut list = List::new(Clock::start(random));
    let gap = random.pick(&[60.0, 60.0, 30.0, 15.0, 120.0, 20.7]);
    let (mut supply, mut target) = (281.0, 281.0);
    let (mut level, mut proven, mut since) = (12.0, 0, list.clock.now);
    for _ in 0..random.between(100, 250) {
        if random.unit() < gap / 1200.0 {
            target = random.pick(&[281.5, 281.5, 279.0, 277.0, 276.0, 274.5, 273.0, 271.0]);
        }
        if random.unit() < gap / 1800.0 {
            level = random.pick(&[18.0, 22.0, 15.5, 14.0, 12.0, 10.0, 20.0]);
            since = list.clock.now;
        }
        let passed = list.clock.now - since;
        if level > 15.0 && passed > 440.0 && proven < 4 {
            (proven, since) = (proven + 1, list.clock.now);
            list.prove(proven);
        } else if level < 13.0 && passed > 340.0 && proven > 0 {
            (proven, since) = (proven - 1, list.clock.now);
            list.prove(proven);
        }
        supply += (target - supply) * random.range(0.1, 0.6) + random.range(-0.1, 0.1);
        list.row.supply_air_temperature = supply;
        list.row.pressure = level + random.range(-0.3, 0.3);
        list.row.software_reset = random.one_in(60);
        list.wander(random);
        list.push();
        list.clock.step(gap);
    }
    list.rows
}

/// Up and down the stages: a cold or warm run, its delay, often a reset on the row of the rise, often the hour of stage 2.
fn ladder(random: &mut Random) -> Vec<Row> {
    let mut list = List::new(Clock::start(random));
    let count = random.between(20, 200);
    while list.rows.len() < count {
        if random.one_in(3) {
            list.row.pressure = random.pick(&[24.0, 18.0, 12.0, 11.0]);
            list.prove(random.below(5));
        }
        let (supply, delay) = random.pick(&RUNS);
        list.row.supply_air_temperature = supply;
        let begin = list.clock.step(random.range(0.0, 120.0));
        list.push();
        for _ in 0..random.below(4) {
            list.wander(random);
            list.row.software_reset = random.one_in(20);
            list.push_at(begin + delay * random.range(0.0, 0.999));
        }
        list.row.software_reset = random.one_in(3);
        list.push_at(random.beside(begin + delay));
        let end = list.clock.now;
        for _ in 0..random.below(4) {
            list.wander(random);
            list.row.software_reset = random.one_in(4);
            let gap = random.pick(&[0.0, 60.0, 1.0, 15.0]);
            list.push_at(end + gap);
        }
        list.row.software_reset = false;
        if random.one_in(2) {
            hour(random, &mut list, end);
        }
    }
    list.rows.truncate(count);
    list.rows
}

/// The hour of stage 2 that began at a time, with the cold gone for a while or for good.
fn hour(random: &mut Random, list: &mut List, begin: f64) {
    let stays = random.pick(&[278.0, 278.0, 276.0, 281.0]);
    list.row.supply_air_temperature = stays;
    for _ in 0..random.below(4) {
        list.wander(random);
        list.push_at(begin + random.range(0.0, 3500.0));
    }
    list.row.supply_air_temperature = random.pick(&[stays, 276.0, 281.0]);
    list.push_at(random.beside(begin + 3600.0) - random.pick(&[300.0, 310.0, 900.0]));
    list.row.software_reset = random.one_in(6);
    list.push_at(random.beside(begin + 3600.0));
    list.row.software_reset = false;
}

/// Runs with a request up or down whose delay ends on a row or one step beside it, and a proof at the pulse or a
/// little later; in some of them it is cold.
fn pulses(random: &mut Random) -> Vec<Row> {
    let mut list = List::new(Clock::start(random));
    let count = random.between(30, 220);
    let mut proven: usize = random.below(3);
    list.prove(proven);
    while list.rows.len() < count {
        let up = random.one_in(2);
        let (pressure, delay) = if up { (24.0, 420.0) } else { (11.0, 300.0) };
        let moved = if up { (proven + 1).min(4) } else { proven.saturating_sub(1) };
        list.row.pressure = pressure;
        list.row.supply_air_temperature = random.pick(&[279.0, 279.0, 281.0, 277.0, 276.0, 273.0]);
        list.row.software_reset = random.one_in(3);
        // Two rows, so that the mean has followed when the run begins.
        list.clock.step(random.range(0.0, 20.0));
        list.push();
        let begin = list.clock.step(random.pick(&[15.0, 300.0, 301.0]));
        list.push();
        list.row.software_reset = false;
        for _ in 0..random.below(5) {
            list.push_at(begin + delay * random.range(0.0, 0.999));
        }
        let end = random.beside(begin + delay);
        if random.one_in(2) {
            list.prove(random.below(5));
            list.push_at(random.beside(end - 2.0));
        }
        list.push_at(end);
        for _ in 0..random.below(6) {
            let next = list.clock.now + random.pick(&[0.0, 1.0, 2.0, 2.0, 15.0]);
            if random.one_in(2) {
                proven = moved;
                list.prove(proven);
            }
            list.wander(random);
            list.push_at(random.beside(next));
        }
        proven = moved;
        list.prove(proven);
    }
    list.rows.truncate(count);
    list.rows
}

/// Numbers on each threshold and one step beside it, at times on each delay and one step beside it.
fn edges(random: &mut Random) -> Vec<Row> {
    let mut supplies = vec![273.0];
    for level in [274.15, 276.45, 277.55] {
        supplies.extend(marks(&[level, level + 0.25]));
    }
    supplies.extend(marks(&[280.15 - 0.25, 280.15]));
    supplies.push(281.0);
    let outdoors = [294.15, 294.15f64.next_up(), 293.15, 293.15f64.next_down(), 295.0, 295.0];

    let mut list = List::new(Clock::start(random));
    let mut mean = Mean::default();
    let mut place = random.below(supplies.len());
    for _ in 0..random.between(50, 200) {
        list.row.supply_air_temperature = supplies[place];
        list.row.software_reset = random.one_in(12);
        if random.one_in(4) {
            list.row.outdoor_air_temperature = random.pick(&outdoors);
        }
        let target = random.pick(&[0.0, 0.05, 0.1, 0.1 + 0.15, 1.0]);
        let (at_most, at_least) = mean.aim(list.clock.now, target);
        list.row.pressure = random.pick(&[at_most, at_least, 12.0, 24.0]);
        list.wander(random);
        mean.take(list.clock.now, list.row.pressure);
        list.push();
        place = random.walk(place, supplies.len());
        list.clock.edge(random, &DELAYS);
    }
    list.rows
}

/// Steps short enough for the loops to stay between their limits, from a stage on.
fn fine(random: &mut Random) -> Vec<Row> {
    let mut list = List::new(Clock::start(random));
    let gap = random.pick(&[0.0625, 0.05, 0.1, 0.3]);
    let cold = random.pick(&[277.0, 277.0, 276.0, 273.0]);
    list.row.supply_air_temperature = cold;
    list.row.pressure = random.pick(&[12.0, 18.0, 24.0]);
    list.push();
    list.clock.step(300.0);
    list.push();
    for _ in 0..random.between(60, 150) {
        if random.one_in(20) {
            let supplies = [cold, 279.15, 279.15, 278.85, 279.35];
            list.row.supply_air_temperature = random.pick(&supplies) + random.range(-0.2, 0.2);
            list.row.mixed_air_temperature = random.pick(&[300.15, 299.75, 300.5]) + random.range(-0.1, 0.1);
        }
        if random.one_in(6) {
            list.row.minimum_outdoor_airflow_setpoint_normalized = random.pick(&[0.2, 0.3, 0.4]);
            list.row.outdoor_airflow_normalized = random.range(0.0, 0.5);
        }
        list.row.software_reset = random.one_in(40);
        list.wander(random);
        list.clock.step(gap);
        list.push();
    }
    list.rows
}

/// More rows in 300 s than the window holds, and the times at which room comes free again; in some lists it is cold.
fn fill(random: &mut Random) -> Vec<Row> {
    let mut list = List::new(Clock::at(random.pick(&[0.0, 0.0, 0.25, 1000.0, 0.1])));
    let mut mean = Mean::default();
    let gap = random.pick(&[0.5, 0.5, 0.25, 0.1, 0.58]);
    let filling = random.between(508, 530);
    list.row.supply_air_temperature = random.pick(&[279.0, 279.0, 277.0, 273.0]);
    for index in 0..random.between(550, 600) {
        list.wander(random);
        list.row.pressure = random.range(-10.0, 30.0);
        list.push();
        let now = list.clock.now;
        if mean.has_room(now) {
            mean.take(now, list.row.pressure);
        }
        let last = mean.last_time();
        let next = match random.below(if index < filling { 1 } else { 8 }) {
            0 => last + gap,
            1 => last,
            2 => last + random.range(0.0, 3.0),
            3 => last + 300.0 * random.unit(),
            _ => random.beside(mean.second_time() + 300.0).max(last),
        };
        // A refused row's time does not hold the ones after it: the clock may go back to a time that is accepted.
        list.clock = Clock::at(next);
    }
    list.rows
}

/// Numbers so large, and steps so long, that sums, means and loops overflow.
fn overflow(random: &mut Random) -> Vec<Row> {
    let mut list = List::new(Clock::start(random));
    let largest = random.pick(&[1e300, 1e307, f64::MAX]);
    let steady = random.one_in(2);
    list.row.supply_air_temperature = 273.0;
    for _ in 0..random.between(100, 230) {
        list.wander(random);
        if random.one_in(30) {
            list.row.supply_air_temperature = random.pick(&[273.0, 277.0, 279.15, 281.0, 303.0]);
        }
        list.row.software_reset = random.one_in(40);
        let large = random.pick(&[largest, -largest, largest / 300.0, -largest / 2.0]);
        if !steady && random.one_in(6) {
            *random.pick(&NUMBERS[1..]).1(&mut list.row) = large;
        }
        if random.one_in(3) {
            list.prove(random.below(5));
        }
        list.push();
        for (_, number) in &NUMBERS[1..] {
            if random.one_in(4) && number(&mut list.row).abs() > 1e200 {
                *number(&mut list.row) = 0.0;
            }
        }
        match steady {
            true => list.clock.step(60.0),
            false => list.clock.edge(random, &DELAYS),
        };
    }
    list.rows
}

/// Times over the whole range of floats.
fn spans_plan(random: &mut Random) -> Vec<Row> {
    let mut list = List::new(Clock::at(0.0));
    let count = random.between(5, 80);
    for time in spans(random, count) {
        if random.one_in(5) {
            list.row.supply_air_temperature = random.pick(&[273.0, 276.0, 277.0, 278.0, 281.0]);
        }
        let pressures = [18.0, 24.0, 0.0, -0.0, 1e-310, random.range(-20.0, 40.0)];
        list.row.pressure = random.pick(&pressures);
        list.row.software_reset = random.one_in(10);
        if random.one_in(4) {
            list.prove(random.below(5));
        }
        list.wander(random);
        list.push_at(time);
    }
    list.rows
}

/// The rows with odd ones put between, most of them to be refused. Each is a copy of the row that follows it or of a
/// later one, often with numbers far off: one that leaves a trace shows in the rows after it.
fn with_odd_rows(random: &mut Random, rows: &[Row]) -> Vec<Row> {
    let often = random.pick(&[3, 10, 40]);
    let mut list = Vec::new();
    for (index, row) in rows.iter().enumerate() {
        while random.one_in(often) {
            let mut copy = rows[(index + random.below(4)).min(rows.len() - 1)];
            if random.one_in(2) {
                far_off(random, &mut copy);
            }
            let last = rows[index.saturating_sub(1)].time;
            for _ in 0..random.pick(&[1, 1, 1, 2]) {
                make_odd(random, &mut copy, last);
            }
            list.push(copy);
        }
        list.push(*row);
    }
    list
}

fn far_off(random: &mut Random, row: &mut Row) {
    row.supply_air_temperature = random.pick(&[250.0, 310.0]);
    row.pressure = random.pick(&[-500.0, 500.0]);
    row.outdoor_air_temperature = random.pick(&[250.0, 310.0]);
    row.supply_fan_status = !row.supply_fan_status;
    row.software_reset = random.one_in(2);
    row.minimum_outdoor_airflow_setpoint_normalized = 40.0;
    row.proof = row.proof.map(|proof| !proof);
}

fn make_odd(random: &mut Random, row: &mut Row, last: f64) {
    match random.below(8) {
        0..=3 => {
            let infinite = random.pick(&[f64::INFINITY, f64::NEG_INFINITY]);
            let values = [f64::NAN, a_nan(random), infinite, infinite];
            *random.pick(&NUMBERS).1(row) = random.pick(&values);
        }
        4 => row.time = random.pick(&[-0.0, -0.0, -5e-324, -row.time]),
        5 => {
            let times = [last.next_down(), last - random.range(0.0, 1000.0), last / 2.0];
            row.time = random.pick(&times).max(0.0);
        }
        6 => {
            // Just beyond the bounds, far off, and numbers that are 2 or 0 when cut to 8 bits.
            let alarms = [-129, 128, i64::MIN, i64::MAX, 256 + 2, (1 << 32) + 2, -256];
            row.alarm[random.below(4)] = random.pick(&alarms);
        }
        // Accepted, unless the window is full.
        _ => row.time = last,
    }
}

/// A NaN with some payload and sign, quiet or signalling.
fn a_nan(random: &mut Random) -> f64 {
    f64::from_bits(random.bits() | 0x7ff0_0000_0000_0001)
}
