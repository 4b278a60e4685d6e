//! Three hours of six rooftop units on one board. A unit sends a joined row when it has one, and every five minutes the board serves one of
//! the rows that wait. It is mild outside, and chilled water valves that do not shut make the supply air of units 1, 2 and 3 cold.
//!
//! It is what examples/c/board.c prints, which says what the columns are and what there is to see.

mod woldgrater;

use woldgrater::{Board, LINE_FULL, RooftopCommands, RooftopRow, UNITS};

const STEP: usize = 5;
const END: u32 = 180;

/// A row that a unit sends: the minute at which it does, the unit, the minute that the row is of by the unit's own clock, and the supply
/// air temperature in kelvin.
type Sample = (u32, usize, u32, f64);

const SAMPLES: [Sample; 36] = [
    (0, 0, 0, 285.0),
    (0, 1, 0, 279.0),
    (0, 2, 0, 279.0),
    (5, 3, 5, 277.0),
    (5, 5, 5, 284.0),
    (10, 4, 10, 283.0),
    (15, 1, 15, 276.0),
    (15, 2, 15, 276.0),
    (20, 3, 20, 276.0),
    (25, 1, 25, 276.0),
    (25, 2, 25, 276.0),
    (30, 0, 30, 285.0),
    (30, 3, 30, 275.5),
    (40, 6, 40, 285.0),
    (40, 3, 40, 275.0),
    (55, 1, 55, 278.0),
    (55, 2, 55, 278.0),
    (60, 0, 60, 284.0),
    (65, 5, 65, 284.0),
    (70, 3, 70, 276.0),
    (90, 1, 90, 278.0),
    (90, 2, 90, 278.0),
    (90, 5, 30, 284.0),
    (90, 0, 90, 284.0),
    (110, 4, 70, 283.0),
    (110, 4, 80, 283.0),
    (110, 4, 90, 283.0),
    (110, 4, 100, 284.0),
    (110, 4, 110, 284.0),
    (115, 5, 115, 284.0),
    (120, 0, 120, 285.0),
    (125, 1, 125, 281.0),
    (125, 2, 125, 281.0),
    (140, 3, 140, 279.0),
    (140, 1, 140, 281.0),
    (140, 2, 140, 281.0),
];

/// Units 1 and 5 are started so that stage 2 keeps to its hour.
const KEEPS_HOUR: [u64; UNITS] = [0, 1, 0, 0, 0, 1];

/// Each unit's own weather, in kelvin, and how far its economizer is asked to cool.
const OUTDOOR: [f64; UNITS] = [295.0, 294.5, 294.5, 298.0, 297.0, 296.0];
const COOLING: [f64; UNITS] = [-0.1, -0.05, -0.05, 0.1, -0.15, 0.05];

/// The row of a sample. A unit that there is not has the weather of unit 0.
fn row_of((_, unit, clock, supply_air_temperature): Sample) -> RooftopRow {
    let unit = if unit < UNITS { unit } else { 0 };
    RooftopRow {
        time: 60.0 * f64::from(clock),
        supply_fan_status: 1,
        outdoor_airflow_normalized: if clock < 30 { 0.29995 } else { 0.3 },
        minimum_outdoor_airflow_setpoint_normalized: 0.3,
        supply_temperature_signal: COOLING[unit],
        outdoor_air_temperature: OUTDOOR[unit],
        operation_mode: 1,
        heating_coil: 0.31,
        minimum_outdoor_damper: 0.17,
        supply_air_temperature,
        software_reset: 0,
        supply_fan_speed: 0.58,
        cooling_coil: 0.0,
        mixed_air_temperature: 283.0,
        pressure: 0.0,
        alarm: [0; 4],
        proof: [0; 4],
    }
}

/// Offers the rows that have come by this minute, and gives what is printed of it, what a row is turned away with
/// behind its unit. A row that finds its line full is kept, and the later rows of its unit with it: to be taken after
/// them would make its time fall. A row for no unit is not offered again.
fn offer_all(board: &mut Board, minute: u32, kept: &mut Vec<Sample>) -> String {
    let mut said = String::new();
    let mut full = Vec::new();
    kept.retain(|&sample| {
        let (comes, unit, ..) = sample;
        if comes > minute || full.contains(&unit) {
            return true;
        }
        let status = board.offer(unit, row_of(sample)).err();
        said += &format!(" {unit}");
        if let Some(status) = status {
            said += &format!(":{status}");
        }
        let is_full = status == Some(LINE_FULL);
        if is_full {
            full.push(unit);
        }
        is_full
    });
    said
}

/// What is printed of a row that was served.
fn served(unit: usize, (_, _, clock, supply): Sample, given: Result<RooftopCommands, u64>) -> String {
    let said = match &given {
        Ok(commands) => {
            let freeze = &commands.freeze;
            format!("{:5}    {:.2}  {:3}", freeze.freeze_protection_stage, freeze.outdoor_damper_command, freeze.supply_fan_status)
        }
        Err(_) => format!("{:>5}    {:>4}  {:>3}", "-", "-", "-"),
    };
    format!("{unit:6}  {clock:6}  {supply:5.1} K  {said}  {:6}", given.err().unwrap_or(0))
}

fn main() {
    let mut board = Board::start(&KEEPS_HOUR);
    let mut kept = SAMPLES.to_vec();
    // A unit's rows are served in the order in which they came.
    let mut sent: Vec<_> = (0..UNITS).map(|unit| SAMPLES.into_iter().filter(move |sample| sample.1 == unit)).collect();
    println!("minute  offered         served  row of   supply  stage  damper  fan  status  waiting");
    for minute in (0..END).step_by(STEP) {
        let offered = offer_all(&mut board, minute, &mut kept);
        let said = match board.tick() {
            Some((unit, given)) => sent[unit].next().map(|sample| served(unit, sample, given)).unwrap_or_default(),
            None => format!("{:>6}{:46}", "-", ""),
        };
        let waiting: String = board.counts.iter().map(|count| format!(" {count}")).collect();
        println!("{minute:6} {offered:17}{said}  {waiting}");
    }
}
