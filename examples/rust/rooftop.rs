//! A night of one air handler, a joined row every ten minutes or more: the economizer, freeze protection and the relief fan group as one
//! sequence. It is mild outside, and a chilled water valve that does not shut makes the supply air ever colder.
//!
//! At each row stand the clock, the supply air, the stage, the outdoor and return dampers as the economizer commands them and as freeze
//! protection sends them out, the supply fan, the speed of relief fan 3 and the alarm's level. Stage 1 holds the outdoor damper at its
//! minimum; stage 2 shuts it, keeps to its hour and gives way to stage 1 at 00:20; stage 3 stops the supply fan, whose status the relief
//! fans are handed, so they stop with it. A reset at 06:00 ends stage 3. The economizer is handed the stage a row later: stage 1 comes at
//! 22:50, and at 23:00 its return damper is full open, ten minutes before its outdoor damper goes to the minimum; it modulates again at
//! 06:10.
//!
//! It is what examples/c/rooftop.c prints.

mod woldgrater;

use woldgrater::{Rooftop, RooftopCommands, RooftopRow};

/// Minutes from 22:00 on, the supply air temperature in kelvin, and the operator's reset of each sample.
const SAMPLES: [(u32, f64, u64); 24] = [
    (0, 285.0, 0),
    (10, 281.0, 0),
    (20, 278.5, 0),
    (30, 277.75, 0),
    (40, 277.5, 0),
    (50, 277.25, 0),
    (60, 277.0, 0),
    (70, 276.25, 0),
    (80, 276.25, 0),
    (90, 277.0, 0),
    (120, 277.0, 0),
    (130, 277.0, 0),
    (140, 277.0, 0),
    (150, 276.25, 0),
    (160, 276.0, 0),
    (170, 275.5, 0),
    (180, 275.0, 0),
    (190, 275.0, 0),
    (460, 284.0, 0),
    (470, 285.0, 0),
    (480, 285.0, 1),
    (490, 285.0, 0),
    (500, 285.0, 0),
    (510, 285.0, 0),
];

/// The row of a sample. At first a little too little outdoor air comes in, which raises the outdoor damper's minimum. The building is
/// under pressure while the supply fan runs, and relief fan 3 is proven on the row after the one that started it.
fn row_of((minutes, supply_air_temperature, software_reset): (u32, f64, u64), before: Option<RooftopCommands>) -> RooftopRow {
    let fan = before.is_some_and(|commands| commands.freeze.supply_fan_status != 0);
    let relief = before.is_some_and(|commands| commands.relief.fan_speed_3 > 0.0);
    RooftopRow {
        time: 60.0 * f64::from(minutes),
        supply_fan_status: 1,
        outdoor_airflow_normalized: if minutes < 30 { 0.29995 } else { 0.3 },
        minimum_outdoor_airflow_setpoint_normalized: 0.3,
        supply_temperature_signal: 0.1,
        outdoor_air_temperature: 295.0,
        operation_mode: 1,
        heating_coil: 0.31,
        minimum_outdoor_damper: 0.17,
        supply_air_temperature,
        software_reset,
        supply_fan_speed: 0.58,
        cooling_coil: 0.0,
        mixed_air_temperature: 283.0,
        pressure: if fan { 18.7 } else { 0.0 },
        alarm: [0; 4],
        proof: [0, 0, u64::from(relief), 0],
    }
}

/// Plays the samples; the status of the first row that is refused.
fn play() -> Result<(), u64> {
    let mut rooftop = Rooftop::start_keeping_hour();
    let mut before = None;
    println!("clock    supply  stage  economizer     dampers  fan  relief  alarm");
    for sample in SAMPLES {
        let (minutes, supply, _) = sample;
        let commands = rooftop.row(row_of(sample, before))?;
        let (economizer, freeze) = (commands.economizer, commands.freeze);
        print!("{:02}:{:02}  {supply:6.2} K  {:5}", (22 + minutes / 60) % 24, minutes % 60, freeze.freeze_protection_stage);
        print!("   {:.2} {:.2}", economizer.outdoor_damper_command, economizer.return_damper_command);
        print!("   {:.2} {:.2}", freeze.outdoor_damper_command, freeze.return_damper_command);
        println!("  {:3}    {:.2}  {:5}", freeze.supply_fan_status, commands.relief.fan_speed_3, freeze.alarm_level);
        before = Some(commands);
    }
    Ok(())
}

fn main() {
    if let Err(status) = play() {
        eprintln!("rooftop: a row is refused: {status}");
        std::process::exit(1);
    }
}
