//! Freeze protection a row at a time: prints the stage and the outdoor damper's command at each sample, from either start, as
//! examples/c/freeze.c does.
//!
//! It is case F5 of the tests. As published, stage 2 stands although it is mild again; where it keeps to its hour, stage 1 follows at
//! 3900 s. A sample whose time falls is refused and changes nothing.

mod woldgrater;

use woldgrater::{Freeze, FreezeRow};

/// Time in seconds and supply air temperature in kelvin of each sample; at the third the time falls.
const SAMPLES: [(f64, f64); 5] = [(0.0, 276.0), (300.0, 276.0), (240.0, 290.0), (360.0, 278.0), (3900.0, 278.0)];

/// The row of a sample: the fan runs, and the rest stands still.
fn row_of(time: f64, supply_air_temperature: f64) -> FreezeRow {
    FreezeRow {
        time,
        outdoor_damper_min_position: 0.2,
        outdoor_damper: 0.62,
        heating_coil: 0.31,
        minimum_outdoor_damper: 0.17,
        return_damper: 0.73,
        supply_air_temperature,
        software_reset: 0,
        supply_fan_status: 1,
        supply_fan_speed: 0.58,
        cooling_coil: 0.44,
        mixed_air_temperature: 300.15,
    }
}

fn play(title: &str, mut freeze: Freeze) {
    println!("{title}");
    for (time, supply) in SAMPLES {
        print!("{time:4.0} s  {supply:.0} K  ");
        match freeze.row(row_of(time, supply)) {
            Ok(commands) => {
                println!("stage {}  outdoor damper {:.2}", commands.freeze_protection_stage, commands.outdoor_damper_command)
            }
            Err(status) => println!("refused: {status}"),
        }
    }
}

fn main() {
    play("as published", Freeze::start());
    play("stage 2 keeps to its hour", Freeze::start_keeping_hour());
}
