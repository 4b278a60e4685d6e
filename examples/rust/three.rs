//! The three sequences of one air handler side by side on one clock, a row a minute, as examples/c/three.c plays them.
//!
//! A little too little outdoor air comes in, so the economizer opens the outdoor damper from row to row; it is handed the freeze stage of
//! the minute before. Freeze protection is handed the economizer's dampers, and its own commands go out: as it gets colder, stage 1 holds
//! the outdoor damper at its minimum position and stage 2 shuts it. The building's pressure starts relief fans; a fan's proof comes a
//! minute after its command. At the end stand the stage and the latches of freeze protection at the last row, as a display shows them.

mod woldgrater;

use woldgrater::{Econ, EconRow, Freeze, FreezeRow, Relief, ReliefRow};

const ROWS: u32 = 20;

fn freeze_sample(time: f64, colder: f64, outdoor_damper: f64, return_damper: f64) -> FreezeRow {
    FreezeRow {
        time,
        outdoor_damper_min_position: 0.2,
        outdoor_damper,
        heating_coil: 0.31,
        minimum_outdoor_damper: 0.17,
        return_damper,
        supply_air_temperature: 279.0 - colder,
        software_reset: 0,
        supply_fan_status: 1,
        supply_fan_speed: 0.58,
        cooling_coil: 0.0,
        mixed_air_temperature: 285.0 - colder,
    }
}

fn econ_sample(time: f64, colder: f64, stage: u64) -> EconRow {
    EconRow {
        time,
        outdoor_airflow_normalized: 0.2999,
        minimum_outdoor_airflow_setpoint_normalized: 0.3,
        supply_temperature_signal: 0.4,
        outdoor_air_temperature: 272.0 - colder,
        supply_fan_status: 1,
        operation_mode: 1,
        freeze_protection_stage: stage as i64,
    }
}

/// A fan is proven on the row after the one that started it. Fan 4 has an alarm of level 3, which shuts nothing.
fn relief_sample(time: f64, fans: [f64; 4]) -> ReliefRow {
    ReliefRow { time, supply: [1, 1], pressure: 18.7, alarm: [0, 0, 0, 3], proof: fans.map(|speed| u64::from(speed > 0.0)) }
}

/// Plays the rows; the status of the first that is refused.
fn play() -> Result<(), u64> {
    let (mut freeze, mut econ, mut relief) = (Freeze::start(), Econ::start(), Relief::start());
    let (mut stage, mut fans) = (0, [0.0; 4]);
    let mut shown = None;
    for n in 0..ROWS {
        let (time, colder) = (60.0 * f64::from(n), 0.25 * f64::from(n));
        let economized = econ.row(econ_sample(time, colder, stage))?;
        let sampled = freeze_sample(time, colder, economized.outdoor_damper_command, economized.return_damper_command);
        shown = Some((freeze.signals(sampled)?, freeze.left(sampled)?));
        let protected = freeze.row(sampled)?;
        stage = protected.freeze_protection_stage;
        let group = relief.row(relief_sample(time, fans))?;
        fans = [group.fan_speed_1, group.fan_speed_2, group.fan_speed_3, group.fan_speed_4];
        print!("{time:4} s  economizer {:.2} {:.2}  ", economized.outdoor_damper_command, economized.return_damper_command);
        print!("stage {stage}  dampers {:.2} {:.2}  ", protected.outdoor_damper_command, protected.return_damper_command);
        let [first, second, third, fourth] = fans;
        println!("pressure {:.2}  fans {first:.2} {second:.2} {third:.2} {fourth:.2}", group.averaged_pressure);
    }
    if let Some((last, left)) = shown {
        println!("last row: stage {}  lat {}  lat1 {}  lat2 {}", last.stage, last.lat_y, last.lat1_y, last.lat2_y);
        println!("stage 3 is called after {:.0} s more: cold for {:.0} s", left.tim3, last.calls.tim3.elapsed);
    }
    let alarms: Vec<String> = (0..4).filter_map(|fan| relief.alarm(fan)).map(|alarm| alarm.to_string()).collect();
    println!("alarms remembered: {}", alarms.join(" "));
    Ok(())
}

fn main() {
    if let Err(status) = play() {
        eprintln!("three: a row is refused: {status}");
        std::process::exit(1);
    }
}
