//! Rows and answers of freeze protection, a module inside the published one.

use std::io::{self, Read, Write};

use super::{
    Inputs, PidState, ThresholdState, TimerState, Trace, expected_times, fine_step, freeze_protection_trace, input_row,
    input_rows,
};
#[cfg(any(calls, test))]
use super::keep_hour;
use crate::acceptance::Before;
use crate::columns::{Columns, put_flag, put_float, put_signed};
use crate::input::Input;
#[cfg(any(calls, test))]
use crate::joined::row as joined;
use crate::lines::{self, Kind};
use crate::marks;
#[cfg(calls)]
use crate::woldgrater as library;

pub(super) struct Freeze;

impl Kind for Freeze {
    type Row = Inputs;
    type Trace = Trace;
    const COLUMNS: usize = 12;

    fn read(columns: &mut Columns) -> Option<Inputs> {
        Some(Inputs {
            outdoor_damper_min_position: columns.float()?,
            outdoor_damper: columns.float()?,
            heating_coil: columns.float()?,
            minimum_outdoor_damper: columns.float()?,
            return_damper: columns.float()?,
            supply_air_temperature: columns.float()?,
            software_reset: columns.flag()?,
            supply_fan_status: columns.flag()?,
            supply_fan_speed: columns.float()?,
            cooling_coil: columns.float()?,
            mixed_air_temperature: columns.float()?,
        })
    }

    fn status(before: &mut Before, time: f64, row: &Inputs) -> u8 {
        let finite = row.outdoor_damper_min_position.is_finite()
            && row.outdoor_damper.is_finite()
            && row.heating_coil.is_finite()
            && row.minimum_outdoor_damper.is_finite()
            && row.return_damper.is_finite()
            && row.supply_air_temperature.is_finite()
            && row.supply_fan_speed.is_finite()
            && row.cooling_coil.is_finite()
            && row.mixed_air_temperature.is_finite();
        before.status(time, finite)
    }

    fn trace(times: &[f64], rows: &[Inputs]) -> Trace {
        freeze_protection_trace(times, rows)
    }

    fn write(trace: &Trace, index: usize, out: &mut Vec<u8>) {
        put_signed(out, trace.freeze_protection_stage[index]);
        put_flag(out, trace.chilled_water_pump_enable[index]);
        put_float(out, trace.return_damper_command[index]);
        put_float(out, trace.outdoor_damper_command[index]);
        put_float(out, trace.minimum_outdoor_damper_command[index]);
        put_flag(out, trace.supply_fan_status[index]);
        put_float(out, trace.supply_fan_speed[index]);
        put_float(out, trace.cooling_coil_command[index]);
        put_float(out, trace.heating_coil_command[index]);
        put_signed(out, trace.hot_water_plant_request[index]);
        put_signed(out, trace.alarm_level[index]);
    }
}

#[cfg(calls)]
impl crate::calls::Called for Freeze {
    type Sample = library::FreezeRow;
    type Sequence = library::Freeze;
    type Commands = library::FreezeCommands;

    fn sample(time: f64, row: &Inputs) -> library::FreezeRow {
        library::FreezeRow {
            time,
            outdoor_damper_min_position: row.outdoor_damper_min_position,
            outdoor_damper: row.outdoor_damper,
            heating_coil: row.heating_coil,
            minimum_outdoor_damper: row.minimum_outdoor_damper,
            return_damper: row.return_damper,
            supply_air_temperature: row.supply_air_temperature,
            software_reset: row.software_reset.into(),
            supply_fan_status: row.supply_fan_status.into(),
            supply_fan_speed: row.supply_fan_speed,
            cooling_coil: row.cooling_coil,
            mixed_air_temperature: row.mixed_air_temperature,
        }
    }

    fn start() -> library::Freeze {
        library::Freeze::start()
    }

    fn call(sequence: &mut library::Freeze, sample: library::FreezeRow) -> Result<library::FreezeCommands, u64> {
        sequence.row(sample)
    }

    fn put(commands: &library::FreezeCommands, out: &mut Vec<u8>) {
        put_signed(out, commands.freeze_protection_stage as i64);
        put_flag(out, commands.chilled_water_pump_enable != 0);
        put_float(out, commands.return_damper_command);
        put_float(out, commands.outdoor_damper_command);
        put_float(out, commands.minimum_outdoor_damper_command);
        put_flag(out, commands.supply_fan_status != 0);
        put_float(out, commands.supply_fan_speed);
        put_float(out, commands.cooling_coil_command);
        put_float(out, commands.heating_coil_command);
        put_signed(out, commands.hot_water_plant_request as i64);
        put_signed(out, commands.alarm_level as i64);
    }
}

/// The accepted joined rows, as this sequence takes them, in either start.
#[cfg(any(calls, test))]
pub struct Wired {
    keeps_hour: bool,
    times: Vec<f64>,
    rows: Vec<Inputs>,
}

#[cfg(any(calls, test))]
impl Wired {
    pub fn start(keeps_hour: bool) -> Self {
        Self { keeps_hour, times: Vec::new(), rows: Vec::new() }
    }

    pub fn push(&mut self, row: &joined::Row, economizer: &joined::Economizer) {
        self.times.push(row.time);
        self.rows.push(Inputs {
            outdoor_damper_min_position: economizer.outdoor_damper_min_limit,
            outdoor_damper: economizer.outdoor_damper_command,
            heating_coil: row.heating_coil,
            minimum_outdoor_damper: row.minimum_outdoor_damper,
            return_damper: economizer.return_damper_command,
            supply_air_temperature: row.supply_air_temperature,
            software_reset: row.software_reset,
            supply_fan_status: row.supply_fan_status,
            supply_fan_speed: row.supply_fan_speed,
            cooling_coil: row.cooling_coil,
            mixed_air_temperature: row.mixed_air_temperature,
        });
    }

    pub fn pop(&mut self) {
        self.times.pop();
        self.rows.pop();
    }

    /// What the trace over the whole list has from row `first` on.
    pub fn commands(&self, first: usize) -> Vec<joined::Freeze> {
        let trace = match self.keeps_hour {
            true => keep_hour::KeepHour::trace(&self.times, &self.rows),
            false => freeze_protection_trace(&self.times, &self.rows),
        };
        let at = |index: usize| joined::Freeze {
            freeze_protection_stage: trace.freeze_protection_stage[index] as u64,
            chilled_water_pump_enable: trace.chilled_water_pump_enable[index].into(),
            return_damper_command: trace.return_damper_command[index],
            outdoor_damper_command: trace.outdoor_damper_command[index],
            minimum_outdoor_damper_command: trace.minimum_outdoor_damper_command[index],
            supply_fan_status: trace.supply_fan_status[index].into(),
            supply_fan_speed: trace.supply_fan_speed[index],
            cooling_coil_command: trace.cooling_coil_command[index],
            heating_coil_command: trace.heating_coil_command[index],
            hot_water_plant_request: trace.hot_water_plant_request[index] as u64,
            alarm_level: trace.alarm_level[index] as u64,
        };
        (first..self.rows.len()).map(at).collect()
    }

    pub fn last(&self) -> joined::Freeze {
        self.commands(self.rows.len() - 1)[0]
    }
}

/// The library's calls beside the published trace function.
#[cfg(calls)]
pub fn measure(input: &mut Input<impl Read>) -> io::Result<String> {
    crate::calls::measure::<Freeze>(input)
}

/// Answers the lines after the first.
pub fn answer(input: &mut Input<impl Read>, out: &mut impl Write) -> io::Result<()> {
    lines::answer::<Freeze>(input, out)
}

/// The 60 s scenario that walks every stage.
pub fn staged_scenario() -> Vec<u8> {
    row_file(&expected_times(), input_row)
}

/// The 1/16 s scenario that resolves the heating-coil loops.
pub fn fine_step_scenario() -> Vec<u8> {
    row_file(&fine_step::expected_times(), fine_step::input_row)
}

fn row_file(times: &[f64], input_row: fn(f64) -> Inputs) -> Vec<u8> {
    let mut out = b"freeze\n".to_vec();
    for (&time, row) in times.iter().zip(input_rows(times, input_row)) {
        put_float(&mut out, time);
        put_float(&mut out, row.outdoor_damper_min_position);
        put_float(&mut out, row.outdoor_damper);
        put_float(&mut out, row.heating_coil);
        put_float(&mut out, row.minimum_outdoor_damper);
        put_float(&mut out, row.return_damper);
        put_float(&mut out, row.supply_air_temperature);
        put_flag(&mut out, row.software_reset);
        put_flag(&mut out, row.supply_fan_status);
        put_float(&mut out, row.supply_fan_speed);
        put_float(&mut out, row.cooling_coil);
        put_float(&mut out, row.mixed_air_temperature);
        out.push(b'\n');
    }
    out
}

/// Threshold, loop and timer on their own.
pub fn blocks() -> String {
    let mut threshold = ThresholdState::less(277.55, 0.25);
    let cold = [277.55, 277.54, 277.79, 277.81, 277.79].map(|supply| {
        let y = threshold.output(supply);
        threshold.update(supply);
        y
    });
    let mut pid = PidState::default();
    let numbers = (0..1000).take_while(|&row| {
        let y = pid.output(279.15, 277.0);
        pid.update(60.0 * f64::from(row), 279.15, 277.0);
        !y.is_nan()
    });
    let loop_line = format!("F7 freeze loop, 277 K against 279.15 K, rows 60 s apart, rows before a NaN: {}\n", numbers.count());
    let mut pid = PidState::default();
    let growth: Vec<f64> = (0..140)
        .map(|row| {
            let before = pid.integral;
            pid.update(60.0 * f64::from(row), 279.15, 277.0);
            pid.integral / before
        })
        .collect();
    let growing = growth[10..].iter().filter(|&&growth| -132.4 < growth && growth < -132.3).count();
    let sum_line = format!("F7 its sum grows 132-fold with alternate signs, rows of 10 to 139: {growing}\n");
    let mut timer = TimerState::new(300.0);
    let passed = [0.0, 299.0, 300.0, 200.0].map(|t| {
        let y = timer.output(t, true).passed;
        timer.update(t, true);
        y
    });
    [
        marks::line("F2 cold at 277.55 K, supply 277.55 277.54 277.79 277.81 277.79", cold),
        loop_line,
        sum_line,
        marks::line("freeze timer 300 s, true from 0 s, at 0 299 300 200", passed),
    ]
    .concat()
}
