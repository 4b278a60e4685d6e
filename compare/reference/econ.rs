//! Rows and answers of the economizer, a module inside the published one.

use std::io::{self, Read, Write};

use super::{
    ControllerTrace, HysteresisState, Row, TrueDelayState, TrueFalseHoldState, economizer_controller_trace, input_trace,
    time_grid,
};
use crate::acceptance::Before;
use crate::columns::{Columns, put_flag, put_float, put_signed};
use crate::input::Input;
#[cfg(any(calls, test))]
use crate::joined::row as joined;
use crate::lines::{self, Kind};
use crate::marks;
#[cfg(calls)]
use crate::woldgrater as library;

struct Econ;

impl Kind for Econ {
    type Row = Row;
    type Trace = ControllerTrace;
    const COLUMNS: usize = 8;

    fn read(columns: &mut Columns) -> Option<Row> {
        Some(Row {
            outdoor_airflow_normalized: columns.float()?,
            minimum_outdoor_airflow_setpoint_normalized: columns.float()?,
            supply_temperature_signal: columns.float()?,
            outdoor_air_temperature: columns.float()?,
            supply_fan_status: columns.flag()?,
            operation_mode: columns.signed()?,
            freeze_protection_stage: columns.signed()?,
        })
    }

    fn status(before: &mut Before, time: f64, row: &Row) -> u8 {
        let finite = row.outdoor_airflow_normalized.is_finite()
            && row.minimum_outdoor_airflow_setpoint_normalized.is_finite()
            && row.supply_temperature_signal.is_finite()
            && row.outdoor_air_temperature.is_finite();
        before.status(time, finite)
    }

    fn trace(times: &[f64], rows: &[Row]) -> ControllerTrace {
        economizer_controller_trace(times, rows)
    }

    fn write(trace: &ControllerTrace, index: usize, out: &mut Vec<u8>) {
        put_float(out, trace.outdoor_damper_min_limit[index]);
        put_flag(out, trace.minimum_outdoor_air_loop_enabled[index]);
        put_float(out, trace.outdoor_damper_command[index]);
        put_float(out, trace.return_damper_command[index]);
    }
}

#[cfg(calls)]
impl crate::calls::Called for Econ {
    type Sample = library::EconRow;
    type Sequence = library::Econ;
    type Commands = library::EconCommands;

    fn sample(time: f64, row: &Row) -> library::EconRow {
        library::EconRow {
            time,
            outdoor_airflow_normalized: row.outdoor_airflow_normalized,
            minimum_outdoor_airflow_setpoint_normalized: row.minimum_outdoor_airflow_setpoint_normalized,
            supply_temperature_signal: row.supply_temperature_signal,
            outdoor_air_temperature: row.outdoor_air_temperature,
            supply_fan_status: row.supply_fan_status.into(),
            operation_mode: row.operation_mode,
            freeze_protection_stage: row.freeze_protection_stage,
        }
    }

    fn start() -> library::Econ {
        library::Econ::start()
    }

    fn call(sequence: &mut library::Econ, sample: library::EconRow) -> Result<library::EconCommands, u64> {
        sequence.row(sample)
    }

    fn put(commands: &library::EconCommands, out: &mut Vec<u8>) {
        put_float(out, commands.outdoor_damper_min_limit);
        put_flag(out, commands.minimum_outdoor_air_loop_enabled != 0);
        put_float(out, commands.outdoor_damper_command);
        put_float(out, commands.return_damper_command);
    }
}

/// The accepted joined rows, as this sequence takes them.
#[cfg(any(calls, test))]
#[derive(Default)]
pub struct Wired {
    times: Vec<f64>,
    rows: Vec<Row>,
}

#[cfg(any(calls, test))]
impl Wired {
    pub fn push(&mut self, row: &joined::Row, stage: i64) {
        self.times.push(row.time);
        self.rows.push(Row {
            outdoor_airflow_normalized: row.outdoor_airflow_normalized,
            minimum_outdoor_airflow_setpoint_normalized: row.minimum_outdoor_airflow_setpoint_normalized,
            supply_temperature_signal: row.supply_temperature_signal,
            outdoor_air_temperature: row.outdoor_air_temperature,
            supply_fan_status: row.supply_fan_status,
            operation_mode: row.operation_mode,
            freeze_protection_stage: stage,
        });
    }

    pub fn pop(&mut self) {
        self.times.pop();
        self.rows.pop();
    }

    /// What the trace over the whole list has from row `first` on.
    pub fn commands(&self, first: usize) -> Vec<joined::Economizer> {
        let trace = economizer_controller_trace(&self.times, &self.rows);
        let at = |index: usize| joined::Economizer {
            outdoor_damper_min_limit: trace.outdoor_damper_min_limit[index],
            minimum_outdoor_air_loop_enabled: trace.minimum_outdoor_air_loop_enabled[index].into(),
            outdoor_damper_command: trace.outdoor_damper_command[index],
            return_damper_command: trace.return_damper_command[index],
        };
        (first..self.rows.len()).map(at).collect()
    }

    pub fn last(&self) -> joined::Economizer {
        self.commands(self.rows.len() - 1)[0]
    }
}

/// The library's calls beside the published trace function.
#[cfg(calls)]
pub fn measure(input: &mut Input<impl Read>) -> io::Result<String> {
    crate::calls::measure::<Econ>(input)
}

/// Answers the lines after the first.
pub fn answer(input: &mut Input<impl Read>, out: &mut impl Write) -> io::Result<()> {
    lines::answer::<Econ>(input, out)
}

/// The 60 s scenario.
pub fn scenario() -> Vec<u8> {
    let times = time_grid();
    let mut out = b"econ\n".to_vec();
    for (&time, row) in times.iter().zip(input_trace(&times)) {
        put_float(&mut out, time);
        put_float(&mut out, row.outdoor_airflow_normalized);
        put_float(&mut out, row.minimum_outdoor_airflow_setpoint_normalized);
        put_float(&mut out, row.supply_temperature_signal);
        put_float(&mut out, row.outdoor_air_temperature);
        put_flag(&mut out, row.supply_fan_status);
        put_signed(&mut out, row.operation_mode);
        put_signed(&mut out, row.freeze_protection_stage);
        out.push(b'\n');
    }
    out
}

/// Hysteresis, delays and hold on their own.
pub fn blocks() -> String {
    let mut hysteresis = HysteresisState::default();
    let warm = [0.0, 0.5, 0.0, -1.0, -1.25, 0.0].map(|difference| hysteresis.tick(difference));
    let delay = |seconds, rows: &[(f64, bool)]| {
        let mut delay = TrueDelayState::default();
        rows.iter().map(|&(t, u)| delay.tick(t, u, seconds)).collect::<Vec<_>>()
    };
    let mut hold = TrueFalseHoldState::default();
    let held = [(0.3, true), (1.1, false), (600.3, false), (600.4, false)].map(|(t, u)| hold.tick(t, u));
    [
        marks::line("E1 economizer hysteresis, difference 0 0.5 0 -1 -1.25 0", warm),
        marks::line("E2 economizer delay 180 s, true from 0 s, at 0 60", delay(180.0, &[(0.0, true), (60.0, true)])),
        marks::line(
            "E2 economizer delay 15 s, true from 60 s, at 0 60 74 75",
            delay(15.0, &[(0.0, false), (60.0, true), (74.0, true), (75.0, true)]),
        ),
        marks::line(
            "E2 economizer delay 180 s, true from 60 s, at 0 60 239 240",
            delay(180.0, &[(0.0, false), (60.0, true), (239.0, true), (240.0, true)]),
        ),
        marks::line("economizer hold 600 s, true at 0.3 s, false at 1.1 600.3 600.4", held),
    ]
    .concat()
}

#[cfg(test)]
mod tests {
    use super::*;

    #[test]
    #[should_panic(expected = "index out of bounds")]
    fn e4_rows_that_outnumber_times_panic() {
        economizer_controller_trace(&time_grid()[..1], &input_trace(&time_grid()[..2]));
    }

    #[test]
    fn e4_spare_times_are_skipped() {
        let trace = economizer_controller_trace(&time_grid()[..2], &input_trace(&time_grid()[..1]));
        assert_eq!(trace.return_damper_command.len(), 1);
        assert_eq!(trace.outdoor_damper_min_limit.len(), 1);
    }
}
