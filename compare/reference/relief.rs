//! Rows and answers of the relief fan group, a module inside the published one.

use std::io::{self, Read, Write};

use super::{Inputs, TimerState, Trace, TrueDelayState, expected_times, input_rows, relief_fan_group_trace};
use crate::acceptance::Before;
use crate::columns::{Columns, put_flag, put_float, put_signed};
use crate::input::Input;
#[cfg(any(calls, test))]
use crate::joined::row as joined;
use crate::lines::{self, Kind};
use crate::marks;
#[cfg(calls)]
use crate::woldgrater as library;

struct Relief;

impl Kind for Relief {
    type Row = Inputs;
    type Trace = Trace;
    const COLUMNS: usize = 12;

    fn read(columns: &mut Columns) -> Option<Inputs> {
        Some(Inputs {
            supply: [columns.flag()?, columns.flag()?],
            pressure: columns.float()?,
            alarm: [
                columns.signed()?,
                columns.signed()?,
                columns.signed()?,
                columns.signed()?,
            ],
            proof: [
                columns.flag()?,
                columns.flag()?,
                columns.flag()?,
                columns.flag()?,
            ],
        })
    }

    fn status(before: &mut Before, time: f64, row: &Inputs) -> u8 {
        before.relief_status(time, row.pressure.is_finite(), &row.alarm)
    }

    fn trace(times: &[f64], rows: &[Inputs]) -> Trace {
        relief_fan_group_trace(times, rows)
    }

    fn write(trace: &Trace, index: usize, out: &mut Vec<u8>) {
        put_float(out, trace.averaged_pressure[index]);
        for speed in &trace.fan_speed {
            put_float(out, speed[index]);
        }
        for damper in &trace.damper {
            put_float(out, damper[index]);
        }
    }
}

#[cfg(calls)]
impl crate::calls::Called for Relief {
    type Sample = library::ReliefRow;
    type Sequence = library::Relief;
    type Commands = library::ReliefCommands;

    fn sample(time: f64, row: &Inputs) -> library::ReliefRow {
        library::ReliefRow {
            time,
            supply: row.supply.map(u64::from),
            pressure: row.pressure,
            alarm: row.alarm,
            proof: row.proof.map(u64::from),
        }
    }

    fn start() -> library::Relief {
        library::Relief::start()
    }

    fn call(sequence: &mut library::Relief, sample: library::ReliefRow) -> Result<library::ReliefCommands, u64> {
        sequence.row(sample)
    }

    fn put(commands: &library::ReliefCommands, out: &mut Vec<u8>) {
        put_float(out, commands.averaged_pressure);
        put_float(out, commands.fan_speed_1);
        put_float(out, commands.fan_speed_2);
        put_float(out, commands.fan_speed_3);
        put_float(out, commands.fan_speed_4);
        put_float(out, commands.damper_1);
        put_float(out, commands.damper_2);
        put_float(out, commands.damper_3);
        put_float(out, commands.damper_4);
    }
}

/// The accepted joined rows, as this sequence takes them.
#[cfg(any(calls, test))]
#[derive(Default)]
pub struct Wired {
    times: Vec<f64>,
    rows: Vec<Inputs>,
}

#[cfg(any(calls, test))]
impl Wired {
    pub fn push(&mut self, row: &joined::Row, supply: [bool; 2]) {
        self.times.push(row.time);
        self.rows.push(Inputs { supply, pressure: row.pressure, alarm: row.alarm, proof: row.proof });
    }

    /// What the trace over the whole list has from row `first` on.
    pub fn commands(&self, first: usize) -> Vec<joined::Relief> {
        let trace = relief_fan_group_trace(&self.times, &self.rows);
        let each = |outputs: &[Vec<f64>; 4], index: usize| [0, 1, 2, 3].map(|fan| outputs[fan][index]);
        let at = |index: usize| joined::Relief {
            averaged_pressure: trace.averaged_pressure[index],
            fan_speed: each(&trace.fan_speed, index),
            damper: each(&trace.damper, index),
        };
        (first..self.rows.len()).map(at).collect()
    }

    pub fn last(&self) -> joined::Relief {
        self.commands(self.rows.len() - 1)[0]
    }
}

/// The library's calls beside the published trace function.
#[cfg(calls)]
pub fn measure(input: &mut Input<impl Read>) -> io::Result<String> {
    crate::calls::measure::<Relief>(input)
}

/// Answers the lines after the first.
pub fn answer(input: &mut Input<impl Read>, out: &mut impl Write) -> io::Result<()> {
    lines::answer::<Relief>(input, out)
}

/// The 15 s scenario.
pub fn scenario() -> Vec<u8> {
    let times = expected_times();
    let mut out = b"relief\n".to_vec();
    for (&time, row) in times.iter().zip(input_rows(&times)) {
        put_float(&mut out, time);
        for status in row.supply {
            put_flag(&mut out, status);
        }
        put_float(&mut out, row.pressure);
        for alarm in row.alarm {
            put_signed(&mut out, alarm);
        }
        for proof in row.proof {
            put_flag(&mut out, proof);
        }
        out.push(b'\n');
    }
    out
}

/// Delay and timer on their own.
pub fn blocks() -> String {
    let mut delay = TrueDelayState::new(2.0);
    let delayed = [0.0, 1.0, 2.0].map(|t| {
        let y = delay.output(t, true);
        delay.update(t, true);
        y
    });
    let mut timer = TimerState::new(300.0);
    let passed = [0.0, 299.0, 300.0, 200.0].map(|t| {
        let y = timer.output(t, true).passed;
        timer.update(t, true);
        y
    });
    [
        marks::line("R4 relief delay 2 s, true from 0 s, at 0 1 2", delayed),
        marks::line("relief timer 300 s, true from 0 s, at 0 299 300 200", passed),
    ]
    .concat()
}

#[cfg(test)]
mod tests {
    use super::super::TrueDelayState;

    #[test]
    fn r4_a_delay_waits_on_row_0_too() {
        let mut delay = TrueDelayState::new(2.0);
        assert!(!delay.output(0.0, true));
        delay.update(0.0, true);
        assert!(!delay.output(2.0f64.next_down(), true));
        assert!(delay.output(2.0, true));
    }
}
