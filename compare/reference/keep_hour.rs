//! Freeze protection in the start in which stage 2 keeps to its hour (document 02, job 4), a module
//! inside the published one. No Rust is published for this start, so this is a model: it has the
//! whole list of accepted rows before it, and says of each row what is true there, by the sentence
//! above each function. The two loops, which do not hang on the stages, are the published ones;
//! nothing else is.

use std::io::{self, Read, Write};

use super::freeze::Freeze;
use super::{Inputs, PidState, Trace};
use crate::acceptance::Before;
use crate::columns::Columns;
use crate::input::Input;
use crate::lines::{self, Kind};

pub(super) struct KeepHour;

impl Kind for KeepHour {
    type Row = Inputs;
    type Trace = Trace;
    const COLUMNS: usize = Freeze::COLUMNS;

    fn read(columns: &mut Columns) -> Option<Inputs> {
        Freeze::read(columns)
    }

    fn status(before: &mut Before, time: f64, row: &Inputs) -> u8 {
        Freeze::status(before, time, row)
    }

    fn trace(times: &[f64], rows: &[Inputs]) -> Trace {
        let list = List { times, rows };
        list.commands(&list.reading())
    }

    fn write(trace: &Trace, index: usize, out: &mut Vec<u8>) {
        Freeze::write(trace, index, out);
    }
}

/// Answers the lines after the first.
pub fn answer(input: &mut Input<impl Read>, out: &mut impl Write) -> io::Result<()> {
    lines::answer::<KeepHour>(input, out)
}

/// Yes or no at each row.
type Marks = Vec<bool>;

/// What the commands hang on, and what `events` counts.
struct Reading {
    hold: Marks,
    end_of_hour: Marks,
    recovery: Marks,
    stage_1: Marks,
    stage_2: Marks,
    stage_3: Marks,
}

/// The accepted rows and their times.
struct List<'a> {
    times: &'a [f64],
    rows: &'a [Inputs],
}

impl List<'_> {
    fn each(&self, is_so: impl Fn(usize) -> bool) -> Marks {
        (0..self.rows.len()).map(is_so).collect()
    }

    fn supply(&self, row: usize) -> f64 {
        self.rows[row].supply_air_temperature
    }

    /// Cold at a level: of the rows from here back that are below the level + 0.25 without a break,
    /// one is below the level itself.
    fn cold(&self, level: f64) -> Marks {
        self.each(|here| {
            back(here, |row| self.supply(row) < level + 0.25).any(|row| self.supply(row) < level)
        })
    }

    /// Warm: of the rows from here back that are above 280.15 - 0.25 without a break, one is above
    /// 280.15.
    fn warm(&self) -> Marks {
        self.each(|here| {
            back(here, |row| self.supply(row) > 280.15 - 0.25).any(|row| self.supply(row) > 280.15)
        })
    }

    /// Passed: `u` has been true without a break since some row, its first, and one of the rows after
    /// that up to here is so many seconds or more later.
    fn passed(&self, u: &[bool], seconds: f64) -> Marks {
        let apart = |start, row| self.times[row] - self.times[start] >= seconds;
        self.each(|here| {
            let start = back(here, |row| u[row]).last();
            start.is_some_and(|start| (start + 1..=here).any(|row| apart(start, row)))
        })
    }

    /// The hold begins with row 0's input. From there, and again from each row where it turns, the
    /// gaps between neighbouring rows are summed in turn; it turns at the next row that has the other
    /// input and by which the sum is 3600 or more, if it is on, or 0 or more, if it is off.
    fn hold(&self, input: &[bool]) -> Marks {
        let mut hold = Marks::new();
        while hold.len() < input.len() {
            let from = hold.len();
            let required = if input[from] { 3600.0 } else { 0.0 };
            let mut gaps = 0.0;
            let change = (from + 1..input.len()).find(|&row| {
                gaps += self.times[row] - self.times[row - 1];
                input[row] != input[from] && gaps >= required
            });
            hold.resize(change.unwrap_or(input.len()), input[from]);
        }
        hold
    }

    /// End of hour: of the rows after the one at which the hold last came on, here is the first that
    /// is 3600 s or more later, by the difference of the two times. The temperature is not asked, nor
    /// what the hold has done since.
    fn end_of_hour(&self, hold: &[bool]) -> Marks {
        let over = |on, row| self.times[row] - self.times[on] >= 3600.0;
        self.each(|here| {
            let nearest = (0..=here).rev().find(|&row| rises(hold, row));
            nearest.is_some_and(|on| (on + 1..=here).find(|&row| over(on, row)) == Some(here))
        })
    }

    /// A latch: going back from here over rows that do not clear it, its call rises at one of them.
    fn latch(&self, call: &[bool], clear: &[bool]) -> Marks {
        self.each(|here| back(here, |row| !clear[row]).any(|row| rises(call, row)))
    }

    fn reading(&self) -> Reading {
        // The hold's input: cold at 276.45, passed 300.
        let cold = self.cold(276.45);
        let hold = self.hold(&self.passed(&cold, 300.0));
        let end_of_hour = self.end_of_hour(&hold);
        // Recovery: warm, passed 300, rises.
        let recovered = self.passed(&self.warm(), 300.0);
        let recovery = self.each(|here| rises(&recovered, here));
        // The stage 1 call: cold at 277.55, passed 300, or an end-of-hour row.
        let cool = self.passed(&self.cold(277.55), 300.0);
        let stage_1_call = self.each(|here| cool[here] || end_of_hour[here]);
        // The stage 3 call: cold at 276.45, passed 900, or cold at 274.15, passed 300.
        let cold_long = self.passed(&cold, 900.0);
        let colder = self.passed(&self.cold(274.15), 300.0);
        let stage_3_call = self.each(|here| cold_long[here] || colder[here]);
        let reset = self.each(|here| self.rows[here].software_reset);
        Reading {
            stage_1: self.latch(&stage_1_call, &recovery),
            stage_2: self.latch(&hold, &end_of_hour),
            stage_3: self.latch(&stage_3_call, &reset),
            hold,
            end_of_hour,
            recovery,
        }
    }

    fn commands(&self, reading: &Reading) -> Trace {
        let (mut loop_1, mut loop_3) = (PidState::default(), PidState::default());
        let mut trace = Trace::default();
        for (here, row) in self.rows.iter().enumerate() {
            let (time, supply) = (self.times[here], row.supply_air_temperature);
            let warmer = supply.max(row.mixed_air_temperature);
            let heat_1 = loop_1.output(279.15, supply);
            let heat_3 = loop_3.output(300.15, warmer);
            loop_1.update(time, 279.15, supply);
            loop_3.update(time, 300.15, warmer);

            let (latch_1, latch_3) = (reading.stage_1[here], reading.stage_3[here]);
            let stage = match (latch_3, reading.stage_2[here], latch_1) {
                (true, _, _) => 3,
                (_, true, _) => 2,
                (_, _, true) => 1,
                _ => 0,
            };
            #[cfg(events)]
            crate::events::keep_hour::see(crate::events::keep_hour::Signals {
                t: time,
                hold: reading.hold[here],
                end_of_hour: reading.end_of_hour[here],
                recovery: reading.recovery[here],
                stage,
            });
            trace.freeze_protection_stage.push(stage);
            trace.chilled_water_pump_enable.push(stage == 3);
            trace.return_damper_command.push(match stage {
                3 => 0.0,
                2 => 1.0,
                _ => row.return_damper,
            });
            trace.outdoor_damper_command.push(match stage {
                3 | 2 => 0.0,
                1 => row.outdoor_damper_min_position,
                _ => row.outdoor_damper,
            });
            trace.minimum_outdoor_damper_command.push(match stage {
                3 | 2 => 0.0,
                _ => row.minimum_outdoor_damper,
            });
            trace
                .supply_fan_status
                .push(stage != 3 && row.supply_fan_status);
            trace.supply_fan_speed.push(match stage {
                3 => 0.0,
                _ => row.supply_fan_speed,
            });
            trace.cooling_coil_command.push(match stage {
                3 => 1.0,
                _ => row.cooling_coil,
            });
            // Stage 1 heats below stage 2 too, if its latch is on.
            trace.heating_coil_command.push(match (latch_3, latch_1) {
                (true, _) => heat_3,
                (_, true) => heat_1,
                _ => row.heating_coil,
            });
            let heats = latch_1 || latch_3;
            trace
                .hot_water_plant_request
                .push(if heats { 2 } else { 0 });
            trace.alarm_level.push(match stage {
                3 => 2,
                2 => 3,
                _ => 0,
            });
        }
        trace
    }
}

/// The rows from here back, as far as all of them are such.
fn back(here: usize, such: impl Fn(usize) -> bool) -> impl Iterator<Item = usize> {
    (0..=here).rev().take_while(move |&row| such(row))
}

/// Rises: true here, and this is row 0 or the row before is false.
fn rises(u: &[bool], here: usize) -> bool {
    u[here] && (here == 0 || !u[here - 1])
}
