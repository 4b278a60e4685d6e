//! Counts events in lists of joined rows, so that a generator that never makes one of them is found out.

use std::fmt::Arguments;

use super::reference::Seen;
use super::row::{Answer, Commands, NUMBERS, Row, status};
use crate::acceptance::{Before, fits_byte};

/// Events by their names, which come in the same order at every row.
#[derive(Default)]
struct Counts {
    events: Vec<(String, u64)>,
    at: usize,
}

impl Counts {
    fn row(&mut self) {
        self.at = 0;
    }

    fn when(&mut self, event: Arguments, happened: bool) {
        if self.at == self.events.len() {
            self.events.push((event.to_string(), 0));
        }
        self.events[self.at].1 += u64::from(happened);
        self.at += 1;
    }

    fn add(&mut self, other: Counts) {
        if self.events.is_empty() {
            self.events = other.events;
        } else if !other.events.is_empty() {
            for (mine, others) in self.events.iter_mut().zip(other.events) {
                mine.1 += others.1;
            }
        }
    }
}

/// The counts of one start, over all rows and over the accepted ones.
#[derive(Default)]
pub struct Tally {
    /// Zeros of the other sign.
    pub signs: u64,
    any: Counts,
    accepted: Counts,
    last: Option<Last>,
    /// Rows refused since the last accepted one.
    refused: usize,
    /// At the last accepted row a stage alone disabled the economizer.
    stopped_by_stage: bool,
}

#[derive(Clone, Copy)]
struct Last {
    row: Row,
    commands: Commands,
    seen: Seen,
}

impl Tally {
    /// Ends a list, and adds another tally.
    pub fn add(&mut self, other: Tally) {
        self.any.add(other.any);
        self.accepted.add(other.accepted);
    }

    pub fn events(&self) -> Vec<(String, u64)> {
        [self.any.events.clone(), self.accepted.events.clone()].concat()
    }

    /// Counts a row before the reference plays it, which answers it so.
    pub fn count(&mut self, before: &Before, row: &Row, answer: &Answer) {
        self.any.row();
        let (any, last) = (&mut self.any, self.last.as_ref());
        refused(|event, happened| any.when(event, happened), before, last, row, status(answer));
        self.any.when(format_args!("refused before any accepted row"), answer.is_err() && self.last.is_none());
        if answer.is_err() {
            self.refused += 1;
        }
    }

    /// Counts an accepted row after the reference has played it.
    pub fn count_accepted(&mut self, row: &Row, commands: &Commands, seen: &Seen) {
        let now = Last { row: *row, commands: *commands, seen: *seen };
        let first = Last { row: Row { time: -1.0, ..*row }, commands: Commands::default(), seen: Seen::default() };
        let last = self.last.unwrap_or(first);
        let had_stopped = self.stopped_by_stage;
        let told = last.commands.freeze.freeze_protection_stage;
        self.stopped_by_stage = seen.enable.hold && row.supply_fan_status && told != 0;
        self.accepted.row();
        let mut count = |event: Arguments, happened| self.accepted.when(event, happened);
        count(format_args!("accepted after a refused one"), self.refused > 0 && self.last.is_some());
        count(format_args!("row at the time of the row before"), last.row.time == row.time);
        stages(&mut count, &last, &now);
        told_stages(&mut count, &last, &now, had_stopped);
        commanded(&mut count, &last, &now);
        economizer(&mut count, &last, &now);
        relief(&mut count, &last, &now);
        (self.last, self.refused) = (Some(now), 0);
    }
}

/// Refusals, each by what is wrong with the row.
fn refused(mut count: impl FnMut(Arguments, bool), before: &Before, last: Option<&Last>, row: &Row, status: u64) {
    let (time, mut row) = (row.time, *row);
    let alone = row.numbers().iter().filter(|number| !number.is_finite()).count() == 1;
    for (name, number) in NUMBERS {
        let value = *number(&mut row);
        count(format_args!("1: {name} alone NaN"), alone && value.is_nan());
        count(format_args!("1: {name} alone infinite"), alone && value.is_infinite());
    }
    let finite = row.is_finite();
    let negative = time.is_sign_negative() && !time.is_nan();
    let falling = last.is_some_and(|last| time < last.row.time);
    let beyond = row.alarm.iter().any(|alarm| !fits_byte(alarm));
    // Whether a row at this time would find the window full.
    let full = before.clone().relief_status(time, true, &[0; 4]) == 4;
    count(format_args!("2: time -0.0"), status == 2 && time == 0.0);
    count(format_args!("2: another negative time"), status == 2 && time != 0.0);
    count(format_args!("2 where no other fits"), status == 2 && !falling && !beyond);
    count(format_args!("3"), status == 3);
    count(format_args!("11: an alarm below -128"), status == 11 && row.alarm.iter().any(|&alarm| alarm < -128));
    count(format_args!("11: an alarm above 127"), status == 11 && row.alarm.iter().any(|&alarm| alarm > 127));
    for fan in 0..4 {
        count(format_args!("11: alarm {}", fan + 1), status == 11 && !fits_byte(&row.alarm[fan]));
    }
    count(format_args!("4"), status == 4);
    count(format_args!("1 where 2 fits too"), !finite && negative);
    count(format_args!("1 where 3 fits too"), !finite && falling && !negative);
    count(format_args!("1 where 11 fits too"), !finite && beyond && !negative && !falling);
    count(format_args!("1 where 4 fits too"), !finite && full);
    count(format_args!("2 where 11 fits too"), status == 2 && beyond);
    count(format_args!("2 where 3 fits too"), status == 2 && falling);
    count(format_args!("3 where 11 fits too"), status == 3 && beyond);
    count(format_args!("11 where 4 fits too"), status == 11 && full);
}

/// Stages begin and end.
fn stages(count: &mut impl FnMut(Arguments, bool), last: &Last, now: &Last) {
    let (before, stage) = (last.commands.freeze.freeze_protection_stage, now.commands.freeze.freeze_protection_stage);
    count(format_args!("stage 0"), stage == 0);
    for reached in 1..=3 {
        count(format_args!("stage {reached} reached"), stage == reached && before != reached);
    }
    let reset = now.row.software_reset;
    count(format_args!("stage 1 ended by recovery"), before == 1 && stage == 0 && now.seen.recovery);
    count(format_args!("stage 2 ended by the end of its hour"), before == 2 && stage < 2 && now.seen.end_of_hour);
    count(format_args!("end of hour, stage 1 follows"), before == 2 && stage == 1 && now.seen.end_of_hour);
    count(format_args!("stage 3 ended by a reset"), before == 3 && stage < 3 && reset);
    count(format_args!("stage 3 back to stage 2"), before == 3 && stage == 2);
    count(format_args!("stage 3 back to stage 1"), before == 3 && stage == 1);
    count(format_args!("a reset that ends nothing"), before < 3 && reset);
}

/// The economizer is told of a stage on the row after it.
fn told_stages(count: &mut impl FnMut(Arguments, bool), last: &Last, now: &Last, had_stopped: bool) {
    let (told, stage) = (last.commands.freeze.freeze_protection_stage, now.commands.freeze.freeze_protection_stage);
    let enable = now.seen.enable;
    let would = enable.hold && now.row.supply_fan_status;
    count(format_args!("economizer enabled"), enable.enabled);
    count(format_args!("economizer disabled"), !enable.enabled);
    count(format_args!("economizer disabled by its hold alone"), !enable.hold && now.row.supply_fan_status && told == 0);
    count(format_args!("economizer disabled by the fan alone"), enable.hold && !now.row.supply_fan_status && told == 0);
    for stage in 1..=3 {
        count(format_args!("economizer disabled by stage {stage} of the row before alone"), would && told == stage);
    }
    count(format_args!("economizer enabled on the row of a new stage"), enable.enabled && told == 0 && stage > 0);
    count(format_args!("economizer disabled on the row that ends the last stage"), would && told > 0 && stage == 0);
    count(format_args!("economizer enabled again after a stage"), enable.enabled && had_stopped);
    count(format_args!("outdoor delay over at a stage"), would && told > 0 && enable.outdoor_delay);
    count(format_args!("return delay over at a stage"), would && told > 0 && enable.return_delay);
    count(format_args!("return delay not over at a stage"), would && told > 0 && !enable.return_delay);
}

/// What freeze protection makes of the economizer's commands.
fn commanded(count: &mut impl FnMut(Arguments, bool), last: &Last, now: &Last) {
    let (from, freeze) = (&now.commands.economizer, &now.commands.freeze);
    let stage = freeze.freeze_protection_stage;
    let passed = freeze.outdoor_damper_command == from.outdoor_damper_command
        && freeze.return_damper_command == from.return_damper_command;
    let apart = from.outdoor_damper_command != from.outdoor_damper_min_limit;
    count(format_args!("stage 0 passes the commands on"), stage == 0 && passed && apart);
    let minimum = freeze.outdoor_damper_command == from.outdoor_damper_min_limit;
    count(format_args!("stage 1 takes the minimum"), stage == 1 && minimum && apart);
    count(format_args!("stage 1 takes a minimum above 0"), stage == 1 && minimum && apart && from.outdoor_damper_min_limit > 0.0);
    let closed = freeze.outdoor_damper_command == 0.0;
    let open = from.outdoor_damper_command > 0.0;
    count(format_args!("stage 2 closes the outdoor damper"), stage == 2 && closed && open);
    count(format_args!("stage 2 opens the return damper"), stage == 2 && from.return_damper_command < 1.0);
    count(format_args!("stage 3 closes the outdoor damper"), stage == 3 && closed && open);
    count(format_args!("stage 3 closes the return damper"), stage == 3 && from.return_damper_command > 0.0);
    let both = freeze.outdoor_damper_command == 0.0 && freeze.return_damper_command == 0.0;
    count(format_args!("both dampers at 0 below stage 3, the fan on"), both && stage < 3 && freeze.supply_fan_status == 1);
    let ran = last.commands.relief.fan_speed.iter().any(|&speed| speed > 0.0);
    let runs = now.commands.relief.fan_speed.iter().any(|&speed| speed > 0.0);
    let before = last.commands.freeze.freeze_protection_stage;
    let (new, over) = (stage == 3 && before < 3, stage < 3 && before == 3);
    let on = now.row.supply_fan_status;
    count(format_args!("stage 3 stops the relief fans while the row's fan is on"), new && ran && !runs && on);
    count(format_args!("relief fans run on the row that ends stage 3"), over && runs);
    count(format_args!("stage 3 with the row's fan off"), stage == 3 && !on);
}

fn economizer(count: &mut impl FnMut(Arguments, bool), last: &Last, now: &Last) {
    let airflow = now.seen.airflow;
    count(format_args!("fan rises"), now.row.supply_fan_status && !last.row.supply_fan_status);
    count(format_args!("fan on and not occupied"), airflow.fan && !airflow.occupied);
    count(format_args!("airflow loop between its limits"), airflow.unlimited > 0.0 && airflow.unlimited < 1.0);
    count(format_args!("airflow loop at NaN"), airflow.unlimited.is_nan());
    count(format_args!("airflow loop infinite"), airflow.unlimited.is_infinite());
    let heat = now.commands.freeze.heating_coil_command;
    let heats = now.commands.freeze.hot_water_plant_request == 2;
    count(format_args!("heating loop at NaN"), heat.is_nan());
    count(format_args!("heating loop between its limits"), heats && heat > 0.0 && heat < 1.0);
}

fn relief(count: &mut impl FnMut(Arguments, bool), last: &Last, now: &Last) {
    let seen = now.seen.relief;
    count(format_args!("up pulse"), seen.up_pulse);
    count(format_args!("down pulse"), seen.down_pulse);
    count(format_args!("start latch on"), seen.starting && !last.seen.relief.starting);
    count(format_args!("stop latch on"), seen.stopping && !last.seen.relief.stopping);
    for fan in 0..4 {
        count(format_args!("relief fan {} runs", fan + 1), now.commands.relief.fan_speed[fan] > 0.0);
    }
    let open = now.commands.relief.damper.iter().any(|&damper| damper > 0.0);
    count(format_args!("relief dampers open with no fan"), open && !seen.commanded.contains(&true));
    let some = |fits: &dyn Fn(usize) -> bool| (0..4).any(fits);
    count(format_args!("alarm 2 closes a damper"), some(&|fan| seen.damper[fan] && seen.alarm[fan] == 2 && !seen.proof[fan]));
    count(format_args!("alarm at -128"), now.row.alarm.contains(&-128));
    count(format_args!("alarm at 127"), now.row.alarm.contains(&127));
    count(format_args!("mean over the whole 300 s"), seen.whole_window);
    count(format_args!("mean at NaN"), seen.average.is_nan());
    count(format_args!("mean infinite"), seen.average.is_infinite());
    let full = seen.points == 512;
    count(format_args!("room made in a full window"), full && !seen.same_time);
    count(format_args!("last point replaced in a full window"), full && seen.same_time);
    count(format_args!("stage in a full window"), full && now.commands.freeze.freeze_protection_stage > 0);
}
