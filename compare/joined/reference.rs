//! The joined row from the published trace functions, as compare/extract makes them; for the start that keeps the hour
//! the model stands in the place of freeze protection's. For each accepted row every trace is run over the list up to
//! it, and its last row is the answer. Nothing is kept from row to row but the lists, and the stage that the last one
//! ended with.

use super::row::{Answer, Commands, Economizer, Row};
use crate::acceptance::Before;
use crate::sequences::economizer_controller::econ;
use crate::sequences::freeze_protection::freeze;
use crate::sequences::relief_fan_group::relief;

/// What is made wrong, in a wire or beside it, to see that the comparison finds it: FAULTS says what each does.
#[derive(Clone, Copy, Debug, PartialEq)]
pub enum Fault {
    Stage,
    LateStage,
    NoStage,
    Dampers,
    Minimum,
    Fan,
    SecondFlag,
    Start,
    Order,
    RefusedState,
    RefusedWindow,
    Uncounted,
}

/// Every fault by its name, with what it does.
pub const FAULTS: [(&str, Fault, &str); 12] = [
    ("stage", Fault::Stage, "the economizer is handed the stage of the same row"),
    ("late-stage", Fault::LateStage, "the economizer is handed a stage one row later than is right"),
    ("no-stage", Fault::NoStage, "the economizer is handed no stage"),
    ("dampers", Fault::Dampers, "freeze protection's outdoor and return command change places"),
    ("minimum", Fault::Minimum, "freeze protection's outdoor minimum and outdoor command change places"),
    ("fan", Fault::Fan, "the relief fan group is handed the row's own fan"),
    ("second-flag", Fault::SecondFlag, "the relief fan group's second supply flag is off"),
    ("start", Fault::Start, "freeze protection starts in the other manner"),
    ("order", Fault::Order, "a full window is told before an alarm that does not fit"),
    ("refused-state", Fault::RefusedState, "a row that the library refuses changes a bit of its state"),
    ("refused-window", Fault::RefusedWindow, "a row that the library refuses changes a bit of its window"),
    ("uncounted", Fault::Uncounted, "a kind of event is never counted"),
];

/// What the traces show of the last accepted row.
#[cfg(events)]
#[derive(Clone, Copy, Default)]
pub struct Seen {
    pub airflow: crate::events::econ::Loop,
    pub enable: crate::events::econ::Enable,
    pub end_of_hour: bool,
    pub recovery: bool,
    pub relief: crate::events::relief::Signals,
}

pub struct Reference {
    fault: Option<Fault>,
    #[cfg(events)]
    keeps_hour: bool,
    pub before: Before,
    stage: i64,
    late_stage: i64,
    economizer: econ::Wired,
    freeze: freeze::Wired,
    relief: relief::Wired,
    #[cfg(events)]
    pub seen: Seen,
}

impl Reference {
    pub fn start(keeps_hour: bool, fault: Option<Fault>) -> Self {
        let keeps_hour = keeps_hour != (fault == Some(Fault::Start));
        Self {
            fault,
            #[cfg(events)]
            keeps_hour,
            before: Before::default(),
            stage: 0,
            late_stage: 0,
            economizer: econ::Wired::default(),
            freeze: freeze::Wired::start(keeps_hour),
            relief: relief::Wired::default(),
            #[cfg(events)]
            seen: Seen::default(),
        }
    }

    pub fn row(&mut self, row: &Row) -> Answer {
        let mut before = self.before.clone();
        let mut status = before.relief_status(row.time, row.is_finite(), &row.alarm);
        if status == 11 && self.fault == Some(Fault::Order) && before.clone().relief_status(row.time, true, &[0; 4]) == 4 {
            status = 4;
        }
        if status != 0 {
            return Err(status.into());
        }
        let stage = self.stage_for(row);
        self.economizer.push(row, stage);
        let economizer = self.economizer.last();
        if !economizer.is_finite() {
            self.economizer.pop();
            return Err(1);
        }
        self.freeze.push(row, &self.handed_on(economizer));
        let freeze = self.freeze.last();
        self.relief.push(row, self.supply(row, freeze.supply_fan_status != 0));
        let relief = self.relief.last();
        #[cfg(events)]
        self.look();
        self.before = before;
        (self.late_stage, self.stage) = (self.stage, freeze.freeze_protection_stage as i64);
        Ok(Commands { economizer, freeze, relief })
    }

    /// The stage of the last accepted row, 0 before any.
    fn stage_for(&mut self, row: &Row) -> i64 {
        match self.fault {
            Some(Fault::Stage) => self.stage_of(row),
            Some(Fault::LateStage) => self.late_stage,
            Some(Fault::NoStage) => 0,
            _ => self.stage,
        }
    }

    /// This row's stage, which does not hang on what the economizer commands.
    fn stage_of(&mut self, row: &Row) -> i64 {
        self.freeze.push(row, &Economizer::default());
        let stage = self.freeze.last().freeze_protection_stage;
        self.freeze.pop();
        stage as i64
    }

    fn handed_on(&self, right: Economizer) -> Economizer {
        match self.fault {
            Some(Fault::Dampers) => Economizer {
                outdoor_damper_command: right.return_damper_command,
                return_damper_command: right.outdoor_damper_command,
                ..right
            },
            Some(Fault::Minimum) => Economizer {
                outdoor_damper_command: right.outdoor_damper_min_limit,
                outdoor_damper_min_limit: right.outdoor_damper_command,
                ..right
            },
            _ => right,
        }
    }

    /// Freeze protection's fan status, as both flags.
    fn supply(&self, row: &Row, fan: bool) -> [bool; 2] {
        match self.fault {
            Some(Fault::Fan) => [row.supply_fan_status; 2],
            Some(Fault::SecondFlag) => [fan, false],
            _ => [fan; 2],
        }
    }

    #[cfg(events)]
    fn look(&mut self) {
        use crate::events;
        let published = events::freeze::last();
        let kept = events::keep_hour::last();
        let (end_of_hour, recovery) = match self.keeps_hour {
            true => (kept.end_of_hour, kept.recovery),
            false => (published.end_of_hour, published.recovery),
        };
        let (airflow, enable) = events::econ::last();
        self.seen = Seen { airflow, enable, end_of_hour, recovery, relief: events::relief::last() };
    }
}

#[cfg(test)]
mod tests {
    use super::*;

    /// Cold for 300 s, the economizer's three rows: enabled, still enabled at stage 1, then disabled.
    #[test]
    fn the_economizer_is_told_of_a_stage_a_row_late() {
        let row = Row {
            supply_fan_status: true,
            supply_temperature_signal: 1.0,
            outdoor_air_temperature: 295.0,
            operation_mode: 1,
            supply_air_temperature: 277.0,
            ..Row::default()
        };
        let played = |fault| {
            let mut reference = Reference::start(false, fault);
            [0.0, 300.0, 300.0].map(|time| {
                let commands = reference.row(&Row { time, ..row }).unwrap();
                (commands.freeze.freeze_protection_stage, commands.economizer.return_damper_command)
            })
        };
        assert_eq!(played(None), [(0, 0.0), (1, 0.0), (1, 1.0)]);
        assert_eq!(played(Some(Fault::Stage)), [(0, 0.0), (1, 1.0), (1, 1.0)]);
        assert_eq!(played(Some(Fault::LateStage)), [(0, 0.0), (1, 0.0), (1, 0.0)]);
    }
}
