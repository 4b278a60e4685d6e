//! Events of freeze protection.

use std::cell::RefCell;

use super::Counts;

#[derive(Clone, Copy, Default)]
pub struct Signals {
    pub t: f64,
    pub supply_air_temperature: f64,
    pub software_reset: bool,
    pub stage: i64,
    pub cold_stage_1: bool,
    pub recovery: bool,
    pub hold_input: bool,
    pub hold: bool,
    pub cold_900: bool,
    pub cold_300: bool,
    pub end_of_hour: bool,
    pub stage_1: bool,
    pub stage_2: bool,
    pub stage_3: bool,
    pub heating_coil: f64,
}

impl Signals {
    fn stage_3_call(&self) -> bool {
        self.cold_900 || self.cold_300
    }
}

thread_local!(static SEEN: RefCell<Vec<Signals>> = const { RefCell::new(Vec::new()) });

pub fn see(signals: Signals) {
    SEEN.with_borrow_mut(|seen| seen.push(signals));
}

/// The stages of the rows seen.
pub fn stages() -> Vec<i64> {
    SEEN.with_borrow(|seen| seen.iter().map(|row| row.stage).collect())
}

/// What was seen last; nothing is kept.
#[cfg(calls)]
pub fn last() -> Signals {
    SEEN.take().pop().unwrap_or_default()
}

pub fn count(counts: &mut Counts) {
    let seen = SEEN.take();
    let times: Vec<f64> = seen.iter().map(|row| row.t).collect();
    counts.delays(&times, &[300.0, 900.0, 3600.0]);

    let mut before = Signals::default();
    for row in seen {
        let supply = row.supply_air_temperature;
        for (name, edge) in [
            ("274.15", 274.15),
            ("274.15 + 0.25", 274.15 + 0.25),
            ("276.45", 276.45),
            ("276.45 + 0.25", 276.45 + 0.25),
            ("277.55", 277.55),
            ("277.55 + 0.25", 277.55 + 0.25),
            ("280.15 - 0.25", 280.15 - 0.25),
            ("280.15", 280.15),
        ] {
            counts.when(&format!("supply at {name}"), supply == edge);
            counts.when(
                &format!("supply one step below {name}"),
                supply == edge.next_down(),
            );
            counts.when(
                &format!("supply one step above {name}"),
                supply == edge.next_up(),
            );
        }

        for stage in 1..=3 {
            let reached = row.stage == stage && before.stage != stage;
            counts.when(&format!("stage {stage} reached"), reached);
        }
        let rises = row.stage_3_call() && !before.stage_3_call();
        counts.when(
            "stage 3 after 300 s below 274.15",
            rises && row.stage_3 && row.cold_300,
        );
        counts.when(
            "stage 3 after 900 s below 276.45",
            rises && row.stage_3 && !row.cold_300,
        );
        counts.when(
            "reset on the row of the stage 3 rise",
            rises && row.software_reset,
        );
        let reset = before.stage_3 && row.software_reset;
        counts.when("reset ends stage 3", reset);
        counts.when(
            "reset while the stage 3 call stays",
            reset && row.stage_3_call(),
        );
        counts.when(
            "stage 3 on again after a reset",
            rises && row.stage_3 && before.stage_2,
        );
        counts.when("end of hour", row.end_of_hour);
        let expires = row.end_of_hour && before.stage == 2 && row.stage == 1;
        counts.when("stage 2 expires and stage 1 follows", expires);
        counts.when(
            "end of hour while no longer cold",
            row.end_of_hour && !row.hold_input,
        );
        let alone = row.end_of_hour && !row.cold_stage_1 && !before.stage_1 && row.stage_1;
        counts.when("end of hour alone calls stage 1", alone);
        counts.when(
            "hold kept on against its input",
            row.hold && !row.hold_input,
        );
        let drops = before.hold && !row.hold;
        counts.when("hold drops and stage 2 stays", drops && row.stage_2);
        counts.when("recovery", row.recovery);
        counts.when("recovery ends stage 1", row.recovery && before.stage_1);
        counts.when(
            "recovery on the end-of-hour row",
            row.recovery && row.end_of_hour,
        );
        let heats = row.stage_1 || row.stage_3;
        let between = row.heating_coil > 0.0 && row.heating_coil < 1.0;
        counts.when("loop between its limits", heats && between);
        counts.when("loop at NaN", heats && row.heating_coil.is_nan());
        before = row;
    }
}
