//! Events of the relief fan group.

use std::cell::RefCell;

use super::Counts;
use crate::acceptance::{Before, fits_byte};
use crate::columns::Columns;

#[derive(Clone, Copy, Default)]
pub struct Signals {
    pub t: f64,
    pub average: f64,
    pub controller: f64,
    pub supply: [bool; 2],
    pub alarm: [i64; 4],
    pub proof: [bool; 4],
    pub points: usize,
    pub same_time: bool,
    pub whole_window: bool,
    pub damper_latch: bool,
    pub damper_clear: bool,
    pub up_request: bool,
    pub up_pulse: bool,
    pub starting: bool,
    pub start_delay: [bool; 4],
    pub down_request: bool,
    pub down_pulse: bool,
    pub stopping: bool,
    pub stop_delay: [bool; 4],
    pub commanded: [bool; 4],
    pub damper: [bool; 4],
}

thread_local!(static SEEN: RefCell<Vec<Signals>> = const { RefCell::new(Vec::new()) });

pub fn see(signals: Signals) {
    SEEN.with_borrow_mut(|seen| seen.push(signals));
}

/// What was seen last; nothing is kept.
#[cfg(calls)]
pub fn last() -> Signals {
    SEEN.take().pop().unwrap_or_default()
}

pub fn count(counts: &mut Counts) {
    let seen = SEEN.take();
    let times: Vec<f64> = seen.iter().map(|row| row.t).collect();
    counts.delays(&times, &[2.0, 300.0, 420.0]);

    let mut before = Signals::default();
    for row in seen {
        for (name, edge) in [
            ("0.005", 0.005),
            ("0.005 + 0.005", 0.005 + 0.005),
            ("0.05 - 0.005", 0.05 - 0.005),
            ("0.05", 0.05),
            ("0.1", 0.1),
            ("0.1 + 0.005", 0.1 + 0.005),
            ("0.1 + 0.15 - 0.005", 0.1 + 0.15 - 0.005),
            ("0.1 + 0.15", 0.1 + 0.15),
        ] {
            // The loop is a quotient near 1 less 1, so its values lie 2^-52 apart.
            let off = row.controller - edge;
            counts.when(
                &format!("loop just below {name}"),
                off < 0.0 && off > -4.0 * f64::EPSILON,
            );
            counts.when(
                &format!("loop just above {name}"),
                off > 0.0 && off < 4.0 * f64::EPSILON,
            );
        }
        counts.when("loop at 0.1 + 0.15", row.controller == 0.1 + 0.15);

        counts.when("up request", row.up_request && !before.up_request);
        counts.when("up pulse", row.up_pulse);
        counts.when("start latch on", row.starting && !before.starting);
        counts.when(
            "start latch cleared by proofs",
            !row.starting && before.starting,
        );
        counts.when("down request", row.down_request && !before.down_request);
        counts.when("down pulse", row.down_pulse);
        counts.when("stop latch on", row.stopping && !before.stopping);
        counts.when(
            "stop latch cleared by proofs",
            !row.stopping && before.stopping,
        );

        let clears = row.damper_clear && before.damper_latch;
        counts.when(
            "dampers opened by pressure",
            row.damper_latch && !before.damper_latch,
        );
        counts.when("dampers closed after 300 s", clears);
        let any_commanded = row.commanded.contains(&true);
        counts.when(
            "dampers open with no fan",
            !any_commanded && row.damper.contains(&true),
        );
        counts.when("one supply fan off", row.supply[0] != row.supply[1]);
        counts.when("both supply fans off", row.supply == [false; 2]);

        let some = |fits: &dyn Fn(usize) -> bool| (0..4).any(fits);
        counts.when(
            "fan started",
            some(&|fan| row.commanded[fan] && !row.proof[fan]),
        );
        counts.when(
            "fan stopped",
            some(&|fan| !row.commanded[fan] && row.proof[fan]),
        );
        counts.when(
            "start delay over",
            some(&|fan| row.start_delay[fan] && !before.start_delay[fan]),
        );
        counts.when(
            "stop delay over",
            some(&|fan| row.stop_delay[fan] && !before.stop_delay[fan]),
        );
        let alarmed = |alarm, proof| {
            some(&|fan| row.damper[fan] && row.alarm[fan] == alarm && row.proof[fan] == proof)
        };
        counts.when("alarm 2 closes a damper", alarmed(2, false));
        counts.when("alarm 2 at a proven fan", alarmed(2, true));
        counts.when("alarm 3 at an unproven fan", alarmed(3, false));

        counts.when("mean over the whole 300 s", row.whole_window);
        counts.when("mean at NaN", row.average.is_nan());
        counts.when("mean infinite", row.average.is_infinite());
        let full = row.points == 512;
        counts.when("room made in a full window", full && !row.same_time);
        counts.when(
            "last point replaced in a full window",
            full && row.same_time,
        );
        before = row;
    }
}

/// Events of the alarms, which have to fit a signed byte, over the lines of a file.
#[derive(Default)]
pub struct Alarms {
    before: Before,
}

impl Alarms {
    pub fn count(&mut self, counts: &mut Counts, line: &[u8], status: i64) {
        let Some((time, alarm)) = time_and_alarms(line) else {
            return;
        };
        let (taken, refused) = (status == 0, status == 11);
        if taken {
            self.before.relief_status(time, true, &alarm);
        }
        for fan in 0..4 {
            // Whether the other three alarms fit.
            let alone = (0..4).all(|other| other == fan || fits_byte(&alarm[other]));
            for number in [-128, 127] {
                let event = format!("alarm {number} of fan {} taken", fan + 1);
                counts.when(&event, taken && alarm[fan] == number);
            }
            for number in [-129, 128] {
                let event = format!("alarm {number} of fan {} alone refused", fan + 1);
                counts.when(&event, refused && alone && alarm[fan] == number);
            }
        }
        let beyond: Vec<i64> = alarm.into_iter().filter(|alarm| !fits_byte(alarm)).collect();
        let has = |number| refused && beyond.contains(&number);
        counts.when("least signed number refused with 11", has(i64::MIN));
        counts.when("largest signed number refused with 11", has(i64::MAX));
        counts.when(
            "11 for a number that is 2 when cut to 8 bits",
            refused && beyond.iter().any(|&number| number as i8 == 2),
        );
        for first in 1..=3 {
            counts.when(
                &format!("{first} where 11 fits too"),
                status == first && !beyond.is_empty(),
            );
        }
        // Whether the row would be refused with 4 if its alarms did fit.
        let full = || self.before.clone().relief_status(time, true, &[0; 4]) == 4;
        counts.when("11 where 4 fits too", refused && full());
    }
}

/// Time and alarms of a row line, where these columns and those between them are well formed.
fn time_and_alarms(line: &[u8]) -> Option<(f64, [i64; 4])> {
    let mut columns = Columns::new(line);
    let time = columns.float()?;
    let _ = (columns.flag()?, columns.flag()?, columns.float()?);
    let mut alarm = [0; 4];
    for number in &mut alarm {
        *number = columns.signed()?;
    }
    Some((time, alarm))
}
