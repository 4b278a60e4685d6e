//! Events of the economizer. Its passes run one after the other, so each has its own list.

use std::cell::RefCell;

use super::Counts;

/// What the damper limits pass sees.
#[derive(Clone, Copy, Default)]
pub struct Loop {
    pub sum: f64,
    pub unlimited: f64,
    pub fan: bool,
    pub fan_rises: bool,
    pub occupied: bool,
    pub signal: f64,
}

/// What the enable pass sees.
#[derive(Clone, Copy, Default)]
pub struct Enable {
    pub t: f64,
    pub difference: f64,
    pub condition: bool,
    pub hold: bool,
    pub fan: bool,
    pub stage: i64,
    pub enabled: bool,
    pub outdoor_delay: bool,
    pub return_delay: bool,
}

thread_local!(static LOOPS: RefCell<Vec<Loop>> = const { RefCell::new(Vec::new()) });
thread_local!(static ENABLES: RefCell<Vec<Enable>> = const { RefCell::new(Vec::new()) });

pub fn see_loop(signals: Loop) {
    LOOPS.with_borrow_mut(|seen| seen.push(signals));
}

pub fn see_enable(signals: Enable) {
    ENABLES.with_borrow_mut(|seen| seen.push(signals));
}

/// What was seen last; nothing is kept.
#[cfg(calls)]
pub fn last() -> (Loop, Enable) {
    (LOOPS.take().pop().unwrap_or_default(), ENABLES.take().pop().unwrap_or_default())
}

pub fn count(counts: &mut Counts) {
    for (index, row) in LOOPS.take().into_iter().enumerate() {
        counts.when("fan rises on row 0", row.fan_rises && index == 0);
        counts.when("fan rises later", row.fan_rises && index > 0);
        counts.when(
            "rising fan resets a sum that is not 0",
            row.fan_rises && row.sum != 0.0,
        );
        counts.when(
            "loop between its limits",
            row.unlimited > 0.0 && row.unlimited < 1.0,
        );
        counts.when("loop below its limits", row.unlimited < 0.0);
        counts.when("loop above its limits", row.unlimited > 1.0);
        counts.when("loop at NaN", row.unlimited.is_nan());
        counts.when("fan on and not occupied", row.fan && !row.occupied);
        counts.when(
            "signal on the outdoor damper's line",
            row.signal > -0.25 && row.signal < 0.0,
        );
        counts.when(
            "signal on the return damper's line",
            row.signal > 0.0 && row.signal < 0.25,
        );
        for edge in [-0.25, 0.0, 0.25] {
            counts.when(&format!("signal at {edge}"), row.signal == edge);
        }
    }

    let seen = ENABLES.take();
    let times: Vec<f64> = seen.iter().map(|row| row.t).collect();
    counts.delays(&times, &[15.0, 180.0, 600.0]);

    let mut before = Enable::default();
    let (mut hold, mut off) = (Wait::default(), Wait::default());
    for (index, row) in seen.into_iter().enumerate() {
        // Outdoor temperatures near 294.15 lie 2^-44 apart, and so do the differences.
        let step = 2f64.powi(-44);
        for edge in [0.0, -1.0] {
            counts.when(&format!("difference at {edge}"), row.difference == edge);
            counts.when(
                &format!("difference one step below {edge}"),
                row.difference == edge - step,
            );
            counts.when(
                &format!("difference one step above {edge}"),
                row.difference == edge + step,
            );
        }
        let first = index == 0;
        counts.when("condition on", row.condition && !before.condition);
        counts.when("condition off", !row.condition && before.condition);
        counts.when("hold on at row 0", first && row.hold);
        counts.when("hold turns on later", !first && row.hold && !before.hold);
        counts.when("hold turns off", !row.hold && before.hold);
        counts.when("hold kept against its input", row.hold != row.condition);
        counts.when("enabled", row.enabled && !before.enabled);
        let ends = before.enabled && !row.enabled;
        counts.when("disabled by the hold", ends && !row.hold);
        counts.when("disabled by the fan", ends && row.hold && !row.fan);
        counts.when("disabled by the stage", ends && row.hold && row.stage != 0);
        counts.when(
            "both delays true on row 0",
            first && row.outdoor_delay && row.return_delay,
        );
        counts.when(
            "outdoor delay turns true",
            !first && row.outdoor_delay && !before.outdoor_delay,
        );
        counts.when(
            "outdoor delay turns false",
            !row.outdoor_delay && before.outdoor_delay,
        );
        counts.when(
            "return delay turns true",
            !first && row.return_delay && !before.return_delay,
        );
        counts.when(
            "return delay turns false",
            !row.return_delay && before.return_delay,
        );
        counts.when(
            "outdoor delay true, return delay not",
            row.outdoor_delay && !row.return_delay,
        );

        // The hold waits from its last change, the delays from where the row was first disabled.
        hold.pass(row.t);
        counts.when(
            "sum of gaps parts from difference at 600 s",
            row.condition != before.hold && hold.parts(600.0),
        );
        if first || row.hold != before.hold {
            hold = Wait::from(row.t);
        }
        off.pass(row.t);
        if first || before.enabled {
            off = Wait::from(row.t);
        }
        for delay in [15.0, 180.0] {
            let event = format!("sum of gaps parts from difference at {delay} s");
            counts.when(&event, !row.enabled && off.parts(delay));
        }
        before = row;
    }
}

/// A wait, as the sum of its gaps and as the difference of its times.
#[derive(Default)]
struct Wait {
    begin: f64,
    last: f64,
    sum: f64,
}

impl Wait {
    fn from(time: f64) -> Self {
        Self {
            begin: time,
            last: time,
            sum: 0.0,
        }
    }

    fn pass(&mut self, time: f64) {
        self.sum += time - self.last;
        self.last = time;
    }

    fn parts(&self, delay: f64) -> bool {
        (self.sum >= delay) != (self.last - self.begin >= delay)
    }
}
