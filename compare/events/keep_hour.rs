//! Events of freeze protection in the start in which stage 2 keeps to its hour, from the model.

use std::cell::RefCell;

use super::Counts;

#[derive(Clone, Copy, Default)]
pub struct Signals {
    pub t: f64,
    pub hold: bool,
    pub end_of_hour: bool,
    pub recovery: bool,
    pub stage: i64,
}

thread_local!(static SEEN: RefCell<Vec<Signals>> = const { RefCell::new(Vec::new()) });

pub fn see(signals: Signals) {
    SEEN.with_borrow_mut(|seen| seen.push(signals));
}

/// What was seen last; nothing is kept.
#[cfg(calls)]
pub fn last() -> Signals {
    SEEN.take().pop().unwrap_or_default()
}

/// `published` are the stages of the same rows from the published start.
pub fn count(counts: &mut Counts, published: &[i64]) {
    let mut before = Signals::default();
    // When the hold came on, and whether its hour was over by the row before.
    let (mut on, mut over) = (None, false);
    for (row, &published) in SEEN.take().into_iter().zip(published) {
        let ends = row.end_of_hour;
        counts.when("end of hour", ends);
        counts.when("end of hour, the hold stands", ends && row.hold);
        counts.when(
            "end of hour, the hold drops on the row",
            ends && before.hold && !row.hold,
        );
        counts.when(
            "end of hour, the hold has dropped before",
            ends && !before.hold && !row.hold,
        );
        let late = on.is_some_and(|on| row.t - on >= 3600.0);
        let rises = row.hold && !before.hold;
        counts.when(
            "hold on again on the row that would end the hour",
            rises && late && !over,
        );
        counts.when(
            "hold drops with its hour not over",
            before.hold && !row.hold && !late,
        );
        counts.when("recovery on the end-of-hour row", ends && row.recovery);
        for stage in [1, 0] {
            counts.when(
                &format!("stage 2 hands over to stage {stage}"),
                before.stage == 2 && row.stage == stage,
            );
        }
        counts.when(
            "stage 3 stands on the end-of-hour row",
            ends && row.stage == 3,
        );
        counts.when(
            "stage other than from the published start",
            row.stage != published,
        );
        if rises {
            (on, over) = (Some(row.t), false);
        } else {
            over = late;
        }
        before = row;
    }
}
