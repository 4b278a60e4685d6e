//! Which rows are refused, read off the list of rows alone (document 01, 'What each row refuses'
//! and 'The past, read without state'; document 02, job 10, for alarms).

pub const BADLY_FORMED: u8 = 5;
pub const NO_KIND: u8 = 6;

/// The accepted rows before the present one, as far as refusals depend on them.
#[derive(Clone, Default)]
pub struct Before {
    last: Option<f64>,
    /// The different times of the accepted rows, ascending.
    different: Vec<f64>,
    /// The place in `different` from which the relief window counts.
    from: usize,
}

impl Before {
    /// The refusal of a freeze or economizer row, or 0 where the row is accepted.
    pub fn status(&mut self, time: f64, finite: bool) -> u8 {
        let status = self.refusal(time, finite);
        if status == 0 {
            self.last = Some(time);
        }
        status
    }

    /// The refusal of a relief row, or 0 where the row is accepted.
    pub fn relief_status(&mut self, time: f64, finite: bool, alarms: &[i64; 4]) -> u8 {
        let status = self.refusal(time, finite);
        if status != 0 {
            return status;
        }
        if !alarms.iter().all(fits_byte) {
            return 11;
        }
        let from = self.window_start(time);
        if self.last != Some(time) {
            if self.different.len() - from >= 512 {
                return 4;
            }
            self.different.push(time);
            self.last = Some(time);
        }
        self.from = from;
        0
    }

    fn refusal(&self, time: f64, finite: bool) -> u8 {
        if !time.is_finite() || !finite {
            1
        } else if time.is_sign_negative() {
            2
        } else if self.last.is_some_and(|last| time < last) {
            3
        } else {
            0
        }
    }

    /// Where the window for a row at `time` begins, old points dropped: at the last of the
    /// different times that is at or before `time - 300`, or at the first if none is. Accepted
    /// times never fall, so it is not before the place found for the last accepted row.
    fn window_start(&self, time: f64) -> usize {
        let mut from = self.from;
        while self
            .different
            .get(from + 1)
            .is_some_and(|&next| next <= time - 300.0)
        {
            from += 1;
        }
        from
    }
}

/// Whether an alarm is from -128 to 127, as a signed byte holds it.
pub fn fits_byte(alarm: &i64) -> bool {
    (-128..=127).contains(alarm)
}
