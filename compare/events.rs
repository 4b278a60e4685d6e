//! Counts events in row files, so that a generator that never makes one of them is found out.
//! The signals come from the trace functions themselves: compare/extract makes them call `see`.
//! A freeze file is also played in the start in which stage 2 keeps to its hour; events there come
//! from the model and are counted as a kind of their own, keep-hour.

pub mod econ;
pub mod freeze;
pub mod keep_hour;
mod refused;
pub mod relief;

use crate::columns::WIDTH;

/// How often each event of one kind of file occurred; an event that was looked for stays at 0.
pub struct Counts {
    kind: &'static str,
    events: Vec<(String, u64)>,
}

impl Counts {
    fn new(kind: &'static str) -> Self {
        Self {
            kind,
            events: Vec::new(),
        }
    }

    pub fn when(&mut self, event: &str, happened: bool) {
        let place = self.events.iter().position(|(name, _)| name == event);
        let place = place.unwrap_or_else(|| {
            self.events.push((event.into(), 0));
            self.events.len() - 1
        });
        self.events[place].1 += u64::from(happened);
    }

    /// Rows that come exactly one of the delays after a row shortly before, and one step beside.
    pub fn delays(&mut self, times: &[f64], delays: &[f64]) {
        let mut gap_sum = 0.0;
        for (here, &time) in times.iter().enumerate() {
            let recent = &times[here.saturating_sub(6)..here];
            gap_sum += recent.last().map_or(0.0, |last| time - last);
            self.when(
                "row at the time of the row before",
                recent.last() == Some(&time),
            );
            self.when("infinite sum of gaps", gap_sum == f64::INFINITY);
            for delay in delays {
                let some =
                    |end: fn(f64) -> f64| recent.iter().any(|&begin| end(begin + delay) == time);
                self.when(&format!("row {delay} s after another"), some(|end| end));
                self.when(
                    &format!("row one step before {delay} s are over"),
                    some(f64::next_down),
                );
                self.when(
                    &format!("row one step after {delay} s are over"),
                    some(f64::next_up),
                );
            }
        }
    }
}

/// The counts over all these files, a line each: kind, event and count with tabs between.
pub fn count(files: &[&str]) -> Result<Vec<u8>, String> {
    let mut any = Counts::new("any");
    let mut kinds = ["freeze", "relief", "econ"].map(Counts::new);
    let mut keep_hour = Counts::new("keep-hour");
    for file in files {
        let told = |error| format!("{file}: {error}");
        let text = std::fs::read(file).map_err(told)?;
        let mut answers = Vec::new();
        crate::answer(&text[..], &mut answers, crate::freeze::answer).map_err(told)?;

        let end = text.iter().position(|&byte| byte == b'\n');
        let (first, rest) = text.split_at(end.map_or(text.len(), |end| end + 1));
        let refused = answers == b"                    6\n";
        any.when("empty file", text.is_empty());
        any.when("first line alone", !refused && rest.is_empty());
        any.when(
            "6: no newline in the file",
            !text.is_empty() && end.is_none(),
        );
        any.when("6: another first line", refused && end.is_some());
        let named = |counts: &&mut Counts| first == format!("{}\n", counts.kind).as_bytes();
        if let Some(counts) = kinds.iter_mut().find(named) {
            refused::count(counts, rest, &answers);
            match counts.kind {
                "freeze" => {
                    let mut kept = Vec::new();
                    crate::answer(&text[..], &mut kept, crate::keep_hour::answer).map_err(told)?;
                    refused::count(&mut keep_hour, rest, &kept);
                    keep_hour::count(&mut keep_hour, &freeze::stages());
                    freeze::count(counts);
                }
                "relief" => relief::count(counts),
                _ => econ::count(counts),
            }
        }
    }
    let mut out = String::new();
    for counts in [&any].into_iter().chain(&kinds).chain([&keep_hour]) {
        for (event, count) in &counts.events {
            out += &format!("{}\t{event}\t{count}\n", counts.kind);
        }
    }
    Ok(out.into_bytes())
}
