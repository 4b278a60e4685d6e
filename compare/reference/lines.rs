//! Row lines in, answer lines out, for any kind.

use std::io::{self, Read, Write};

use crate::acceptance::{BADLY_FORMED, Before};
use crate::columns::{Columns, WIDTH, put_signed};
use crate::input::Input;

/// A kind of row file.
pub trait Kind {
    type Row: Copy;
    type Trace;
    /// Columns of a row line, the time included.
    const COLUMNS: usize;

    /// The fields after the time.
    fn read(columns: &mut Columns) -> Option<Self::Row>;
    /// The row's refusal, or 0 where it is accepted.
    fn status(before: &mut Before, time: f64, row: &Self::Row) -> u8;
    /// The published trace over the accepted rows.
    fn trace(times: &[f64], rows: &[Self::Row]) -> Self::Trace;
    fn write(trace: &Self::Trace, index: usize, out: &mut Vec<u8>);
}

/// Answers the lines after the first: decides which rows are accepted, plays those, and prints
/// their answers among the refusals.
pub fn answer<K: Kind>(input: &mut Input<impl Read>, out: &mut impl Write) -> io::Result<()> {
    let mut statuses = Vec::new();
    let (mut times, mut rows) = (Vec::new(), Vec::new());
    let mut before = Before::default();
    while let Some(line) = next_line::<K>(input)? {
        let status = match line {
            Line::Row(time, row) => {
                let status = K::status(&mut before, time, &row);
                if status == 0 {
                    times.push(time);
                    rows.push(row);
                }
                status
            }
            Line::BadlyFormed => BADLY_FORMED,
        };
        statuses.push(status);
    }

    let trace = K::trace(&times, &rows);
    let mut text = Vec::with_capacity(1 << 16);
    let mut accepted = 0;
    for status in statuses {
        put_signed(&mut text, status.into());
        if status == 0 {
            K::write(&trace, accepted, &mut text);
            accepted += 1;
        }
        text.push(b'\n');
        if text.len() > text.capacity() - 1000 {
            out.write_all(&text)?;
            text.clear();
        }
    }
    out.write_all(&text)
}

/// The accepted rows among the lines after the first, with their times.
#[cfg(calls)]
pub fn accepted<K: Kind>(input: &mut Input<impl Read>) -> io::Result<(Vec<f64>, Vec<K::Row>)> {
    let (mut times, mut rows) = (Vec::new(), Vec::new());
    let mut before = Before::default();
    while let Some(line) = next_line::<K>(input)? {
        if let Line::Row(time, row) = line
            && K::status(&mut before, time, &row) == 0
        {
            times.push(time);
            rows.push(row);
        }
    }
    Ok((times, rows))
}

enum Line<Row> {
    Row(f64, Row),
    BadlyFormed,
}

/// The next line, or none where the input is over. A line is well formed when its columns are, which
/// then hold no newline, and a newline follows them.
fn next_line<K: Kind>(input: &mut Input<impl Read>) -> io::Result<Option<Line<K::Row>>> {
    loop {
        let text = input.text();
        if let Some((time, row)) = read_row::<K>(text) {
            input.consume(K::COLUMNS * WIDTH + 1);
            return Ok(Some(Line::Row(time, row)));
        }
        if let Some(end) = text.iter().position(|&byte| byte == b'\n') {
            input.consume(end + 1);
            return Ok(Some(Line::BadlyFormed));
        }
        if !input.more()? {
            let rest = input.text().len();
            input.consume(rest);
            return Ok((rest > 0).then_some(Line::BadlyFormed));
        }
    }
}

fn read_row<K: Kind>(text: &[u8]) -> Option<(f64, K::Row)> {
    if text.get(K::COLUMNS * WIDTH) != Some(&b'\n') {
        return None;
    }
    let mut columns = Columns::new(text);
    Some((columns.float()?, K::read(&mut columns)?))
}
