//! Which lines were refused, and for which sort of damage.

use super::{Counts, WIDTH, relief};
use crate::columns::Columns;

const SORTS: [&str; 18] = [
    "missing last newline",
    "empty line",
    "carriage return",
    "short line",
    "very long line",
    "long line",
    "tab",
    "NUL byte",
    "plus sign",
    "byte above 127",
    "blank column",
    "space after a digit",
    "minus zero",
    "minus in an unsigned column",
    "leading zero",
    "other byte",
    "number out of range",
    "flag out of range",
];

pub fn count(counts: &mut Counts, text: &[u8], answers: &[u8]) {
    // The columns of each kind: float, flag, signed.
    let columns = match counts.kind {
        "freeze" | "keep-hour" => "fffffffbbfff",
        "relief" => "fbbfssssbbbb",
        _ => "fffffbss",
    };
    let refusals: &[i64] = match counts.kind {
        "relief" => &[1, 2, 3, 11, 4, 5],
        _ => &[1, 2, 3, 5],
    };
    let mut alarms = relief::Alarms::default();
    let mut rest = text;
    for answer in answers.split_inclusive(|&byte| byte == b'\n') {
        let end = rest.iter().position(|&byte| byte == b'\n');
        let line = &rest[..end.unwrap_or(rest.len())];
        rest = end.map_or(&[], |end| &rest[end + 1..]);
        let status = Columns::new(answer).signed().unwrap();
        counts.when("row accepted", status == 0);
        for &refusal in refusals {
            counts.when(&format!("row refused with {refusal}"), status == refusal);
        }
        if counts.kind != "econ" {
            counts.when("answer with a NaN", contains(answer, "9221120237041090560"));
        }
        match counts.kind {
            "relief" => alarms.count(counts, line, status),
            "econ" => {
                counts.when(
                    "least signed number taken",
                    status == 0 && contains(line, "-9223372036854775808"),
                );
                counts.when(
                    "largest signed number taken",
                    status == 0 && contains(line, "9223372036854775807"),
                );
            }
            _ => {}
        }
        let sort = if status == 5 {
            sort(line, end.is_some(), columns)
        } else {
            ""
        };
        for name in SORTS {
            counts.when(&format!("5: {name}"), name == sort);
        }
    }
}

fn contains(line: &[u8], number: &str) -> bool {
    line.windows(number.len())
        .any(|window| window == number.as_bytes())
}

/// The first sort of damage, in the order of the list, that is found in a line refused with 5.
fn sort(line: &[u8], whole: bool, columns: &str) -> &'static str {
    let length = columns.len() * WIDTH;
    let found = |byte: u8| line.contains(&byte);
    if !whole {
        "missing last newline"
    } else if line.is_empty() {
        "empty line"
    } else if found(b'\r') {
        "carriage return"
    } else if line.len() < length {
        "short line"
    } else if line.len() > 2 * length {
        "very long line"
    } else if line.len() > length {
        "long line"
    } else if found(b'\t') {
        "tab"
    } else if found(0) {
        "NUL byte"
    } else if found(b'+') {
        "plus sign"
    } else if line.iter().any(|&byte| byte > 127) {
        "byte above 127"
    } else {
        let sorts = line.chunks(WIDTH).zip(columns.chars());
        sorts
            .map(|(column, form)| column_sort(column, form))
            .find(|sort| *sort != "")
            .unwrap_or("other byte")
    }
}

fn column_sort(column: &[u8], form: char) -> &'static str {
    let text = String::from_utf8_lossy(column);
    let number = text.trim_start_matches(' ');
    let digits = number.strip_prefix('-').unwrap_or(number);
    let out_of_range = match form {
        's' => number.parse::<i64>().is_err(),
        _ => number.parse::<u64>().is_err(),
    };
    if number.is_empty() {
        "blank column"
    } else if digits.contains(' ') {
        "space after a digit"
    } else if digits.is_empty() || digits.contains(|byte: char| !byte.is_ascii_digit()) {
        "other byte"
    } else if number == "-0" {
        "minus zero"
    } else if number.starts_with('-') && form != 's' {
        "minus in an unsigned column"
    } else if digits.len() > 1 && digits.starts_with('0') {
        "leading zero"
    } else if form == 'b' && number != "0" && number != "1" {
        "flag out of range"
    } else if out_of_range {
        "number out of range"
    } else {
        ""
    }
}
