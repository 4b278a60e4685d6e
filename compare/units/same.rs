//! When two things are the same: bit for bit, but that a NaN is as any NaN and a zero as any zero.

use crate::joined::library::commands;
use crate::joined::row::{Commands, difference};
use crate::woldgrater::{RooftopCommands, RooftopRow};

/// What is different between commands, or nothing.
pub fn commands_differ(given: &RooftopCommands, expected: &Commands) -> Option<String> {
    difference(&Ok(*expected), &Ok(commands(given)))
}

/// The words of two units.
pub fn same_words(one: [&[u64]; 3], two: [&[u64]; 3]) -> bool {
    let same = |(one, two): (&u64, &u64)| one == two || same_number(f64::from_bits(*one), f64::from_bits(*two));
    one == two || one.into_iter().flatten().zip(two.into_iter().flatten()).all(same)
}

fn same_number(one: f64, two: f64) -> bool {
    one == two || one.is_nan() && two.is_nan()
}

/// Two rows: each number bit for bit, and a flag as it counts.
pub fn same_row(one: &RooftopRow, two: &RooftopRow) -> bool {
    words(one) == words(two)
}

fn words(row: &RooftopRow) -> [u64; size_of::<RooftopRow>() / size_of::<u64>()] {
    let flag = |word: u64| u64::from(word != 0);
    let plain = RooftopRow {
        supply_fan_status: flag(row.supply_fan_status),
        software_reset: flag(row.software_reset),
        proof: row.proof.map(flag),
        ..*row
    };
    // Whole words without a gap.
    unsafe { std::mem::transmute(plain) }
}
