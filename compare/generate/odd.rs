//! Odd rows put in between: their lines are well formed, their times or fields are not ordinary.

use crate::cells::{Cell, Row, columns, is_flag, is_float, is_signed, time};
use crate::random::Random;

/// Copies of the row with a time that is equal, falling, negative, a negative zero or not finite.
pub fn odd_time(random: &mut Random, row: &Row) -> Row {
    let now = time(row);
    let times = [
        now,
        now.next_down(),
        now - random.range(0.0, 1000.0),
        now / 2.0,
        0.0,
        -0.0,
        -5e-324,
        -now,
        f64::NEG_INFINITY,
        f64::INFINITY,
        f64::NAN,
        a_nan(random),
    ];
    let mut row = row.clone();
    row[0] = Cell::Float(random.pick(&times));
    row
}

/// Copies of the row, at the same time, with one odd field.
pub fn odd_field(random: &mut Random, row: &Row) -> Row {
    let mut row = row.clone();
    let kinds = [is_float, is_float, is_signed, is_flag];
    let places: Vec<usize> = columns(&row, random.pick(&kinds))
        .into_iter()
        .filter(|&column| column != 0)
        .collect();
    if places.is_empty() {
        return row;
    }
    let place = random.pick(&places);
    row[place] = match row[place] {
        Cell::Float(value) => {
            let values = [
                f64::NAN,
                a_nan(random),
                f64::INFINITY,
                f64::NEG_INFINITY,
                0.0,
                -0.0,
                5e-324,
                -value,
                random.beside(value),
                value * 1e6,
            ];
            Cell::Float(random.pick(&values))
        }
        Cell::Signed(value) => {
            let any = random.bits() as i64;
            // Numbers that are small when cut to 8 or 32 bits, too.
            let cut = (any & 3) + random.pick(&[1 << 8, 1 << 32, i64::MIN]);
            let values = [i64::MIN, i64::MAX, -1, 0, 1, 2, 3, cut, cut, any, !value];
            Cell::Signed(random.pick(&values))
        }
        Cell::Flag(value) => Cell::Flag(!value),
    };
    row
}

/// A finite field of any size.
pub fn any_size(random: &mut Random, row: &Row) -> Row {
    let mut row = row.clone();
    let places = columns(&row, is_float);
    let place = random.pick(&places[1..]);
    let bits = f64::from_bits(random.bits());
    let values = [
        f64::MAX,
        f64::MIN,
        1e300,
        -1e300,
        if bits.is_finite() { bits } else { 1e308 },
    ];
    row[place] = Cell::Float(random.pick(&values));
    row
}

/// The rows of a relief plan, with copies put between them in which one alarm does not fit a signed
/// byte. A copy is of the row that follows it or of a later one: a program in which it leaves a trace
/// goes on from another time.
pub fn alarms_out_of_range(random: &mut Random, rows: &[Row]) -> Vec<Row> {
    // Just beyond the bounds, far off, and numbers that are 2 or 0 when cut to 8 bits.
    let alarms = [-129, 128, -129, 128, i64::MIN, i64::MAX, 256 + 2, (1 << 32) + 2, -256];
    let often = random.pick(&[5, 20, 80]);
    let mut out = Vec::new();
    for (index, row) in rows.iter().enumerate() {
        if random.one_in(often) {
            let mut copy = rows[(index + random.below(4)).min(rows.len() - 1)].clone();
            let fan = random.pick(&columns(&copy, is_signed));
            copy[fan] = Cell::Signed(random.pick(&alarms));
            out.push(copy);
        }
        out.push(row.clone());
    }
    out
}

/// A NaN with some payload and sign, quiet or signalling.
fn a_nan(random: &mut Random) -> f64 {
    f64::from_bits(random.bits() | 0x7ff0_0000_0000_0001)
}
