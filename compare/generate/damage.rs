//! Damaged lines and files of every sort.

use crate::cells::{Row, WIDTH, columns, is_flag, is_float, is_signed, line};
use crate::random::Random;

/// A damaged copy of the row's line, with what ends it.
pub fn damaged_line(random: &mut Random, row: &Row) -> Vec<u8> {
    let mut text = line(row);
    let column = random.below(row.len());
    let digits = column * WIDTH + first_digit(&text[column * WIDTH..][..WIDTH]);
    let end = (column + 1) * WIDTH;
    match random.below(26) {
        0 => text.push(b'\r'),
        1 => text[column * WIDTH] = b'\t',
        2 => text[digits - 1] = b'0',
        3 => text[digits - 1] = b'+',
        4 => put(&mut text, column, "-0"),
        5 => minus_in_unsigned(random, row, &mut text),
        6 => float_out_of_range(random, row, &mut text),
        7 => integer_bounds(random, row, &mut text),
        8 => flag_out_of_range(random, row, &mut text),
        9 => text[random_place(random, row)] = 0,
        10 => drop(text.remove(random_place(random, row))),
        11 => text.truncate(random.below(row.len()) * WIDTH),
        12 => text.insert(random_place(random, row), b' '),
        13 => text.extend_from_slice(b"                    0"),
        14 if random.one_in(2) => text = text.repeat(random.between(2, 300)),
        14 => text.extend((0..random.between(400, 70_000)).map(|i| b" 0123456789"[i % 11])),
        15 => text.clear(),
        16 => {
            text = (0..random.between(1, 600))
                .map(|_| random.bits() as u8)
                .collect()
        }
        17 => put(&mut text, column, ""),
        18 => {
            // One place to the left.
            text[column * WIDTH..end].rotate_left(1);
            text[end - 1] = b' ';
        }
        19 => put(
            &mut text,
            column,
            random.pick(&["-", "- 5", "--5", "-01", "5-", "1 2", "1.5", "1e3"]),
        ),
        20 => text[end - 1] = random.pick(b"/:aA.,\x0b\xb0\xb1\xff\x7f\x80_"),
        21 => text.insert(random_place(random, row), b'\n'),
        22 => return text,
        23 => text[digits - 1] = random.pick(b"/:x.\xb0\x10\x11\x30"),
        24 => put(
            &mut text,
            column,
            random.pick(&["NaN", "inf", "true", "0x1", "00", "01"]),
        ),
        _ => text[random_place(random, row)] ^= 1 << random.below(8),
    }
    text.push(b'\n');
    text
}

/// The first line of a file, damaged.
pub fn damaged_first_line(random: &mut Random, kind: &str) -> Vec<u8> {
    let lines = [
        format!("{kind}\r\n"),
        format!("{kind} \n"),
        format!(" {kind}\n"),
        format!("{kind}\0\n"),
        format!("{kind}{kind}\n"),
        format!("{}\n", kind.to_uppercase()),
        format!("{}\n", &kind[..kind.len() - 1]),
        format!("\n{kind}\n"),
        "\n".into(),
        "fan\n".into(),
        kind.into(),
        "x".repeat(random.between(1, 70_000)) + "\n",
    ];
    lines[random.below(lines.len())].clone().into_bytes()
}

/// Damage at the end of a file, or to the file as a whole.
pub fn damage_end(random: &mut Random, file: &mut Vec<u8>) {
    let first = file.iter().position(|&byte| byte == b'\n').unwrap_or(0);
    match random.below(10) {
        0..=2 => drop(file.pop()),
        3 => file.extend_from_slice(b"                    0"),
        4 => file.truncate(random.below(file.len() + 1)),
        5 => file.push(b'\n'),
        6 => file.push(b' '),
        7 => file.truncate(first + 1),
        8 => file.truncate(first),
        _ => file.clear(),
    }
}

fn first_digit(column: &[u8]) -> usize {
    column.iter().position(|&byte| byte != b' ').unwrap_or(0)
}

fn random_place(random: &mut Random, row: &Row) -> usize {
    random.below(row.len() * WIDTH)
}

fn put(text: &mut [u8], column: usize, number: &str) {
    text[column * WIDTH..][..WIDTH].copy_from_slice(format!("{number:>21}").as_bytes());
}

fn float_out_of_range(random: &mut Random, row: &Row, text: &mut [u8]) {
    let numbers = [
        "18446744073709551615",
        "18446744073709551616",
        "18446744073709551617",
        "18450000000000000000",
        "99999999999999999999",
        "100000000000000000000",
        "999999999999999999999",
    ];
    put(
        text,
        random.pick(&columns(row, is_float)),
        random.pick(&numbers),
    );
}

/// The bounds of a signed column, which are taken, and one beyond, in a column of any kind.
fn integer_bounds(random: &mut Random, row: &Row, text: &mut [u8]) {
    let numbers = [
        "9223372036854775807",
        "9223372036854775808",
        "-9223372036854775808",
        "-9223372036854775809",
        "18446744073709551616",
        "-18446744073709551616",
        "-99999999999999999999",
    ];
    let signed = columns(row, is_signed);
    let column = if signed.is_empty() {
        random.below(row.len())
    } else {
        random.pick(&signed)
    };
    put(text, column, random.pick(&numbers));
}

fn flag_out_of_range(random: &mut Random, row: &Row, text: &mut [u8]) {
    let numbers = [
        "2",
        "3",
        "9",
        "10",
        "11",
        "-1",
        "00",
        "01",
        "18446744073709551616",
    ];
    put(
        text,
        random.pick(&columns(row, is_flag)),
        random.pick(&numbers),
    );
}

fn minus_in_unsigned(random: &mut Random, row: &Row, text: &mut [u8]) {
    let places: Vec<usize> = (0..row.len())
        .filter(|&place| !is_signed(&row[place]))
        .collect();
    put(
        text,
        random.pick(&places),
        random.pick(&["-1", "-0", "-4643211215818981376"]),
    );
}
