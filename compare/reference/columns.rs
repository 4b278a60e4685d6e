//! Columns of document 01, 'Row lines': a decimal number at the right end of 21 bytes.

pub const WIDTH: usize = 21;

/// The pattern that stands for every NaN.
const NAN: u64 = 9221120237041090560;

type Column = [u8; WIDTH];

/// The columns of one line, taken from the left. Each field is none where it is badly formed or
/// out of range.
pub struct Columns<'a> {
    rest: &'a [u8],
}

impl<'a> Columns<'a> {
    pub fn new(line: &'a [u8]) -> Self {
        Self { rest: line }
    }

    fn next(&mut self) -> Option<&'a Column> {
        let (column, rest) = self.rest.split_first_chunk()?;
        self.rest = rest;
        Some(column)
    }

    pub fn float(&mut self) -> Option<f64> {
        unsigned(self.next()?).map(f64::from_bits)
    }

    pub fn flag(&mut self) -> Option<bool> {
        match self.next()? {
            b"                    0" => Some(false),
            b"                    1" => Some(true),
            _ => None,
        }
    }

    pub fn signed(&mut self) -> Option<i64> {
        signed(self.next()?)
    }
}

/// Where the spaces of a column end, if anything else is in it.
fn start(column: &Column) -> Option<usize> {
    column.iter().position(|&byte| byte != b' ')
}

fn signed(column: &Column) -> Option<i64> {
    let at = start(column)?;
    if column[at] != b'-' {
        return unsigned(column)?.try_into().ok();
    }
    let mut magnitude = *column;
    magnitude[at] = b' ';
    match unsigned(&magnitude)? {
        0 => None,
        n if start(&magnitude)? == at + 1 => 0i64.checked_sub_unsigned(n),
        _ => None,
    }
}

/// Three words of eight bytes hold the column, with three more spaces before it.
fn unsigned(column: &Column) -> Option<u64> {
    let word = |at: usize| u64::from_le_bytes(column[at..at + 8].try_into().unwrap());
    let (high, middle, low) = (word(0) << 24 | 0x20_2020, word(5), word(13));
    let spaces = if high != SPACES {
        leading_spaces(high)
    } else if middle != SPACES {
        8 + leading_spaces(middle)
    } else {
        16 + leading_spaces(low)
    };
    if spaces == 24 || column[spaces - 3] == b'0' && spaces != 23 {
        return None;
    }
    let high = eight_digits(zeros_for_spaces(high, spaces))?;
    let middle = eight_digits(zeros_for_spaces(middle, spaces.saturating_sub(8)))?;
    let low = eight_digits(zeros_for_spaces(low, spaces.saturating_sub(16)))?;
    high.checked_mul(10_000_000_000_000_000)?
        .checked_add(middle * 100_000_000 + low)
}

const SPACES: u64 = u64::from_le_bytes([b' '; 8]);

/// How many of the eight bytes, up to the first that is none, are spaces.
fn leading_spaces(word: u64) -> usize {
    (word ^ SPACES).trailing_zeros() as usize / 8
}

/// The word with the digit 0 for its first `spaces` bytes, or for all of them.
fn zeros_for_spaces(word: u64, spaces: usize) -> u64 {
    let rest = u64::MAX.checked_shl(8 * spaces as u32).unwrap_or(0);
    word | (0x1010_1010_1010_1010 & !rest)
}

/// Eight decimal digits, all at once: first the pairs, then the fours, then the eight.
fn eight_digits(text: u64) -> Option<u64> {
    let high = text & 0xf0f0_f0f0_f0f0_f0f0;
    let carried = text.wrapping_add(0x0606_0606_0606_0606) & 0xf0f0_f0f0_f0f0_f0f0;
    if (high | carried >> 4) != 0x3333_3333_3333_3333 {
        return None;
    }
    let ones = text & 0x0f0f_0f0f_0f0f_0f0f;
    let pairs = (ones * 10 + (ones >> 8)) & 0x00ff_00ff_00ff_00ff;
    let fours = (pairs * 100 + (pairs >> 16)) & 0x0000_ffff_0000_ffff;
    Some((fours * 10_000 + (fours >> 32)) & 0xffff_ffff)
}

pub fn put_float(out: &mut Vec<u8>, value: f64) {
    put(
        out,
        if value.is_nan() { NAN } else { value.to_bits() },
        false,
    );
}

pub fn put_flag(out: &mut Vec<u8>, value: bool) {
    put(out, value.into(), false);
}

pub fn put_signed(out: &mut Vec<u8>, value: i64) {
    put(out, value.unsigned_abs(), value < 0);
}

fn put(out: &mut Vec<u8>, mut n: u64, minus: bool) {
    let mut column = [b' '; WIDTH];
    let mut at = WIDTH;
    while n >= 100 {
        at -= 2;
        column[at..at + 2].copy_from_slice(&PAIRS[(n % 100) as usize]);
        n /= 100;
    }
    if n >= 10 {
        at -= 2;
        column[at..at + 2].copy_from_slice(&PAIRS[n as usize]);
    } else {
        at -= 1;
        column[at] = b'0' + n as u8;
    }
    if minus {
        column[at - 1] = b'-';
    }
    out.extend_from_slice(&column);
}

/// The two digits of each number below 100.
static PAIRS: [[u8; 2]; 100] = {
    let mut pairs = [[b'0'; 2]; 100];
    let mut n = 0;
    while n < 100 {
        pairs[n] = [b'0' + (n / 10) as u8, b'0' + (n % 10) as u8];
        n += 1;
    }
    pairs
};
