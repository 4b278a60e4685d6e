//! A row as the cells of its line, the time first.

#[derive(Clone, Copy)]
pub enum Cell {
    Float(f64),
    Flag(bool),
    Signed(i64),
}

pub type Row = Vec<Cell>;

pub const WIDTH: usize = 21;

/// The line of a row, without its newline.
pub fn line(row: &[Cell]) -> Vec<u8> {
    let text = |cell: &Cell| match *cell {
        Cell::Float(value) => format!("{:21}", value.to_bits()),
        Cell::Flag(value) => format!("{:21}", value as u8),
        Cell::Signed(value) => format!("{value:21}"),
    };
    row.iter().map(text).collect::<String>().into_bytes()
}

pub fn time(row: &[Cell]) -> f64 {
    match row[0] {
        Cell::Float(time) => time,
        _ => unreachable!("the time is a float"),
    }
}

/// The columns of a row for which `fits` holds.
pub fn columns(row: &[Cell], fits: fn(&Cell) -> bool) -> Vec<usize> {
    (0..row.len())
        .filter(|&column| fits(&row[column]))
        .collect()
}

pub fn is_float(cell: &Cell) -> bool {
    matches!(cell, Cell::Float(_))
}

pub fn is_flag(cell: &Cell) -> bool {
    matches!(cell, Cell::Flag(_))
}

pub fn is_signed(cell: &Cell) -> bool {
    matches!(cell, Cell::Signed(_))
}
