//! Plays a row file from standard input and prints the output, as the program `rows` does.
use std::io::{Read, Write};

mod woldgrater;

fn main() -> std::io::Result<()> {
    let mut rows = Vec::new();
    std::io::stdin().read_to_end(&mut rows)?;
    let mut out = vec![0; woldgrater::room(rows.len())];
    let played = woldgrater::play(&rows, &mut out).expect("the output has the room that is asked");
    std::io::stdout().write_all(played)
}
