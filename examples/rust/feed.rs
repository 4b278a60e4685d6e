//! Feeds a row file from standard input chunk by chunk and prints the answers as they come, as the program `rows` does.
//!
//!     feed [BYTES]    BYTES of a chunk, at least 1; without it 4096
use std::io::{Read, Write};

mod woldgrater;

fn main() -> std::io::Result<()> {
    let size = std::env::args().nth(1).map_or(4096, |bytes| bytes.parse().expect("BYTES is a number"));
    assert!(size > 0, "BYTES is at least 1");
    let mut chunk = vec![0; size];
    let mut out = vec![0; woldgrater::room(size)];
    let mut file = woldgrater::Feeding::start();
    let (mut input, mut output) = (std::io::stdin().lock(), std::io::stdout().lock());
    loop {
        let len = input.read(&mut chunk)?;
        if len == 0 {
            break;
        }
        output.write_all(file.feed(&chunk[..len], &mut out).expect("the output has the room that is asked"))?;
        if file.stopped() {
            break;
        }
    }
    output.write_all(file.finish(&mut out).expect("the output has the room that is asked"))
}
