//! Buffered input, cut nowhere inside a line that could be well formed.

use std::io::{self, Read};

const SIZE: usize = 1 << 16;

/// Longer than any well-formed line: of a line that fills the buffer, so much is kept.
const LONG: usize = 1 << 10;

pub struct Input<Source> {
    source: Source,
    buffer: Vec<u8>,
    from: usize,
    to: usize,
}

impl<Source: Read> Input<Source> {
    pub fn new(source: Source) -> Self {
        Self {
            source,
            buffer: vec![0; SIZE],
            from: 0,
            to: 0,
        }
    }

    /// What was read and not yet consumed.
    pub fn text(&self) -> &[u8] {
        &self.buffer[self.from..self.to]
    }

    pub fn consume(&mut self, count: usize) {
        self.from += count;
    }

    /// Reads on, or says that the input is over. Called where the text is no whole line, so that a
    /// full buffer holds a part of one line.
    pub fn more(&mut self) -> io::Result<bool> {
        self.buffer.copy_within(self.from..self.to, 0);
        (self.from, self.to) = (0, self.to - self.from);
        if self.to == SIZE {
            self.to = LONG;
        }
        loop {
            match self.source.read(&mut self.buffer[self.to..]) {
                Ok(count) => {
                    self.to += count;
                    return Ok(count > 0);
                }
                Err(error) if error.kind() == io::ErrorKind::Interrupted => {}
                Err(error) => return Err(error),
            }
        }
    }
}
