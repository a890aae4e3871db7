//! The lines of a stream: only those that a line feed ends.

use std::io::{ErrorKind, Read, Result};

/// The most bytes of a line, without its line feed.
pub const LONGEST_LINE: usize = 67_108_864;
const READ_AT_ONCE: usize = 65_536;

/// A line of a stream.
#[derive(Clone, Copy, PartialEq, Eq, Debug)]
pub enum Line<'a> {
    Whole(&'a [u8]),
    /// It has more bytes than a line may have, and they were passed over.
    TooLong,
}

/// The lines of an input, read by plain reads: a read is made only where no whole line is left of those before.
pub struct Lines<R> {
    input: R,
    bytes: Vec<u8>,
    /// Where the bytes begin that were not handed out.
    start: usize,
    /// Up to where no line feed was found.
    seen: usize,
    /// Whether the line is too long, and its bytes are passed over.
    passing: bool,
    ended: bool,
}

impl<R: Read> Lines<R> {
    pub fn start(input: R) -> Lines<R> {
        Lines { input, bytes: Vec::new(), start: 0, seen: 0, passing: false, ended: false }
    }

    fn feed(&self) -> Option<usize> {
        self.bytes[self.seen..].iter().position(|b| *b == b'\n').map(|k| self.seen + k)
    }

    /// Returns whether a whole line is there without a read.
    pub fn has_line(&mut self) -> bool {
        match self.feed() {
            Some(at) => {
                self.seen = at;
                true
            }
            None => {
                self.seen = self.bytes.len();
                false
            }
        }
    }

    /// Reads once. The bytes that were handed out are gone.
    fn read(&mut self) -> Result<()> {
        self.bytes.drain(..self.start);
        self.seen -= self.start;
        self.start = 0;
        if self.passing || self.bytes.len() > LONGEST_LINE {
            self.passing = true;
            self.bytes.clear();
            self.seen = 0;
        }
        let had = self.bytes.len();
        self.bytes.resize(had + READ_AT_ONCE, 0);
        let read = loop {
            match self.input.read(&mut self.bytes[had..]) {
                Err(e) if e.kind() == ErrorKind::Interrupted => {}
                done => break done,
            }
        };
        self.bytes.truncate(had + read.as_ref().copied().unwrap_or(0));
        self.ended = read? == 0;
        Ok(())
    }

    /// Returns the next line, or none at the end of the input. Bytes behind the last line feed are no line.
    pub fn next(&mut self) -> Result<Option<Line<'_>>> {
        while !self.has_line() {
            if self.ended {
                return Ok(None);
            }
            self.read()?;
        }
        let (from, to) = (self.start, self.seen);
        self.start = to + 1;
        self.seen = to + 1;
        let long = std::mem::take(&mut self.passing) || to - from > LONGEST_LINE;
        Ok(Some(if long { Line::TooLong } else { Line::Whole(&self.bytes[from..to]) }))
    }
}
