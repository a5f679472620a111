//! A file's lines, one at a time.

use std::io::{self, BufRead, Read};

/// How many bytes a line has at most, without its line feed.
pub const LONGEST: usize = 1_048_576;

/// The lines of an input. One line is held at a time, and of a line that is too long its beginning.
pub struct Lines<R> {
    input: R,
    line: Vec<u8>,
    number: u64,
}

/// A line: its number, counted from 1, and its bytes without line feed and carriage return.
#[derive(Clone, Copy, Debug, PartialEq, Eq)]
pub struct Text<'a> {
    /// Counted from 1.
    pub number: u64,
    /// What stands in the line.
    pub bytes: &'a [u8],
    /// The line has more bytes than [`LONGEST`], and these are its beginning.
    pub cut: bool,
}

impl<R: BufRead> Lines<R> {
    /// Before the first line.
    pub fn new(input: R) -> Self {
        Self { input, line: Vec::new(), number: 0 }
    }

    /// The next line; none at the end of the input. The last line may lack its line feed.
    ///
    /// # Errors
    ///
    /// What the input answers.
    pub fn advance(&mut self) -> io::Result<Option<Text<'_>>> {
        self.line.clear();
        let mut input = self.input.by_ref().take(LONGEST as u64 + 1);
        if input.read_until(b'\n', &mut self.line)? == 0 {
            return Ok(None);
        }
        self.number += 1;
        let (bytes, ended) = match self.line.strip_suffix(b"\n") {
            Some(bytes) => (bytes, true),
            None => (&self.line[..], false),
        };
        let cut = !ended && bytes.len() > LONGEST;
        let bytes = bytes.strip_suffix(b"\r").unwrap_or(bytes);
        Ok(Some(Text { number: self.number, bytes, cut }))
    }
}
