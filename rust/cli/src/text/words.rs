//! The words of a line: numbers, names and colons, with blanks between them.

use super::Reason;

/// A word, or the end of the line.
#[derive(Clone, Copy, Debug, PartialEq, Eq)]
pub enum Word<'a> {
    /// Digits only. A number above 2^32 is held to 2^32, which is above every limit of a line.
    Number(u64),
    /// Anything else that prints.
    Name(&'a [u8]),
    Colon,
    End,
}

/// What is left of a line.
pub struct Words<'a> {
    rest: &'a [u8],
}

impl<'a> Words<'a> {
    pub fn new(line: &'a [u8]) -> Self {
        Self { rest: line }
    }

    /// Is a # the next byte that is no blank?
    pub fn at_hash(&mut self) -> bool {
        self.skip_blanks();
        self.rest.first() == Some(&b'#')
    }

    /// Takes the next word. Where a byte follows it that has no place in a line, this is said.
    #[inline]
    pub fn take(&mut self) -> Result<Word<'a>, Reason> {
        self.skip_blanks();
        let length = self.rest.iter().position(|&byte| !is_letter(byte));
        let (word, rest) = self.rest.split_at(length.unwrap_or(self.rest.len()));
        match rest.first() {
            None | Some(b' ' | b'\t' | b':') => (),
            Some(b'#') => return Err(Reason::Comment),
            Some(b'\r') => return Err(Reason::Return),
            Some(_) => return Err(Reason::Byte),
        }
        self.rest = rest;
        Ok(if word.is_empty() { self.take_colon() } else { said(word) })
    }

    /// A colon, or the end: blanks and words have been taken.
    fn take_colon(&mut self) -> Word<'a> {
        match self.rest.split_first() {
            Some((_, rest)) => {
                self.rest = rest;
                Word::Colon
            }
            None => Word::End,
        }
    }

    #[inline]
    fn skip_blanks(&mut self) {
        while let [b' ' | b'\t', rest @ ..] = self.rest {
            self.rest = rest;
        }
    }
}

/// Does it print, and is it part of a word?
fn is_letter(byte: u8) -> bool {
    matches!(byte, b'!'..=b'~') && byte != b':' && byte != b'#'
}

fn said(word: &[u8]) -> Word<'_> {
    let mut value = 0;
    for &byte in word {
        if !byte.is_ascii_digit() {
            return Word::Name(word);
        }
        value = (value * 10 + u64::from(byte - b'0')).min(1 << 32);
    }
    Word::Number(value)
}
