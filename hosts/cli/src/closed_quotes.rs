//! A file of CSV whose quotes are closed.
use crate::short_lines::ShortLines;
use std::io::{self, ErrorKind, Read};

/// Reads a file of CSV, and fails at its end if a quote is still open: a file that was cut off there
/// would otherwise be read as one row less, with a value that has the rest of the file.
pub(crate) struct ClosedQuotes<R> {
    lines: ShortLines<R>,
    state: State,
    /// The line that is read, and the one in which the last quote was opened, from 1.
    line: u64,
    opened: u64,
    has_ended_open: bool,
}

/// Where in a field the next byte is. The rules are those of the crate `csv`.
#[derive(Clone, Copy, Debug, PartialEq, Eq)]
enum State {
    Start,
    Plain,
    Quoted,
    /// A quote within a quoted field: it closes the field, or two of them stand for one.
    AfterQuote,
}

impl State {
    fn after(self, byte: u8) -> State {
        match (self, byte) {
            (State::Quoted, b'"') => State::AfterQuote,
            (State::Quoted, _) | (State::Start | State::AfterQuote, b'"') => State::Quoted,
            (_, b',' | b'\n' | b'\r') => State::Start,
            _ => State::Plain,
        }
    }
}

impl<R: Read> ClosedQuotes<R> {
    pub fn new(lines: ShortLines<R>) -> ClosedQuotes<R> {
        ClosedQuotes { lines, state: State::Start, line: 1, opened: 1, has_ended_open: false }
    }

    /// The line that is read, from 1: after a failure the one that caused it.
    pub fn line(&self) -> u64 {
        if self.has_ended_open { self.opened } else { self.lines.line() }
    }

    fn take(&mut self, byte: u8) {
        let next = self.state.after(byte);
        if self.state == State::Start && next == State::Quoted {
            self.opened = self.line;
        }
        self.line += u64::from(byte == b'\n');
        self.state = next;
    }
}

impl<R: Read> Read for ClosedQuotes<R> {
    fn read(&mut self, room: &mut [u8]) -> io::Result<usize> {
        let count = self.lines.read(room)?;
        if count == 0 && !room.is_empty() && self.state == State::Quoted {
            self.has_ended_open = true;
            return Err(io::Error::new(
                ErrorKind::UnexpectedEof,
                "it opens a quote that is never closed",
            ));
        }
        room[..count].iter().for_each(|byte| self.take(*byte));
        Ok(count)
    }
}

#[cfg(test)]
mod tests {
    use super::*;

    /// How many bytes the text has, or the line of the quote that is open at its end.
    fn read(text: &str) -> Result<usize, u64> {
        let mut quotes = ClosedQuotes::new(ShortLines::new(text.as_bytes()));
        quotes.read_to_end(&mut Vec::new()).map_err(|_| quotes.line())
    }

    #[test]
    fn a_file_may_not_end_within_a_quote() {
        for text in
            ["", "1,a\n", "1,\"a\"", "1,\"a\"\"b\"\n", "1,a\"b\n", "1,\"a\nb\"\r\n2,c", "\"1\"x\""]
        {
            assert_eq!(read(text), Ok(text.len()), "{text}");
        }
        for (text, line) in [
            ("key,value\n1,\"a\n2,b\n", 2),
            ("\"", 1),
            ("1,\"a\"\"", 1),
            ("1,\"a\"\n2,\"b\"\"c\n", 2),
            ("1,\"a\nb\"\n2,\"", 3),
        ] {
            assert_eq!(read(text), Err(line), "{text}");
        }
    }
}
