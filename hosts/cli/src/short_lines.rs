//! A file whose lines are no longer than rows need.
use std::io::{self, ErrorKind, Read};

/// The longest line that is read, in bytes. No row needs a tenth of that: what is longer is another
/// file, or an endless one.
const LONGEST: usize = 4096;

/// Reads a file, and fails in the midst of a line that is too long.
pub(crate) struct ShortLines<R> {
    file: R,
    /// How many bytes have come since the last end of a line.
    length: usize,
    /// The line that is read, from 1.
    line: u64,
}

impl<R: Read> ShortLines<R> {
    pub fn new(file: R) -> ShortLines<R> {
        ShortLines { file, length: 0, line: 1 }
    }

    /// The line that is read, from 1: after a failure the one that is too long.
    pub fn line(&self) -> u64 {
        self.line
    }
}

impl<R: Read> Read for ShortLines<R> {
    fn read(&mut self, room: &mut [u8]) -> io::Result<usize> {
        let count = self.file.read(room)?;
        for part in room[..count].split_inclusive(|byte| *byte == b'\n') {
            self.length += part.len();
            if self.length > LONGEST {
                let why = format!("a line has more than {LONGEST} bytes");
                return Err(io::Error::new(ErrorKind::InvalidData, why));
            }
            if part.ends_with(b"\n") {
                (self.length, self.line) = (0, self.line + 1);
            }
        }
        Ok(count)
    }
}

#[cfg(test)]
mod tests {
    use super::*;

    #[test]
    fn a_line_may_be_so_long_and_no_longer() {
        let line = |length: usize| [&b"a".repeat(length - 1)[..], b"\n"].concat();
        let read = |text: &[u8]| ShortLines::new(text).read_to_end(&mut Vec::new());
        let text = line(LONGEST).repeat(3);
        assert_eq!(read(&text).unwrap(), text.len());
        assert_eq!(read(b"\n\n").unwrap(), 2);
        assert!(read(&line(LONGEST + 1)).is_err());
        let text = [line(1), line(LONGEST + 1)].concat();
        let mut lines = ShortLines::new(&*text);
        assert!(lines.read_to_end(&mut Vec::new()).is_err());
        assert_eq!(lines.line(), 2);
        assert!(ShortLines::new(io::repeat(b'a')).read_to_end(&mut Vec::new()).is_err());
    }
}
