//! What readers and writers note of what they did, a line each.
use std::fs::{File, OpenOptions};
use std::io::{self, ErrorKind, Write};
use std::path::{Path, PathBuf};
use std::time::{SystemTime, UNIX_EPOCH};

/// What a process notes. All times are nanoseconds of the machine's clock.
#[derive(Clone, Debug, PartialEq, Eq)]
pub enum Note {
    /// A write was begun, after which the key has this value, or no entry.
    Begun { at: u64, key: u64, value: Option<u64> },
    /// The last write of the key that was begun was answered: it was applied, or it changed
    /// nothing.
    Answered { at: u64, key: u64, applied: bool },
    /// A range was read.
    Read { from: u64, to: u64, lo: u64, hi: u64, rows: Vec<(u64, u64)> },
}

impl Note {
    fn line(&self) -> String {
        match self {
            Note::Begun { at, key, value } => {
                format!(
                    "B {at} {key} {}\n",
                    value.map_or("-".to_string(), |value| value.to_string())
                )
            }
            Note::Answered { at, key, applied } => format!("A {at} {key} {}\n", u8::from(*applied)),
            Note::Read { from, to, lo, hi, rows } => {
                let rows: Vec<String> =
                    rows.iter().map(|(key, value)| format!(" {key} {value}")).collect();
                format!("R {from} {to} {lo} {hi}{}\n", rows.concat())
            }
        }
    }

    /// The note of a line, if it is whole: a process that was killed may leave half a line.
    fn of(line: &str) -> Option<Note> {
        let (kind, rest) = line.strip_suffix('\n')?.split_once(' ')?;
        let words: Vec<&str> = rest.split(' ').collect();
        let numbers: Vec<Option<u64>> = words.iter().map(|word| word.parse().ok()).collect();
        match (kind, &numbers[..]) {
            ("B", &[Some(at), Some(key), value]) => Some(Note::Begun { at, key, value }),
            ("A", &[Some(at), Some(key), Some(applied)]) => {
                Some(Note::Answered { at, key, applied: applied == 1 })
            }
            ("R", &[Some(from), Some(to), Some(lo), Some(hi), ref rows @ ..]) => {
                let rows = rows.chunks(2).map(|row| match row {
                    [Some(key), Some(value)] => Some((*key, *value)),
                    _ => None,
                });
                Some(Note::Read { from, to, lo, hi, rows: rows.collect::<Option<Vec<_>>>()? })
            }
            _ => None,
        }
    }
}

/// A log that is open at its end. A process that takes the place of a killed one continues in its
/// log.
pub struct Log(File);

impl Log {
    pub fn open(folder: &Path, number: u8) -> io::Result<Log> {
        let path = path(folder, number);
        // A line that a killed process left half written is ended, so that no other line is taken
        // for its rest.
        let is_torn =
            std::fs::read(&path).is_ok_and(|bytes| bytes.last().is_some_and(|last| *last != b'\n'));
        let mut file = OpenOptions::new().create(true).append(true).open(path)?;
        if is_torn {
            file.write_all(b" torn\n")?;
        }
        Ok(Log(file))
    }

    pub fn note(&mut self, note: &Note) -> io::Result<()> {
        self.0.write_all(note.line().as_bytes())
    }
}

/// All notes of a client. One that has not begun has no log, and so no notes.
pub fn notes(folder: &Path, number: u8) -> io::Result<Vec<Note>> {
    match std::fs::read_to_string(path(folder, number)) {
        Ok(text) => Ok(text.split_inclusive('\n').filter_map(Note::of).collect()),
        Err(error) if error.kind() == ErrorKind::NotFound => Ok(Vec::new()),
        Err(error) => Err(error),
    }
}

fn path(folder: &Path, number: u8) -> PathBuf {
    folder.join(format!("client-{number}.log"))
}

/// The machine's clock in nanoseconds.
pub fn now() -> u64 {
    let since = SystemTime::now().duration_since(UNIX_EPOCH).unwrap_or_default();
    u64::try_from(since.as_nanos()).unwrap_or(u64::MAX)
}

#[cfg(test)]
mod tests {
    use super::*;

    #[test]
    fn notes_are_read_as_they_were_written() {
        let notes = [
            Note::Begun { at: 1, key: 2, value: Some(3) },
            Note::Begun { at: 1, key: 2, value: None },
            Note::Answered { at: 4, key: 2, applied: true },
            Note::Answered { at: 4, key: 2, applied: false },
            Note::Read { from: 5, to: 6, lo: 0, hi: 9, rows: vec![] },
            Note::Read { from: 5, to: 6, lo: 0, hi: 9, rows: vec![(1, 2), (3, 4)] },
        ];
        for note in notes {
            let line = note.line();
            assert_eq!(Note::of(&line), Some(note));
            assert_eq!(Note::of(line.trim_end()), None);
        }
        assert_eq!(Note::of("R 5 6 0 9 1\n"), None);
        assert_eq!(Note::of("R 5 6 0 9 1 2 torn\n"), None);
    }

    #[test]
    fn who_has_not_begun_has_no_notes() {
        let no_folder = std::env::temp_dir().join(format!("krl-no-log-{}", std::process::id()));
        assert_eq!(notes(&no_folder, 1).unwrap(), []);
    }
}
