//! Whole files of rows.
use crate::file_format::FileFormat;
use crate::progress::Progress;
use crate::reader::{BadRow, RowReader};
use crate::values::ValueForm;
use krl::Row;
use std::fmt;
use std::fs::{File, Metadata};
use std::io;
use std::os::fd::AsFd;
use std::path::{Path, PathBuf};

/// A row of a file, and the line in which it begins, from 1.
#[derive(Clone, Debug, PartialEq, Eq)]
pub struct Line {
    /// The row.
    pub row: Row,
    /// The line.
    pub place: u64,
}

/// Why the rows of a file can't be had.
#[derive(Debug)]
pub struct BadFile {
    path: PathBuf,
    why: Why,
}

#[derive(Debug)]
enum Why {
    Io(io::Error),
    Row(BadRow),
    Twice { key: u64, places: [u64; 2] },
}

/// All rows of the file, or of standard input if it is `-`, in ascending order of their keys. A
/// terminal shows how far it has come.
///
/// # Errors
///
/// If the file can't be read, has something that is not a row, or has two rows of one key.
pub fn read_file(path: &Path, format: FileFormat, values: ValueForm) -> Result<Vec<Line>, BadFile> {
    let lines = read(path, format, values).and_then(without_twice);
    lines.map_err(|why| BadFile { path: path.to_path_buf(), why })
}

fn read(path: &Path, format: FileFormat, values: ValueForm) -> Result<Vec<Line>, Why> {
    // What opens `-` reads standard input, also where there is no /dev/stdin.
    let file = if is_standard_input(path) {
        io::stdin().as_fd().try_clone_to_owned().map(File::from)
    } else {
        File::open(path)
    };
    let file = file.map_err(Why::Io)?;
    let length = file.metadata().ok().filter(Metadata::is_file).map(|file| file.len());
    let progress = Progress::of_bytes("reading the file", length);
    let mut rows = RowReader::new(progress.reads(file), format, values);
    let mut lines = Vec::new();
    while let Some(row) = rows.next() {
        lines.push(Line { row: row.map_err(Why::Row)?, place: rows.line() });
    }
    Ok(lines)
}

fn is_standard_input(path: &Path) -> bool {
    path == Path::new("-")
}

/// The lines in ascending order of their keys, if no two have one key.
fn without_twice(mut lines: Vec<Line>) -> Result<Vec<Line>, Why> {
    lines.sort_by_key(|line| line.row.key);
    let twice = lines.windows(2).find(|pair| pair[0].row.key == pair[1].row.key);
    match twice {
        None => Ok(lines),
        Some(pair) => {
            let places = [pair[0].place, pair[1].place];
            Err(Why::Twice { key: pair[0].row.key, places })
        }
    }
}

impl fmt::Display for BadFile {
    fn fmt(&self, f: &mut fmt::Formatter<'_>) -> fmt::Result {
        let file = match &*self.path {
            path if is_standard_input(path) => "standard input".to_string(),
            path => format!("the file {}", path.display()),
        };
        match &self.why {
            Why::Io(error) => write!(f, "{file} can't be read: {error}"),
            Why::Row(bad) => write!(f, "{file}, {bad}"),
            Why::Twice { key, places: [first, second] } => {
                write!(f, "{file}, line {second}: the key {key} has a row in line {first} already")
            }
        }
    }
}

impl std::error::Error for BadFile {}

#[cfg(test)]
mod tests {
    use super::*;
    use krl::Value;

    fn line(key: u64, place: u64) -> Line {
        Line { row: Row { key, value: Value::from(place) }, place }
    }

    #[test]
    fn lines_are_in_the_order_of_their_keys() {
        let lines = without_twice(vec![line(5, 2), line(3, 3), line(4, 4)]).unwrap();
        assert_eq!(lines, [line(3, 3), line(4, 4), line(5, 2)]);
    }

    #[test]
    fn a_key_that_comes_twice_is_reported_with_both_lines() {
        let why = without_twice(vec![line(5, 2), line(3, 3), line(5, 4)]).unwrap_err();
        let message = BadFile { path: "a.csv".into(), why }.to_string();
        assert_eq!(message, "the file a.csv, line 4: the key 5 has a row in line 2 already");
    }

    #[test]
    fn a_file_that_is_not_there_is_reported() {
        let path = Path::new("/nowhere/rows.csv");
        let message = read_file(path, FileFormat::Csv, ValueForm::Text).unwrap_err().to_string();
        assert!(
            message.starts_with("the file /nowhere/rows.csv can't be read: No such"),
            "{message}"
        );
    }
}
