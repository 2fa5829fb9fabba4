//! Files of rows that are written.
use crate::file_format::FileFormat;
use crate::values::{ValueForm, digits_of};
use krl::Row;
use serde::Serialize;
use std::io::{self, Write};

/// Writes rows to a file.
///
/// The caller hands in a buffered writer: each row is a write of some bytes.
pub struct RowWriter<W: Write> {
    out: Out<W>,
    values: ValueForm,
}

enum Out<W: Write> {
    Csv(Box<csv::Writer<W>>),
    JsonLines(W),
}

#[derive(Serialize)]
struct Line<'r> {
    key: u64,
    value: &'r str,
    hex: &'r str,
}

impl<W: Write> RowWriter<W> {
    /// A file of this format, whose values are words of this form. A CSV file begins with the names
    /// of its columns.
    ///
    /// # Errors
    ///
    /// If it can't be written.
    pub fn new(out: W, format: FileFormat, values: ValueForm) -> io::Result<RowWriter<W>> {
        let out = match format {
            FileFormat::JsonLines => Out::JsonLines(out),
            FileFormat::Csv => {
                let mut csv = Box::new(csv::Writer::from_writer(out));
                csv.write_record(["key", "value"]).map_err(io_error)?;
                Out::Csv(csv)
            }
        };
        Ok(RowWriter { out, values })
    }

    /// Writes a row.
    ///
    /// # Errors
    ///
    /// If it can't be written.
    pub fn write(&mut self, row: &Row) -> io::Result<()> {
        let value = self.values.show(&row.value);
        match &mut self.out {
            Out::Csv(csv) => csv.write_record([&row.key.to_string(), &value]).map_err(io_error),
            Out::JsonLines(out) => {
                let hex = digits_of(row.value.as_ref());
                serde_json::to_writer(&mut *out, &Line { key: row.key, value: &value, hex: &hex })?;
                out.write_all(b"\n")
            }
        }
    }

    /// Hands all that was written to the writer below, and flushes it.
    ///
    /// # Errors
    ///
    /// If it can't be written.
    pub fn finish(self) -> io::Result<()> {
        match self.out {
            Out::Csv(mut csv) => csv.flush(),
            Out::JsonLines(mut out) => out.flush(),
        }
    }
}

/// The error of the writer below, whose kind callers want to know.
fn io_error(error: csv::Error) -> io::Error {
    match error.into_kind() {
        csv::ErrorKind::Io(error) => error,
        other => io::Error::other(format!("{other:?}")),
    }
}

impl<W: Write> std::fmt::Debug for RowWriter<W> {
    fn fmt(&self, f: &mut std::fmt::Formatter<'_>) -> std::fmt::Result {
        f.debug_struct("RowWriter").field("values", &self.values).finish_non_exhaustive()
    }
}

#[cfg(test)]
mod tests {
    use super::*;
    use krl::Value;

    /// A writer that nobody reads.
    struct Broken;

    impl Write for Broken {
        fn write(&mut self, _: &[u8]) -> io::Result<usize> {
            Err(io::ErrorKind::BrokenPipe.into())
        }

        fn flush(&mut self) -> io::Result<()> {
            Err(io::ErrorKind::BrokenPipe.into())
        }
    }

    #[test]
    fn the_kind_of_an_error_of_the_writer_is_known() {
        for format in [FileFormat::Csv, FileFormat::JsonLines] {
            let mut rows = RowWriter::new(Broken, format, ValueForm::Text).unwrap();
            let row = Row { key: 5, value: Value::from(5) };
            // CSV has a buffer of its own.
            let error = (0..10_000).find_map(|_| rows.write(&row).err());
            assert_eq!(error.map(|error| error.kind()), Some(io::ErrorKind::BrokenPipe));
        }
    }
}
