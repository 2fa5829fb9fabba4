//! Rows of a table as a file.
use crate::arguments::Format;
use crate::commands::Context;
use crate::failure::Failure;
use krl_cli::{FileFormat, RowWriter};
use std::io::{self, BufWriter};
use std::ops::Range;

/// Prints the rows of the range as a file that `import` reads. They are those of one moment.
pub fn export(context: &Context<'_>, keys: Range<u64>) -> Result<(), Failure> {
    let rows = context.session.client.read(keys)?;
    let format = match context.printer.format {
        Format::Text => FileFormat::Csv,
        Format::Json => FileFormat::JsonLines,
    };
    let out = BufWriter::new(io::stdout().lock());
    let mut file = RowWriter::new(out, format, context.printer.values)?;
    rows.iter().try_for_each(|row| file.write(row))?;
    Ok(file.finish()?)
}
