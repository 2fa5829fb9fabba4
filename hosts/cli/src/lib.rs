//! What the programs of this workspace share: rows of a krl table as text, that is, values as words and
//! files of rows as CSV or as JSON Lines; and what a program prints.
//!
//! Rows that are written read back as the same rows.
mod closed_quotes;
mod existing;
mod file;
mod file_format;
mod output;
mod progress;
mod reader;
mod short_lines;
mod values;
mod writer;

pub use existing::Existing;
pub use file::{BadFile, Line, read_file};
pub use file_format::FileFormat;
pub use output::{BROKEN_PIPE, print, print_completion, sentence};
pub use progress::Progress;
pub use reader::{BadRow, RowReader};
pub use values::{BadValue, ValueForm, digits_of};
pub use writer::RowWriter;
