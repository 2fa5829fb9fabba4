//! What is printed, as text and as JSON.
use crate::arguments::{Format, Options};
use crate::failure::Failure;
use krl::{Outcome, Row};
use krl_cli::{ValueForm, digits_of};
use serde_json::{Value as Json, json};
use std::io::{self, Write};

/// Prints what commands answer.
#[derive(Clone, Copy, Debug)]
pub struct Printer {
    pub format: Format,
    pub values: ValueForm,
}

impl Printer {
    pub fn of(options: &Options) -> Printer {
        Printer { format: options.format(), values: options.values() }
    }

    /// The rows, one a line; or an object that has them.
    pub fn rows(self, rows: &[Row]) -> Result<(), Failure> {
        match self.format {
            Format::Text => print(&self.lines(rows)),
            Format::Json => print_json(&json!({ "rows": self.json_rows(rows) })),
        }
    }

    /// How a write was judged.
    pub fn outcome(self, outcome: Outcome) -> Result<(), Failure> {
        match (self.format, outcome) {
            (Format::Json, _) => {
                print_json(&json!({ "outcome": outcome.to_string().to_lowercase() }))
            }
            (Format::Text, Outcome::Applied) => print("applied\n"),
            // The sentence on standard error reports it.
            (Format::Text, _) => Ok(()),
        }
    }

    /// How many rows of a range were deleted.
    pub fn deleted(self, count: usize) -> Result<(), Failure> {
        match self.format {
            Format::Text => print(&format!("deleted {}\n", rows(count))),
            Format::Json => print_json(&json!({ "deleted": count })),
        }
    }

    /// How many rows of a file were written, and how many the table had already and kept.
    pub fn imported(self, written: usize, kept: usize) -> Result<(), Failure> {
        match (self.format, kept) {
            (Format::Json, _) => print_json(&json!({ "imported": written, "kept": kept })),
            (Format::Text, 0) => print(&format!("imported {}\n", rows(written))),
            (Format::Text, _) => {
                print(&format!("imported {}, kept {kept} that were there\n", rows(written)))
            }
        }
    }

    /// What a watched range has after this many changes.
    pub fn change(self, number: u64, rows: &[Row]) -> Result<(), Failure> {
        match self.format {
            Format::Text => {
                let head = format!("# change {number}, rows {}\n", rows.len());
                print(&(head + &self.lines(rows)))
            }
            Format::Json => print_json(&json!({ "change": number, "rows": self.json_rows(rows) })),
        }
    }

    fn lines(self, rows: &[Row]) -> String {
        rows.iter().fold(String::new(), |lines, row| {
            lines + &format!("{}={}\n", row.key, self.values.show(&row.value))
        })
    }

    fn json_rows(self, rows: &[Row]) -> Json {
        let of_row = |row: &Row| {
            let hex = digits_of(row.value.as_ref());
            json!({ "key": row.key, "value": self.values.show(&row.value), "hex": hex })
        };
        rows.iter().map(of_row).collect()
    }
}

/// A number of rows, as words.
pub fn rows(count: usize) -> String {
    format!("{count} {}", if count == 1 { "row" } else { "rows" })
}

/// Shows the user a sentence, on standard error. If nobody takes it, the exit status is enough.
pub fn print_note(sentence: &str) {
    let _ = writeln!(io::stderr(), "krl-client: {sentence}");
}

/// Prints a text, whole and at once.
pub fn print(text: &str) -> Result<(), Failure> {
    Ok(krl_cli::print(text)?)
}

/// Prints a JSON value in a line.
pub fn print_json(value: &Json) -> Result<(), Failure> {
    print(&format!("{value}\n"))
}
