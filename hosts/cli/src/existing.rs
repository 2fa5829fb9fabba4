//! What an import does with rows that are there.
use clap::ValueEnum;

/// What an import does with a row of the file whose key has a row in the table.
#[derive(Clone, Copy, Debug, PartialEq, Eq, ValueEnum)]
pub enum Existing {
    /// The import ends there, and is refused
    Refuse,
    /// The table's row stays as it is
    Keep,
    /// The table's row gets the value in the file
    Replace,
}

impl Existing {
    /// What to give if a row is there already, as the end of a sentence.
    pub const CHOICES: &str = "--existing keep leaves such rows as they are, as after an import that \
                               was cut off, and --existing replace gives them the values of the file";
}
