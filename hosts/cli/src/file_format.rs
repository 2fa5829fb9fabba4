//! The formats of files of rows.
use std::path::Path;

/// How a file has rows.
#[derive(Clone, Copy, Debug, PartialEq, Eq)]
pub enum FileFormat {
    /// Two columns, `key` and `value`, with the value as a word. The first line may name them.
    Csv,
    /// An object a line, with the key and the value: `{"key":15,"value":"one","hex":"6f6e65"}`.
    JsonLines,
}

impl FileFormat {
    /// The format that the ending of a file's name stands for: JSON Lines for `.jsonl`, `.ndjson`
    /// and `.json`, otherwise CSV.
    #[must_use]
    pub fn of_name(path: &Path) -> FileFormat {
        match path.extension().and_then(|ending| ending.to_str()) {
            Some("jsonl" | "ndjson" | "json") => FileFormat::JsonLines,
            _ => FileFormat::Csv,
        }
    }
}

#[cfg(test)]
mod tests {
    use super::*;

    #[test]
    fn the_ending_of_a_name_gives_the_format() {
        for (name, format) in [
            ("rows.csv", FileFormat::Csv),
            ("rows", FileFormat::Csv),
            ("/dev/stdin", FileFormat::Csv),
            ("a.b/rows.jsonl", FileFormat::JsonLines),
            ("rows.ndjson", FileFormat::JsonLines),
            ("rows.json", FileFormat::JsonLines),
        ] {
            assert_eq!(FileFormat::of_name(Path::new(name)), format, "{name}");
        }
    }
}
