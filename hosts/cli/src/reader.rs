//! Files of rows that are read.
use crate::closed_quotes::ClosedQuotes;
use crate::file_format::FileFormat;
use crate::short_lines::ShortLines;
use crate::values::ValueForm;
use csv::{ReaderBuilder, StringRecord};
use krl::{END, Row, Value};
use serde::Deserialize;
use std::fmt;
use std::io::{self, BufRead, BufReader, Read};

/// Reads the rows of a file, in their order, up to the first one that is bad.
pub struct RowReader<R: Read> {
    source: Source<R>,
    values: ValueForm,
    /// The line of the row that was read last, from 1.
    line: u64,
    has_failed: bool,
}

enum Source<R: Read> {
    Csv(Box<csv::Reader<ClosedQuotes<R>>>, StringRecord),
    JsonLines(BufReader<ShortLines<R>>),
}

/// Why a row can't be read, and in which line of the file, from 1.
#[derive(Debug)]
pub struct BadRow {
    /// The line in which the row begins.
    pub line: u64,
    why: Why,
}

#[derive(Debug)]
enum Why {
    Text(String),
    Io(io::Error),
}

/// A line of JSON. Anything else in it is refused: it may be a file of something else.
#[derive(Deserialize)]
#[serde(deny_unknown_fields)]
struct Line {
    key: u64,
    value: Option<String>,
    hex: Option<String>,
}

impl<R: Read> RowReader<R> {
    /// A file of this format, in which a value without a prefix is a word of this form.
    pub fn new(file: R, format: FileFormat, values: ValueForm) -> RowReader<R> {
        let lines = ShortLines::new(file);
        let source = match format {
            FileFormat::JsonLines => Source::JsonLines(BufReader::new(lines)),
            FileFormat::Csv => {
                let mut csv = ReaderBuilder::new();
                let csv = csv.has_headers(false).flexible(true);
                let csv = csv.from_reader(ClosedQuotes::new(lines));
                Source::Csv(Box::new(csv), StringRecord::new())
            }
        };
        RowReader { source, values, line: 0, has_failed: false }
    }

    /// The line in which the row begins that was read last, from 1.
    pub fn line(&self) -> u64 {
        self.line
    }

    fn read(&mut self) -> Result<Option<Row>, Why> {
        match &mut self.source {
            Source::Csv(csv, record) => read_record(csv, record, &mut self.line, self.values),
            Source::JsonLines(lines) => read_line(lines, &mut self.line, self.values),
        }
    }
}

impl<R: Read> Iterator for RowReader<R> {
    type Item = Result<Row, BadRow>;

    fn next(&mut self) -> Option<Result<Row, BadRow>> {
        if self.has_failed {
            return None;
        }
        let read = self.read().map_err(|why| {
            // A file is read in larger pieces than rows.
            let line = if let Why::Io(_) = why { self.source.line() } else { self.line };
            BadRow { line, why }
        });
        self.has_failed = read.is_err();
        read.transpose()
    }
}

impl<R: Read> Source<R> {
    /// The line up to which the file was read, from 1.
    fn line(&self) -> u64 {
        match self {
            Source::Csv(csv, _) => csv.get_ref().line(),
            Source::JsonLines(lines) => lines.get_ref().line(),
        }
    }
}

fn read_record<R: Read>(
    csv: &mut csv::Reader<R>,
    record: &mut StringRecord,
    line: &mut u64,
    values: ValueForm,
) -> Result<Option<Row>, Why> {
    loop {
        *line = csv.position().line();
        if !csv.read_record(record).map_err(why_of_csv)? {
            return Ok(None);
        }
        *line = record.position().map_or(*line, csv::Position::line);
        let is_first = record.position().is_some_and(|position| position.record() == 0);
        if !(is_first && record.get(0) == Some("key")) {
            return row_of_record(record, values).map(Some).map_err(Why::Text);
        }
    }
}

fn why_of_csv(error: csv::Error) -> Why {
    match error.into_kind() {
        csv::ErrorKind::Io(error) => Why::Io(error),
        csv::ErrorKind::Utf8 { err, .. } => Why::Text(err.to_string()),
        other => Why::Text(format!("{other:?}")),
    }
}

fn row_of_record(record: &StringRecord, values: ValueForm) -> Result<Row, String> {
    let mut fields = record.iter();
    let (Some(key), Some(value), None) = (fields.next(), fields.next(), fields.next()) else {
        let count = record.len();
        return Err(format!("it has {count} columns, and two are expected: key,value"));
    };
    let value = values.read(value).map_err(|error| error.to_string())?;
    Ok(Row { key: key_of_word(key)?, value })
}

fn key_of_word(word: &str) -> Result<u64, String> {
    let is_number = !word.is_empty() && word.bytes().all(|digit| digit.is_ascii_digit());
    let key = word.parse().ok().filter(|_| is_number).and_then(key_of_number);
    key.ok_or_else(|| bad_key(&word))
}

fn key_of_number(key: u64) -> Option<u64> {
    (key < END).then_some(key)
}

fn bad_key(key: &dyn fmt::Display) -> String {
    format!("'{key}' is not a key: a number from 0 to 2^63 - 2 is expected")
}

/// The row of the next line that is not empty.
fn read_line<R: Read>(
    lines: &mut BufReader<R>,
    place: &mut u64,
    values: ValueForm,
) -> Result<Option<Row>, Why> {
    let mut line = Vec::new();
    loop {
        line.clear();
        *place += 1;
        if lines.read_until(b'\n', &mut line).map_err(Why::Io)? == 0 {
            return Ok(None);
        }
        if !line.trim_ascii().is_empty() {
            return row_of_line(&line, values).map(Some).map_err(Why::Text);
        }
    }
}

fn row_of_line(line: &[u8], values: ValueForm) -> Result<Row, String> {
    let Line { key, value, hex } = serde_json::from_slice(line).map_err(|error| {
        format!("it is not a row: {error}; expected is {{\"key\":15,\"value\":\"one\"}}")
    })?;
    let key = key_of_number(key).ok_or_else(|| bad_key(&key))?;
    let value = value_of(value.as_deref(), hex.as_deref(), values)?;
    Ok(Row { key, value })
}

/// The value, by its bytes if the line has them: they are the same in each form. A word next to them
/// has to be one for them, in some form.
fn value_of(value: Option<&str>, hex: Option<&str>, values: ValueForm) -> Result<Value, String> {
    let read = match (hex, value) {
        (Some(digits), _) => ValueForm::Hex.read(digits),
        (None, Some(word)) => values.read(word),
        (None, None) => return Err("it has no value: \"value\" or \"hex\" is expected".into()),
    };
    let read = read.map_err(|error| error.to_string())?;
    let is_read = |form: &ValueForm, word| form.read(word).is_ok_and(|value| value == read);
    match value {
        Some(word) if !ValueForm::ALL.iter().any(|form| is_read(form, word)) => {
            Err(format!("its \"value\" '{word}' and its \"hex\" are two values: one is expected"))
        }
        _ => Ok(read),
    }
}

impl fmt::Display for BadRow {
    fn fmt(&self, f: &mut fmt::Formatter<'_>) -> fmt::Result {
        match &self.why {
            Why::Text(why) => write!(f, "line {}: {why}", self.line),
            Why::Io(error) => write!(f, "line {} can't be read: {error}", self.line),
        }
    }
}

impl std::error::Error for BadRow {}

impl<R: Read> fmt::Debug for RowReader<R> {
    fn fmt(&self, f: &mut fmt::Formatter<'_>) -> fmt::Result {
        f.debug_struct("RowReader").field("line", &self.line).finish_non_exhaustive()
    }
}

#[cfg(test)]
mod tests {
    use super::*;
    use crate::writer::RowWriter;

    const FORMATS: [FileFormat; 2] = [FileFormat::Csv, FileFormat::JsonLines];

    fn row(key: u64, value: &[u8]) -> Row {
        Row { key, value: Value::try_from(value).unwrap() }
    }

    /// The rows of a text, and why reading ended early, if it did.
    fn read(text: &[u8], format: FileFormat) -> (Vec<Row>, Option<String>) {
        let (mut rows, mut why) = (Vec::new(), None);
        for read in RowReader::new(text, format, ValueForm::Text) {
            match read {
                Ok(row) => rows.push(row),
                Err(error) => why = Some(error.to_string()),
            }
        }
        (rows, why)
    }

    #[test]
    fn what_is_written_reads_back() {
        let rows = [
            row(0, b""),
            row(1, b"one"),
            row(2, b"a,b \"c\""),
            row(3, b"text:u64:5"),
            row(4, b"line\nbreak"),
            row(5, &[0xff; 32]),
            row(6, b"\0\0\0\0\0\0\0\x05"),
            row(7, "ä ".as_bytes()),
            row(END - 1, b"last"),
        ];
        for format in FORMATS {
            for values in [ValueForm::Text, ValueForm::Hex, ValueForm::Number] {
                let mut text = Vec::new();
                let mut writer = RowWriter::new(&mut text, format, values).unwrap();
                rows.iter().try_for_each(|row| writer.write(row)).unwrap();
                writer.finish().unwrap();
                let read: Result<Vec<Row>, _> = RowReader::new(&*text, format, values).collect();
                assert_eq!(read.unwrap(), rows, "{format:?} {values:?}");
            }
        }
    }

    #[test]
    fn files_of_other_programs_are_read() {
        let rows = vec![row(1, b"one"), row(2, b"two")];
        for text in
            ["1,one\n2,two\n", "key,value\n1,one\n2,two", "key,word\r\n1,one\r\n\r\n2,two\r\n"]
        {
            assert_eq!(read(text.as_bytes(), FileFormat::Csv), (rows.clone(), None), "{text}");
        }
        let text = "{\"value\": \"one\", \"key\": 1}\n\n{\"key\":2,\"hex\":\"74776f\"}";
        assert_eq!(read(text.as_bytes(), FileFormat::JsonLines), (rows, None));
        for format in FORMATS {
            assert_eq!(read(b"", format), (vec![], None));
        }
    }

    #[test]
    fn a_bad_row_is_reported_with_its_line_and_ends_the_file() {
        let one = "key,value\n1,one\n";
        for (row, message) in [
            ("2\n3,a", "line 3: it has 1 columns, and two are expected: key,value"),
            ("2,a,b\n3,a", "line 3: it has 3 columns"),
            ("-2,a\n3,a", "line 3: '-2' is not a key: a number from 0 to 2^63 - 2 is expected"),
            ("9223372036854775807,a", "line 3: '9223372036854775807' is not a key"),
            ("key,a\n", "line 3: 'key' is not a key"),
            ("2,hex:1", "line 3: 'hex:1' is not a value"),
            ("2,aaaaaaaaaaaaaaaaaaaaaaaaaaaaaaaaa", "line 3: a value has at most 32 bytes"),
        ] {
            let (rows, why) = read(format!("{one}{row}").as_bytes(), FileFormat::Csv);
            assert_eq!(rows.len(), 1);
            assert!(why.as_ref().is_some_and(|why| why.starts_with(message)), "{row}: {why:?}");
        }
        let (_, why) = read(b"1,one\n\xff\xff,a\n", FileFormat::Csv);
        assert!(why.is_some_and(|why| why.starts_with("line 2: invalid utf-8")));
        for (row, message) in [
            ("{\"key\":2}", "line 2: it has no value: \"value\" or \"hex\" is expected"),
            ("{\"key\":-2,\"value\":\"a\"}", "line 2: it is not a row: invalid value"),
            ("{\"key\":9223372036854775807,\"hex\":\"\"}", "line 2: '9223372036854775807' is no"),
            ("{\"key\":2,\"value\":\"a\",\"more\":1}", "line 2: it is not a row: unknown field"),
            ("{\"key\":2,\"hex\":\"1\"}", "line 2: '1' is not a value"),
            ("{\"key\":2,\"value\":\"a\",\"hex\":\"62\"}", "line 2: its \"value\" 'a' and its"),
            ("2,a", "line 2: it is not a row"),
        ] {
            let text = format!("{{\"key\":1,\"value\":\"one\"}}\n{row}\n");
            let (rows, why) = read(text.as_bytes(), FileFormat::JsonLines);
            assert_eq!(rows.len(), 1);
            assert!(why.as_ref().is_some_and(|why| why.starts_with(message)), "{row}: {why:?}");
        }
    }

    #[test]
    fn a_file_that_cannot_be_read_to_its_end_is_reported_with_the_line() {
        let (_, why) = read(b"key,value\n1,\"a\n2,b\n", FileFormat::Csv);
        let message = "line 2 can't be read: it opens a quote that is never closed";
        assert_eq!(why.unwrap(), message);
        let long = "a".repeat(5000);
        for (text, format) in [
            (format!("key,value\n1,{long}"), FileFormat::Csv),
            (format!("{{\"key\":1,\"hex\":\"\"}}\n{{{long}"), FileFormat::JsonLines),
        ] {
            let why = read(text.as_bytes(), format).1.unwrap();
            assert_eq!(why, "line 2 can't be read: a line has more than 4096 bytes");
        }
    }

    #[test]
    fn an_endless_line_is_not_read_to_its_end() {
        for format in FORMATS {
            for byte in [b' ', b'"', b'1', 0] {
                let mut rows = RowReader::new(io::repeat(byte), format, ValueForm::Text);
                let message = rows.next().unwrap().unwrap_err().to_string();
                assert!(message.ends_with("a line has more than 4096 bytes"), "{message}");
                assert!(rows.next().is_none());
            }
        }
    }
}
