//! What writers and readers note of what they did, a line each.
use super::check::{End, NotedTransaction, Read};
use super::readers::Language;
use std::collections::BTreeMap;
use std::error::Error;
use std::fmt::{self, Write as _};
use std::fs::{File, OpenOptions};
use std::io::{self, Write as _};
use std::ops::AddAssign;
use std::path::Path;

/// A file of notes. Each line is one write, so a process that is killed leaves whole lines.
pub struct Notes(File);

/// How many reads a process has made.
#[derive(Clone, Copy, Debug, Default, PartialEq, Eq)]
pub struct Counts {
    pub reads: u64,
    /// Those that failed, since the database was away.
    pub failed: u64,
    /// Keys that were read from memory, and from the database.
    pub hits: u64,
    pub misses: u64,
}

/// What the readers of each language have counted.
#[derive(Debug, Default)]
pub struct CountsByLanguage(BTreeMap<Language, Counts>);

impl CountsByLanguage {
    /// Those of one.
    pub fn of(&self, language: Language) -> Counts {
        self.0.get(&language).copied().unwrap_or_default()
    }
}

impl fmt::Display for CountsByLanguage {
    fn fmt(&self, f: &mut fmt::Formatter<'_>) -> fmt::Result {
        let counts = self.0.iter().map(|(language, counts)| {
            let Counts { reads, failed, hits, misses } = counts;
            format!(
                "in {language:?} {reads} reads, {failed} without the database, {hits} keys from \
                 memory, {misses} from the database"
            )
        });
        f.write_str(&counts.collect::<Vec<_>>().join("; "))
    }
}

/// What all have noted.
#[derive(Debug, Default)]
pub struct Noted {
    pub transactions: Vec<NotedTransaction>,
    pub reads: Vec<Read>,
    pub counts: CountsByLanguage,
}

impl Notes {
    /// A new file of a thread.
    pub fn create(folder: &Path, thread: &str) -> io::Result<Notes> {
        let path = folder.join(format!("notes-{thread}"));
        Ok(Notes(OpenOptions::new().create_new(true).append(true).open(path)?))
    }

    /// The transaction of this token was begun then.
    pub fn begun(&mut self, token: u64, from: u64) -> io::Result<()> {
        self.0.write_all(format!("B {token} {from}\n").as_bytes())
    }

    /// It was answered.
    pub fn ended(&mut self, token: u64, at: u64, end: End) -> io::Result<()> {
        self.0.write_all(format!("E {token} {at} {end:?}\n").as_bytes())
    }

    pub fn read(&mut self, read: &Read) -> io::Result<()> {
        let mut line = format!("R {} {} {} {}", read.from, read.to, read.keys.start, read.keys.end);
        for (key, token) in &read.rows {
            let _ = write!(line, " {key} {token}");
        }
        self.0.write_all((line + "\n").as_bytes())
    }

    /// What the process has counted until now. The last of these lines counts.
    pub fn counted(&mut self, counts: Counts) -> io::Result<()> {
        let Counts { reads, failed, hits, misses } = counts;
        self.0.write_all(format!("C {reads} {failed} {hits} {misses}\n").as_bytes())
    }
}

/// All notes of a folder.
pub fn noted(folder: &Path) -> Result<Noted, Box<dyn Error>> {
    let mut noted = Noted::default();
    for entry in std::fs::read_dir(folder)? {
        let entry = entry?;
        if let Some(thread) = entry.file_name().to_string_lossy().strip_prefix("notes-") {
            noted.add(Language::of(thread), &std::fs::read_to_string(entry.path())?)?;
        }
    }
    Ok(noted)
}

impl Noted {
    /// Adds the notes of a file, which may be that of a reader.
    fn add(&mut self, reader: Option<Language>, text: &str) -> Result<(), String> {
        let mut transactions: BTreeMap<u64, NotedTransaction> = BTreeMap::new();
        let mut counts = Counts::default();
        for line in text.lines() {
            let bad = || format!("a note that is none: {line}");
            let (kind, words) = line.split_once(' ').ok_or_else(bad)?;
            let (words, end) = match words.rsplit_once(' ') {
                Some((words, end)) if kind == "E" => (words, end_of(end)),
                _ => (words, None),
            };
            let numbers: Result<Vec<u64>, _> = words.split(' ').map(str::parse).collect();
            let numbers = numbers.map_err(|_| bad())?;
            match (kind, &numbers[..]) {
                ("B", &[token, from]) => {
                    transactions.insert(token, NotedTransaction { token, from, end: None });
                }
                ("E", &[token, at]) => {
                    let transaction = transactions.get_mut(&token).ok_or_else(bad)?;
                    transaction.end = Some((at, end.ok_or_else(bad)?));
                }
                ("R", &[from, to, start, end, ref rows @ ..]) => {
                    let rows = rows.chunks_exact(2).map(|row| (row[0], row[1])).collect();
                    self.reads.push(Read { reader, from, to, keys: start..end, rows });
                }
                ("C", &[reads, failed, hits, misses]) => {
                    counts = Counts { reads, failed, hits, misses };
                }
                _ => return Err(bad()),
            }
        }
        self.transactions.extend(transactions.into_values());
        if let Some(language) = reader {
            *self.counts.0.entry(language).or_default() += counts;
        }
        Ok(())
    }
}

impl AddAssign for Counts {
    fn add_assign(&mut self, other: Counts) {
        self.reads += other.reads;
        self.failed += other.failed;
        self.hits += other.hits;
        self.misses += other.misses;
    }
}

fn end_of(word: &str) -> Option<End> {
    [End::Done, End::NotDone, End::Unknown].into_iter().find(|end| format!("{end:?}") == word)
}

#[cfg(test)]
mod tests {
    use super::*;

    #[test]
    fn notes_are_read_as_they_were_written() {
        let mut noted = Noted::default();
        noted.add(None, "B 1 5\nE 1 7 Unknown\nB 2 8\n").unwrap();
        let (c, rust) = (Some(Language::C), Some(Language::Rust));
        noted.add(c, "C 2 0 1 1\nR 1 2 3 9 4 44 5 55\n").unwrap();
        noted.add(c, "C 8 3 5 0\nC 9 3 6 0\n").unwrap();
        noted.add(rust, "C 1 0 1 0\n").unwrap();
        let transaction = |token, from, end| NotedTransaction { token, from, end };
        assert_eq!(
            noted.transactions,
            [transaction(1, 5, Some((7, End::Unknown))), transaction(2, 8, None)]
        );
        let rows = vec![(4, 44), (5, 55)];
        let read = Read { reader: c, from: 1, to: 2, keys: 3..9, rows };
        assert_eq!(noted.reads, [read]);
        let counts = noted.counts.of(Language::C);
        assert_eq!(counts, Counts { reads: 11, failed: 3, hits: 7, misses: 1 });
        assert_eq!(noted.counts.of(Language::Rust).hits, 1);
        assert_eq!(noted.counts.of(Language::Python), Counts::default());
        for bad in ["E 3 7 Done\n", "B 1\n", "E 1 7 Often\n", "X 1\n", "B\n"] {
            assert!(noted.add(None, bad).is_err(), "{bad}");
        }
    }
}
