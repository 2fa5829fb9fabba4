//! A process that keeps rows of the table in memory: two threads read.
use super::check::Read;
use super::notes::{Counts, Notes};
use super::readers::Language;
use super::{KEYS, MEMORY, READ_TIMEOUT, THREADS};
use crate::Found;
use crate::log::now;
use crate::lossy::Draws;
use crate::nodes::end_file;
use krl_cache::{Cache, ReadError, Row, Table};
use std::io;
use std::ops::Range;
use std::path::{Path, PathBuf};
use std::sync::atomic::{AtomicBool, AtomicU64, Ordering};
use std::thread::{self, ScopedJoinHandle};
use std::time::{Duration, Instant};

/// For so long a thread reads the same keys again and again, and pauses between two reads.
const BURST: Duration = Duration::from_millis(30);
const READ_PAUSE: Duration = Duration::from_micros(100);

/// The pause after a read that failed.
const AWAY: Duration = Duration::from_millis(20);

/// How often a process notes what it has counted.
const COUNTS: Duration = Duration::from_millis(100);

/// A read is of at most this many keys.
const MOST_KEYS: u64 = 6;

/// What the threads of a process share.
struct Reader {
    items: Table,
    folder: PathBuf,
    /// The name of this process, which no other one ever has.
    name: String,
    reads: AtomicU64,
    failed: AtomicU64,
    is_over: AtomicBool,
}

/// How a thread calls the cache.
#[derive(Clone, Copy)]
enum Way {
    One,
    Several,
    Range,
}

/// Reads of the same keys.
struct Burst {
    keys: Range<u64>,
    way: Way,
    /// Whether memory is asked by a call of its own first.
    is_cached_first: bool,
}

/// Runs the process of this name.
pub fn run(name: &str, database: &str, folder: &Path) -> Found {
    let builder = Cache::builder(database.parse()?, folder.join("locks"));
    let cache = builder.memory(MEMORY).timeout(READ_TIMEOUT).open()?;
    let Some(items) = open(&cache, folder) else { return Ok(true) };
    let reader = Reader {
        items,
        folder: folder.to_path_buf(),
        name: name.to_string(),
        reads: AtomicU64::new(0),
        failed: AtomicU64::new(0),
        is_over: AtomicBool::new(false),
    };
    thread::scope(|scope| {
        let reader = &reader;
        let threads = (0..THREADS).map(|place| scope.spawn(move || reader.read_on(place)));
        let threads: Vec<ScopedJoinHandle<'_, _>> = threads.collect();
        let counted = reader.count_on();
        reader.is_over.store(true, Ordering::Relaxed);
        for thread in threads {
            thread.join().map_err(|_| io::Error::other("a thread panicked"))??;
        }
        counted
    })?;
    cache.close();
    Ok(true)
}

/// The table, once the database answers; none if the drive ends before that.
fn open(cache: &Cache, folder: &Path) -> Option<Table> {
    while !end_file(folder).exists() {
        match cache.table("item") {
            Ok(items) => return Some(items),
            Err(_) => thread::sleep(AWAY),
        }
    }
    None
}

impl Reader {
    /// Notes what all threads have counted, until the drive ends.
    fn count_on(&self) -> io::Result<()> {
        let mut notes = Notes::create(&self.folder, &self.name)?;
        while !end_file(&self.folder).exists() {
            thread::sleep(COUNTS);
            let counted = self.items.statistics();
            notes.counted(Counts {
                reads: self.reads.load(Ordering::Relaxed),
                failed: self.failed.load(Ordering::Relaxed),
                hits: counted.hits,
                misses: counted.misses,
            })?;
        }
        Ok(())
    }

    fn read_on(&self, place: u64) -> io::Result<()> {
        let mut notes = Notes::create(&self.folder, &format!("{}-{place}", self.name))?;
        let mut draws = Draws(now() ^ place);
        while !self.is_over.load(Ordering::Relaxed) {
            let start = draws.below(KEYS);
            let end = KEYS.min(start + 1 + draws.below(MOST_KEYS));
            let (keys, way) = match draws.below(3) {
                0 => (start..start + 1, Way::One),
                1 => (start..end, Way::Several),
                _ => (start..end, Way::Range),
            };
            let is_cached_first = draws.below(2) == 0;
            self.read_burst(&Burst { keys, way, is_cached_first }, &mut notes)?;
        }
        Ok(())
    }

    /// Reads the same keys again and again. Of reads after each other that show the same rows the
    /// first and the last are noted: if both fit an order of the transactions, those between do.
    fn read_burst(&self, burst: &Burst, notes: &mut Notes) -> io::Result<()> {
        let end = Instant::now() + BURST;
        let (mut first, mut last): (Option<Read>, Option<Read>) = (None, None);
        while Instant::now() < end {
            let from = now();
            let Ok(rows) = self.rows(burst) else {
                self.failed.fetch_add(1, Ordering::Relaxed);
                thread::sleep(AWAY);
                break;
            };
            let (to, keys) = (now(), burst.keys.clone());
            let read = Read { reader: Some(Language::Rust), from, to, keys, rows };
            self.reads.fetch_add(1, Ordering::Relaxed);
            if first.as_ref().is_some_and(|first| first.rows == read.rows) {
                last = Some(read);
            } else {
                last.take().map_or(Ok(()), |last| notes.read(&last))?;
                notes.read(&read)?;
                first = Some(read);
            }
            thread::sleep(READ_PAUSE);
        }
        last.map_or(Ok(()), |last| notes.read(&last))
    }

    /// The keys and tokens of the rows.
    fn rows(&self, burst: &Burst) -> Result<Vec<(u64, u64)>, ReadError> {
        let Burst { keys, way, is_cached_first } = burst;
        let range = keys.start.cast_signed()..keys.end.cast_signed();
        let cached = if *is_cached_first { self.cached(range.clone(), *way)? } else { None };
        let rows = match (cached, way) {
            (Some(rows), _) => rows,
            (None, Way::One) => self.items.get(range.start)?.into_iter().collect(),
            (None, Way::Several) => in_order(self.items.get_many(range.rev())?),
            (None, Way::Range) => self.items.range(range)?,
        };
        rows.iter().map(key_and_token).collect()
    }

    /// The rows, if all of them are in memory.
    fn cached(&self, range: Range<i64>, way: Way) -> Result<Option<Vec<Row>>, ReadError> {
        match way {
            Way::One | Way::Several => Ok(self.items.cached(range.rev())?.map(in_order)),
            Way::Range => self.items.cached_range(range),
        }
    }
}

/// The rows of keys that were asked for from the last one on.
fn in_order(rows: Vec<Option<Row>>) -> Vec<Row> {
    rows.into_iter().rev().flatten().collect()
}

fn key_and_token(row: &Row) -> Result<(u64, u64), ReadError> {
    let (key, token): (i64, i64) = (row.get("id")?, row.get("token")?);
    Ok((key.cast_unsigned(), token.cast_unsigned()))
}
