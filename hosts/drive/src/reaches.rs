//! What a longer reach of a server saves a reader, and what it costs a writer, run by hand: servers
//! of several reaches in one process, by turns, so that a busy machine is as busy for each.
use crate::Found;
use crate::trips::median;
use krl::operate::Reach;
use krl::{Client, Listener, MemoryStore, Row, Server, Value};
use std::error::Error;
use std::fs;
use std::ops::Range;
use std::path::Path;
use std::time::{Duration, Instant};

const REACHES: [usize; 4] = [8, 32, 64, 128];

const ROWS: u64 = 10_000;

/// How many rows a scan has, and how many a writer takes.
const SCAN: u64 = 100;

/// How many times each is measured. All rows are read in some of these turns only.
const TURNS: u64 = 100;
const READS_ALL_EVERY: u64 = 10;

/// How long a call waits: on a busy machine no figure counts, and the drive continues.
const TIMEOUT: Duration = Duration::from_secs(60);

type Done<T> = Result<T, Box<dyn Error>>;

pub fn run(folder: &Path) -> Found {
    fs::create_dir_all(folder)?;
    let sites: Done<Vec<_>> = REACHES.into_iter().map(|reach| Site::start(folder, reach)).collect();
    let mut sites = sites?;
    for turn in 0..TURNS {
        sites.iter_mut().try_for_each(|site| site.measure(turn))?;
    }
    println!(
        "| Reach | 1 row | {SCAN} rows | {ROWS} rows | {SCAN} to write | Of a reader, all in µs |"
    );
    println!("| --- | --- | --- | --- | --- | --- |");
    for site in sites {
        let times = site.times.map(|times| median(times).as_micros().to_string());
        println!("| {} | {} |", site.reach, times.join(" | "));
    }
    Ok(true)
}

/// A server of one reach, and two clients.
struct Site {
    reach: usize,
    reader: Client,
    writer: Client,
    /// What each of the [`WHAT`] took.
    times: [Vec<Duration>; WHAT.len()],
    _server: Server,
}

/// What is measured.
const WHAT: [What; 5] =
    [What::ReadOne, What::ReadMany, What::ReadAll, What::TakeFree, What::TakeBack];

#[derive(Clone, Copy, Debug, PartialEq, Eq)]
enum What {
    /// A reader reads one row for the first time.
    ReadOne,
    /// It reads many rows for the first time.
    ReadMany,
    /// It reads all rows for the first time.
    ReadAll,
    /// A writer takes rows that nobody has.
    TakeFree,
    /// It takes rows that the reader has, which gives them back one by one.
    TakeBack,
}

impl Site {
    fn start(folder: &Path, reach: usize) -> Done<Site> {
        let row = |key| Row { key, value: Value::from(key) };
        let store: MemoryStore = (0..ROWS).map(row).collect();
        let listener = Listener::bind(&"127.0.0.1:0".parse()?)?;
        let server = Server::builder(listener, store).reach(Reach::of(reach)?).start()?;
        let join = |number: u8| {
            let lock_file = folder.join(format!("reach-{reach}-{number}.lock"));
            let client = Client::builder(server.address(), number, lock_file);
            client.timeout(TIMEOUT).join()
        };
        let (reader, writer) = (join(0)?, join(1)?);
        Ok(Site { reach, reader, writer, times: Default::default(), _server: server })
    }

    fn measure(&mut self, turn: u64) -> Done<()> {
        for (place, what) in WHAT.into_iter().enumerate() {
            if what == What::ReadAll && !turn.is_multiple_of(READS_ALL_EVERY) {
                continue;
            }
            let took = self.time(what, turn)?;
            self.times[place].push(took);
            // Each begins with two clients that have nothing.
            self.reader.forget(..)?;
            self.writer.forget(..)?;
        }
        Ok(())
    }

    fn time(&self, what: What, turn: u64) -> Done<Duration> {
        // 37 and the number of ranges have no common factor: no two neighbors come in a row.
        let lo = turn * 37 % (ROWS / SCAN) * SCAN;
        let (reader, many) = (&self.reader, lo..lo + SCAN);
        match what {
            What::ReadOne => timed_read(reader, lo..lo + 1),
            What::ReadMany => timed_read(reader, many),
            What::ReadAll => timed_read(reader, 0..ROWS),
            What::TakeFree => self.timed_take(many),
            What::TakeBack => {
                timed_read(reader, many.clone())?;
                self.timed_take(many)
            }
        }
    }

    fn timed_take(&self, keys: Range<u64>) -> Done<Duration> {
        let begun = Instant::now();
        let (rows, pin) = self.writer.pin_for_write(keys.clone())?;
        let took = begun.elapsed();
        drop(pin);
        expect(rows.len(), &keys)?;
        Ok(took)
    }
}

fn timed_read(client: &Client, keys: Range<u64>) -> Done<Duration> {
    let begun = Instant::now();
    let rows = client.read(keys.clone())?;
    let took = begun.elapsed();
    expect(rows.len(), &keys)?;
    Ok(took)
}

fn expect(count: usize, keys: &Range<u64>) -> Done<()> {
    let is_all = count as u64 == keys.end - keys.start;
    if is_all { Ok(()) } else { Err(format!("{keys:?} has {count} rows").into()) }
}
