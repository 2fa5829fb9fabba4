//! Two servers, each with a part of the keys. One is killed now and then while clients of both read
//! and write.
//!
//! A writer gives a row of each shard the next number, the left row first. So at each moment the
//! left number is the right one, or one more; and no scan of both may find anything else.
use crate::Found;
use crate::applied::applied;
use crate::server::Server;
use krl::{Client, Outcome, Row, Servers, Shard, ShardMap, Value};
use krl_testing::ports::free_address;
use std::error::Error;
use std::ops::Range;
use std::path::Path;
use std::sync::atomic::{AtomicBool, AtomicU64, Ordering};
use std::thread;
use std::time::Duration;

pub const LEFT: u64 = 10;
pub const RIGHT: u64 = 1010;
pub const BOUND: u64 = 1000;
pub const BOTH: Range<u64> = 0..2000;

pub const READERS: [u8; 2] = [0, 2];
pub const WRITER: u8 = 1;

/// How long a call of a client waits.
const TIMEOUT: Duration = Duration::from_secs(3);

/// The writer rests between two numbers, so that the caches know both rows now and then.
const REST: Duration = Duration::from_millis(2);

/// A run that does nothing shows nothing.
const LEAST_WRITES: u64 = 50;
const LEAST_SCANS: u64 = 1000;
const LEAST_READS: u64 = 50;

/// What the threads of a run share.
#[derive(Default)]
pub struct Run {
    is_over: AtomicBool,
    /// The greatest number that was begun, and the greatest that is answered at both shards.
    begun: AtomicU64,
    answered: AtomicU64,
    wrong: AtomicU64,
    /// The calls that ended without an answer.
    failed: AtomicU64,
}

/// How many times a reader was answered.
#[derive(Default)]
pub struct Count {
    cached: u64,
    read: u64,
}

/// Signals that the run is over, even if it fails.
struct Over<'r>(&'r Run);

impl Drop for Over<'_> {
    fn drop(&mut self) {
        self.0.is_over.store(true, Ordering::SeqCst);
    }
}

pub fn run(folder: &Path, seconds: u64, kills: u64) -> Found {
    let mut servers = [start(&folder.join("left"))?, start(&folder.join("right"))?];
    let at = |server: &Server| server.address().parse::<Servers>();
    let map =
        ShardMap::new(vec![Shard::new(0, at(&servers[0])?), Shard::new(BOUND, at(&servers[1])?)])?;
    let join = |number| Client::builder(map.clone(), number, folder).timeout(5 * TIMEOUT).join();
    let writer = join(WRITER)?;
    let readers = [join(READERS[0])?, join(READERS[1])?];
    for key in [LEFT, RIGHT] {
        applied(writer.insert(key, Value::from(0))?)?;
    }
    for client in readers.iter().chain([&writer]) {
        client.set_timeout(TIMEOUT);
    }
    let run = Run::default();
    let counts = run.work(&writer, &readers, || kill_for(&mut servers, seconds, kills))?;
    run.judge(&counts, &format!("{kills} kills of servers of two shards"))
}

/// What a thread that panicked comes to.
fn refused() -> krl::Error {
    krl::ErrorKind::Stopped.into()
}

fn start(folder: &Path) -> Result<Server, Box<dyn Error>> {
    Server::start(folder, &free_address()?.to_string(), "sqlite", 0)
}

/// Kills a server each time another part of the time has passed, one after the other.
fn kill_for(servers: &mut [Server], seconds: u64, kills: u64) -> Result<(), Box<dyn Error>> {
    let part = Duration::from_secs(seconds) / u32::try_from(kills + 1)?;
    for server in (0..servers.len()).cycle().take(usize::try_from(kills)?) {
        thread::sleep(part);
        servers[server].process.kill()?;
        thread::sleep(Duration::from_millis(100));
        servers[server].start_again()?;
    }
    thread::sleep(part);
    Ok(())
}

impl Run {
    /// Has these clients write and read until something else is done.
    pub fn work(
        &self,
        writer: &Client,
        readers: &[Client],
        until: impl FnOnce() -> Result<(), Box<dyn Error>>,
    ) -> Result<Vec<Count>, Box<dyn Error>> {
        thread::scope(|scope| {
            let over = Over(self);
            let mut threads = Vec::new();
            for client in readers {
                threads.push(scope.spawn(|| Ok(self.scan_again(client))));
                threads.push(scope.spawn(|| self.read_again(client)));
            }
            let writing = scope.spawn(|| self.write_again(writer));
            until()?;
            drop(over);
            writing.join().map_err(|_| "the writer panicked")??;
            let counted = threads.into_iter().map(|thread| thread.join().unwrap_or(Err(refused())));
            Ok(counted.collect::<Result<_, _>>()?)
        })
    }

    /// The calls that ended without an answer.
    pub fn failed(&self) -> u64 {
        self.failed.load(Ordering::SeqCst)
    }

    /// The last number that was answered at both keys.
    pub fn last(&self) -> u64 {
        self.answered.load(Ordering::SeqCst)
    }

    fn goes_on(&self) -> bool {
        !self.is_over.load(Ordering::SeqCst)
    }

    /// Gives both rows the next number, again and again. A write that is not answered is made once
    /// more.
    fn write_again(&self, client: &Client) -> Result<(), krl::Error> {
        let mut number = 0;
        while self.goes_on() {
            number += 1;
            self.begun.store(number, Ordering::SeqCst);
            for key in [LEFT, RIGHT] {
                while self.answered(client.put(key, Value::from(number)))? != Some(Outcome::Applied)
                {
                    if !self.goes_on() {
                        return Ok(());
                    }
                }
            }
            self.answered.store(number, Ordering::SeqCst);
            thread::sleep(REST);
        }
        Ok(())
    }

    /// Scans only the caches, until the run is over.
    fn scan_again(&self, client: &Client) -> Count {
        let (mut count, mut seen) = (Count::default(), Seen::default());
        while self.goes_on() {
            let answered = self.answered.load(Ordering::SeqCst);
            if let Ok(Some(rows)) = client.cached(BOTH) {
                count.cached += 1;
                self.check(&rows, answered, &mut seen);
            } else {
                thread::yield_now();
            }
        }
        count
    }

    fn read_again(&self, client: &Client) -> Result<Count, krl::Error> {
        let (mut count, mut seen) = (Count::default(), Seen::default());
        while self.goes_on() {
            let before = self.answered.load(Ordering::SeqCst);
            if let Some(rows) = self.answered(client.read(BOTH))? {
                count.read += 1;
                self.check(&rows, before, &mut seen);
            }
            thread::sleep(Duration::from_millis(1));
        }
        Ok(count)
    }

    /// The rows have to be of one moment of the call, before which this number was answered and no
    /// greater one than `begun` was written; and not of an earlier one than the rows before.
    fn check(&self, rows: &[Row], answered: u64, seen: &mut Seen) {
        let begun = self.begun.load(Ordering::SeqCst);
        let is_right = seen.note(rows, Moments::One);
        let Seen([left, right]) = *seen;
        if !is_right || right < answered || begun < left {
            eprintln!("WRONG: {left} and {right} after {answered} was answered, and {begun} begun");
            self.wrong.fetch_add(1, Ordering::SeqCst);
        }
    }

    pub fn judge(&self, counts: &[Count], what: &str) -> Found {
        let cached: u64 = counts.iter().map(|count| count.cached).sum();
        let read: u64 = counts.iter().map(|count| count.read).sum();
        let written = self.answered.load(Ordering::SeqCst);
        let wrong = self.wrong.load(Ordering::SeqCst);
        println!(
            "{what}: {cached} scans of both caches, {read} reads, {written} pairs of writes; {wrong} \
             wrong"
        );
        let did_enough = written >= LEAST_WRITES && cached >= LEAST_SCANS && read >= LEAST_READS;
        if wrong == 0 && !did_enough {
            return Err("too little was done to judge anything".into());
        }
        Ok(wrong == 0)
    }

    /// What was answered, if anything was.
    fn answered<T>(&self, result: Result<T, krl::Error>) -> Result<Option<T>, krl::Error> {
        use krl::ErrorKind::{NotSent, TimedOut, Unserved};
        match result {
            Ok(found) => Ok(Some(found)),
            Err(refused) => match refused.kind {
                TimedOut | Unserved(_) | NotSent(_) => {
                    self.failed.fetch_add(1, Ordering::SeqCst);
                    Ok(None)
                }
                _ => Err(refused),
            },
        }
    }
}

/// Of how many moments rows are.
#[derive(Clone, Copy, PartialEq, Eq)]
pub enum Moments {
    One,
    EachRow,
}

/// The last numbers that were read at both keys.
#[derive(Default)]
pub struct Seen([u64; 2]);

impl Seen {
    /// Returns whether the rows are of no earlier moment than those before, and of so many moments.
    pub fn note(&mut self, rows: &[Row], moments: Moments) -> bool {
        let found: Vec<_> = rows.iter().map(|row| (row.key, row.value.to_u64())).collect();
        let is_right = match found[..] {
            [(LEFT, Some(left)), (RIGHT, Some(right))] => {
                let is_one_moment = left == right || left == right + 1;
                let [last_left, last_right] = std::mem::replace(&mut self.0, [left, right]);
                let is_later = last_left <= left && last_right <= right;
                is_later && (is_one_moment || moments == Moments::EachRow)
            }
            _ => false,
        };
        if !is_right {
            eprintln!("WRONG: {found:?}");
        }
        is_right
    }
}
