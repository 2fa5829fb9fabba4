//! The processes that a drive starts and kills.
use crate::Found;
use crate::certificates;
use crate::log::{Log, Note, now};
use crate::unsynced::UnsyncedStore;
use krl::store::Store;
use krl::{
    Access, Address, Client, ClientBuilder, JoinError, Leases, Listener, Outcome, Reader, Row,
    Server, Servers, SqliteStore, Value,
};
use std::error::Error;
use std::ops::Range;
use std::path::{Path, PathBuf};
use std::sync::{Mutex, PoisonError};
use std::thread;
use std::time::{Duration, Instant};

/// The numbers of the clients that only read, and of those that write too.
pub const READERS: [u8; 2] = [0, 2];
pub const WRITERS: [u8; 2] = [1, 3];

/// No client has this number: that of the process that reads without being one.
pub const ASKER: u8 = 64;

/// Each writer has this many keys, this far apart.
const KEYS: u64 = 10;
const STEP: u64 = 10;

/// How long a call of a client waits.
const TIMEOUT: Duration = Duration::from_secs(3);

/// A drive ends when this file is there.
pub fn end_file(folder: &Path) -> PathBuf {
    folder.join("end")
}

pub fn store_file(folder: &Path) -> PathBuf {
    folder.join("store.db")
}

/// The keys of a writer lie in this range, and nobody else writes there.
fn range_of(writer: u8) -> Range<u64> {
    let lo = 1000 * u64::from(writer);
    lo..lo + KEYS * STEP + 1
}

/// In this range it writes once, so that readers keep it while servers die.
fn still_range_of(writer: u8) -> Range<u64> {
    let Range { start, end } = range_of(writer);
    start + 10_000..end + 10_000
}

/// A server whose leases have this many milliseconds, or that has none: then it is 0.
pub fn server(address: &str, folder: &Path, store: &str, lease: u64) -> Found {
    let opened = SqliteStore::open(store_file(folder))?;
    let store: Box<dyn Store> = match store {
        "sqlite" => Box::new(opened),
        "unsynced" => Box::new(UnsyncedStore::new(opened)),
        _ => return Err("a store is sqlite or unsynced".into()),
    };
    let address: Address = address.parse()?;
    let mut access = Access::new();
    if address.is_tls() {
        access = access.tls(certificates::of("server")?);
    }
    let builder = Server::builder(Listener::bind(&address)?, store).access(access);
    let server = match lease {
        0 => builder.start()?,
        lease => builder.leases(Leases::of(Duration::from_millis(lease))?).start()?,
    };
    server.wait()?;
    Ok(true)
}

/// These servers, which get this client's certificate, if they listen by TLS.
fn servers_for(number: u8, servers: &str) -> Result<Servers, Box<dyn Error>> {
    let servers: Servers = servers.parse()?;
    if !servers.iter().any(Address::is_tls) {
        return Ok(servers);
    }
    Ok(servers.with_tls(certificates::of(&format!("client-{number}"))?))
}

fn join(number: u8, servers: &str, folder: &Path) -> Result<Client, Box<dyn Error>> {
    let lock = folder.join(format!("client-{number}.lock"));
    let servers = servers_for(number, servers)?;
    // A server that recovers answers late.
    Ok(join_when_served(&Client::builder(servers, number, lock), 5 * TIMEOUT)?)
}

/// Joins. While no server runs, it tries again, for so long as an answer may take.
pub fn join_when_served(builder: &ClientBuilder, timeout: Duration) -> Result<Client, JoinError> {
    use krl::JoinErrorKind::NothingListens;
    let end = Instant::now() + timeout;
    loop {
        match builder.clone().timeout(timeout).join() {
            Err(JoinError { kind: NothingListens { .. }, .. }) if Instant::now() < end => {}
            joined => return joined,
        }
    }
}

/// Reads every writer's ranges again and again, in two threads: one reads only from the cache, and
/// never waits; the other asks the server for what the cache lacks.
pub fn reader(number: u8, servers: &str, folder: &Path) -> Found {
    let client = join(number, servers, folder)?;
    client.set_timeout(TIMEOUT);
    let (log, ranges) = (Mutex::new(Log::open(folder, number)?), ranges_to_read());
    thread::scope(|scope| {
        let cached = scope.spawn(|| read_again(&ranges, folder, &log, |keys| client.cached(keys)));
        read_again(&ranges, folder, &log, |keys| answered(client.read(keys)))?;
        cached.join().unwrap_or(Err("the other thread panicked".to_string()))
    })?;
    client.leave()?;
    Ok(true)
}

/// Reads the same ranges again and again, without a number and a cache.
pub fn asker(servers: &str, folder: &Path) -> Found {
    let mut reader = Reader::new(servers_for(READERS[0], servers)?).with_timeout(TIMEOUT);
    let log = Mutex::new(Log::open(folder, ASKER)?);
    read_again(&ranges_to_read(), folder, &log, |keys| answered(reader.read(keys)))?;
    Ok(true)
}

/// Every writer's ranges, and parts of them.
fn ranges_to_read() -> [Range<u64>; 7] {
    let [first, second] = WRITERS.map(range_of);
    let [third, fourth] = WRITERS.map(still_range_of);
    // One callback takes a whole range from a cache. Single keys stay there.
    let keys = [first.clone(), second.clone()].map(|range| range.start + STEP);
    let [one, other] = keys.map(|key| key..key + 1);
    [first.start..second.end, one, first, third, other, second, fourth]
}

/// Reads one range after the other, until the drive ends.
fn read_again(
    ranges: &[Range<u64>],
    folder: &Path,
    log: &Mutex<Log>,
    mut read: impl FnMut(Range<u64>) -> Result<Option<Vec<Row>>, krl::Error>,
) -> Result<(), String> {
    for keys in ranges.iter().cycle() {
        if end_file(folder).exists() {
            break;
        }
        let from = now();
        if let Some(rows) = read(keys.clone()).map_err(|refused| refused.to_string())? {
            let note = note_of(from, keys, &rows).ok_or("a value is no number")?;
            let mut log = log.lock().unwrap_or_else(PoisonError::into_inner);
            log.note(&note).map_err(|error| error.to_string())?;
        }
        thread::sleep(Duration::from_millis(1));
    }
    Ok(())
}

/// What was answered, if anything was.
fn answered<T>(result: Result<T, krl::Error>) -> Result<Option<T>, krl::Error> {
    use krl::ErrorKind::{LeaseEnded, NotSent, TimedOut, Unserved};
    match result {
        Ok(found) => Ok(Some(found)),
        Err(refused) => match refused.kind {
            TimedOut | Unserved(_) | NotSent(_) | LeaseEnded => Ok(None),
            _ => Err(refused),
        },
    }
}

fn note_of(from: u64, keys: &Range<u64>, rows: &[Row]) -> Option<Note> {
    let to = now();
    let numbers = rows.iter().map(|row| row.value.to_u64().map(|value| (row.key, value)));
    Some(Note::Read {
        from,
        to,
        lo: keys.start,
        hi: keys.end,
        rows: numbers.collect::<Option<_>>()?,
    })
}

/// Writes its keys, one after the other: an insert if there is no entry, now and then a delete,
/// otherwise a put. It reads the key from its cache then.
pub fn writer(number: u8, servers: &str, folder: &Path) -> Found {
    let client = join(number, servers, folder)?;
    client.set_timeout(TIMEOUT);
    let mut log = Log::open(folder, number)?;
    fill(&client, number, &mut log)?;
    let range = range_of(number);
    for turn in 0.. {
        if end_file(folder).exists() {
            break;
        }
        let key = range.start + STEP * (1 + turn % KEYS);
        let is_delete = turn % 7 == 0;
        let value = if is_delete { None } else { Some(now()) };
        if write(&client, key, value, &mut log)? == Some(Outcome::Absent) && !is_delete {
            insert(&client, key, &mut log)?;
        }
        let from = now();
        let own = key..key + 1;
        if let Some(rows) = client.cached(own.clone())? {
            log.note(&note_of(from, &own, &rows).ok_or("a value is no number")?)?;
        }
    }
    client.leave()?;
    Ok(true)
}

/// Inserts the rows of the still range that are not there.
fn fill(client: &Client, number: u8, log: &mut Log) -> Result<(), Box<dyn Error>> {
    let range = still_range_of(number);
    // If no answer comes, another turn of this number does it.
    let Ok(rows) = client.read(range.clone()) else { return Ok(()) };
    for key in (1..=KEYS).map(|place| range.start + STEP * place) {
        if rows.iter().all(|row| row.key != key) {
            insert(client, key, log)?;
        }
    }
    Ok(())
}

/// A put of the value, or a delete if there is none.
fn write(
    client: &Client,
    key: u64,
    value: Option<u64>,
    log: &mut Log,
) -> Result<Option<Outcome>, Box<dyn Error>> {
    log.note(&Note::Begun { at: now(), key, value })?;
    let outcome = match value {
        Some(value) => client.put(key, Value::from(value)),
        None => client.delete(key),
    };
    note_outcome(key, outcome, log)
}

fn insert(client: &Client, key: u64, log: &mut Log) -> Result<Option<Outcome>, Box<dyn Error>> {
    let value = now();
    log.note(&Note::Begun { at: value, key, value: Some(value) })?;
    note_outcome(key, client.insert(key, Value::from(value)), log)
}

fn note_outcome(
    key: u64,
    outcome: Result<Outcome, krl::Error>,
    log: &mut Log,
) -> Result<Option<Outcome>, Box<dyn Error>> {
    // A write that is not answered may have changed the table, or may still do so.
    let Some(outcome) = answered(outcome)? else { return Ok(None) };
    log.note(&Note::Answered { at: now(), key, applied: outcome == Outcome::Applied })?;
    Ok(Some(outcome))
}
