//! Stores of the greatest room, over SQLite, etcd and PostgreSQL: each is restored, loaded, written
//! by large batches, loaded again and compared; then two servers serve from it, one after the
//! other.
use crate::Found;
use crate::cluster::Cluster;
use crate::site::Site;
use krl::operate::Room;
use krl::store::{Change, Snapshot};
use krl::store::{Store, Write};
use krl::{Address, Client, Listener, Outcome, Row, Server};
use krl::{SqliteStore, Value};
use krl_etcd::{Credentials, EtcdStore};
use krl_postgres::{PostgresAddress, PostgresStore};
use krl_testing::database::Database;
use std::error::Error;
use std::path::Path;
use std::rc::Rc;
use std::thread;
use std::time::{Duration, Instant};

/// How far apart the keys are.
const STEP: u64 = 1 << 40;

/// How many batches are written, and how many rows by each.
const BATCHES: u64 = 8;
const BATCH: u64 = 2_000;

/// How many clients write to each server, and how many times each of them writes.
const WRITERS: u8 = 16;
const WRITES: u64 = 50;

/// How long a commit may take: the machine may be busy with something else.
const PATIENCE: Duration = Duration::from_secs(120);

type Opened = Result<Box<dyn Store>, Box<dyn Error>>;

pub fn run(folder: &Path) -> Found {
    std::fs::create_dir_all(folder)?;
    let file = folder.join("full.db");
    let full = full();
    let make = || Ok(SqliteStore::create(&file, &full)?);
    let mut is_right =
        is_right("SQLite", folder, &full, make, || Ok(Box::new(SqliteStore::open(&file)?)))?;

    let cluster = Cluster::start(folder, Rc::new(Site::Here))?;
    let (address, credentials) = (cluster.address(), Credentials::default());
    let make = || Ok(EtcdStore::create(&address, &credentials, &full)?);
    let open = || -> Opened {
        let store = EtcdStore::open(&address, &credentials)?;
        Ok(Box::new(store.with_commit_timeout(PATIENCE)))
    };
    is_right &= self::is_right("etcd", folder, &full, make, open)?;
    drop(cluster);

    let Some(database) = Database::start() else { return Ok(is_right) };
    let address: PostgresAddress = database.address();
    let make = || Ok(PostgresStore::create(&address, None, &full)?);
    let open = || -> Opened {
        let store = PostgresStore::open(&address, None)?;
        Ok(Box::new(store.with_commit_timeout(PATIENCE)))
    };
    Ok(is_right & self::is_right("PostgreSQL", folder, &full, make, open)?)
}

/// A table that has no room for one more row, each value as long as it may be.
fn full() -> Snapshot {
    let row = |place: u64| (STEP * place, value_of(place, 0));
    let rows = (0..Room::MAX.rows() as u64).map(row).collect();
    let (room, first_start) = (Some(Room::MAX), Some(7));
    Snapshot { epoch: 1, rows, room, first_start, ..Snapshot::default() }
}

/// A value of 32 bytes for the key of this place, by what wrote it.
fn value_of(place: u64, by: u64) -> Value {
    let words = [place, by, !place, !by].map(u64::to_be_bytes);
    Value::try_from(words.as_flattened()).unwrap_or_default()
}

/// Tries a store, and reports how long each part took.
fn is_right(
    name: &str,
    folder: &Path,
    full: &Snapshot,
    make: impl Fn() -> Result<(), Box<dyn Error>>,
    open: impl Fn() -> Opened,
) -> Found {
    let begun = Instant::now();
    make()?;
    println!("{name}: {} rows are stored in {:.1?}", full.rows.len(), begun.elapsed());

    let begun = Instant::now();
    let mut store = open()?;
    let mut is_right = store.load()? == *full;
    println!("{name}: they are loaded in {:.1?}", begun.elapsed());

    let (begun, mut expected) = (Instant::now(), full.clone());
    for batch in batches() {
        store.commit(&batch)?;
        for change in &batch {
            expected.apply(change);
        }
    }
    println!("{name}: {BATCHES} batches of {BATCH} writes in {:.1?}", begun.elapsed());
    drop(store);
    let mut store = open()?;
    is_right &= store.load()? == expected;
    drop(store);

    for round in 1..=2 {
        serve(name, folder, open()?, round)?;
        expect_writes(&mut expected, round);
    }
    is_right &= open()?.load()?.rows == expected.rows;
    println!("{name}: the rows are {}", if is_right { "those that were written" } else { "WRONG" });
    Ok(is_right)
}

/// A start, and writes to rows all over the table. Each client writes once more than in the batch
/// before.
fn batches() -> impl Iterator<Item = Vec<Change>> {
    let first = [Change::Started { epoch: 2 }, Change::Registered { client: 9, incarnation: 1 }];
    (0..BATCHES).map(move |batch| {
        let begins = if batch == 0 { &first[..] } else { &[] };
        let numbers = batch * BATCH + 1..=(batch + 1) * BATCH;
        begins.iter().copied().chain(numbers.map(judged)).collect()
    })
}

/// The write of this number, which was applied.
fn judged(number: u64) -> Change {
    let place = number * 7919 % Room::MAX.rows() as u64;
    let row = Row { key: STEP * place, value: value_of(place, number) };
    Change::Judged { client: 9, number, write: Write::Put(row), outcome: Outcome::Applied }
}

/// Serves from the store while clients write to rows of their own.
fn serve(
    name: &str,
    folder: &Path,
    store: Box<dyn Store>,
    round: u64,
) -> Result<(), Box<dyn Error>> {
    let begun = Instant::now();
    let server = Server::start(Listener::bind(&"127.0.0.1:0".parse()?)?, store)?;
    let started = begun.elapsed();
    let (at, begun) = (server.address().clone(), Instant::now());
    let written: Result<Vec<()>, String> = thread::scope(|scope| {
        let at = &at;
        let writing: Vec<_> = (0..WRITERS)
            .map(|writer| {
                let lock_file = folder.join(format!("{name}-{round}-{writer}.lock"));
                scope.spawn(move || write(at, writer, &lock_file, round))
            })
            .collect();
        let ended = writing.into_iter().map(thread::ScopedJoinHandle::join);
        ended.map(|ended| ended.unwrap_or(Err("a writer panicked".into()))).collect()
    });
    written?;
    let rate = u128::from(WRITERS) * u128::from(WRITES) * 1000 / begun.elapsed().as_millis().max(1);
    println!("{name}: a server starts in {started:.1?}, and answers {rate} writes a second");
    Ok(server.stop()?)
}

/// The places that a client writes to.
fn places(writer: u8) -> impl Iterator<Item = u64> {
    (0..WRITES).map(move |place| (u64::from(writer) + 1) * 60_000 + place * 997)
}

fn write(at: &Address, writer: u8, lock_file: &Path, round: u64) -> Result<(), String> {
    let message_of = |error: &dyn std::fmt::Display| error.to_string();
    let client = Client::join(at.clone(), writer, lock_file).map_err(|error| message_of(&error))?;
    for place in places(writer) {
        let put = client.put(STEP * place, value_of(place, u64::MAX - round));
        if put.map_err(|error| message_of(&error))? != Outcome::Applied {
            return Err(format!("the row at {place} is not there"));
        }
    }
    client.leave().map_err(|error| message_of(&error))
}

fn expect_writes(expected: &mut Snapshot, round: u64) {
    for place in (0..WRITERS).flat_map(places) {
        expected.rows.insert(STEP * place, value_of(place, u64::MAX - round));
    }
}
