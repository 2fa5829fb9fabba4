//! Measurements of stores, run by hand: servers over SQLite, over etcd and over PostgreSQL, and
//! etcd by itself, in turns. The cluster has three nodes on this machine, and all use its one disk.
use crate::Found;
use crate::applied::applied;
use crate::cluster::Cluster;
use crate::site::Site;
use krl::store::{Snapshot, Store};
use krl::{Address, Client, Listener, Outcome, Server, SqliteStore, Value};
use krl_etcd::{Credentials, EtcdAddress, EtcdStore};
use krl_postgres::PostgresStore;
use krl_testing::database::Database;
use std::error::Error;
use std::net::SocketAddr;
use std::path::Path;
use std::rc::Rc;
use std::thread;
use std::time::{Duration, Instant};

/// How many rows a full table has, and how far apart they are.
const ROWS: u64 = 65_536;
const STEP: u64 = 1 << 20;

/// How long one measurement takes.
const SLICE: Duration = Duration::from_secs(2);

/// How many write at once.
const WRITERS: [u8; 2] = [1, 8];

/// What is measured, in each round.
const KINDS: [Kind; 4] = [Kind::Sqlite, Kind::Etcd, Kind::EtcdAlone, Kind::Postgres];

#[derive(Clone, Copy, Debug, PartialEq, Eq)]
enum Kind {
    Sqlite,
    Etcd,
    EtcdAlone,
    Postgres,
}

/// What the stores are kept by.
struct Keepers {
    cluster: Cluster,
    /// None if there is no PostgreSQL.
    database: Option<Database>,
}

impl Keepers {
    fn kinds(&self) -> Vec<Kind> {
        let are_there = |kind: &Kind| *kind != Kind::Postgres || self.database.is_some();
        KINDS.into_iter().filter(are_there).collect()
    }

    /// A store in the database, which has nothing else of krl.
    fn new_postgres(&self) -> Result<PostgresStore, Box<dyn Error>> {
        let database = self.database.as_ref().ok_or("there is no PostgreSQL")?;
        database.connect().run("DROP SCHEMA IF EXISTS krl CASCADE");
        self.postgres()
    }

    /// What the database has.
    fn postgres(&self) -> Result<PostgresStore, Box<dyn Error>> {
        let database = self.database.as_ref().ok_or("there is no PostgreSQL")?;
        Ok(PostgresStore::open(&database.address(), None)?)
    }
}

pub fn run(folder: &Path, rounds: usize) -> Found {
    std::fs::create_dir_all(folder)?;
    let cluster = Cluster::start(folder, Rc::new(Site::Here))?;
    let keepers = Keepers { cluster, database: Database::start() };
    for writers in WRITERS {
        writes(folder, &keepers, rounds, writers)?;
    }
    starts(folder, &keepers, rounds)
}

/// How many writes a second are answered, by each kind in turn.
fn writes(
    folder: &Path,
    keepers: &Keepers,
    rounds: usize,
    writers: u8,
) -> Result<(), Box<dyn Error>> {
    let kinds = keepers.kinds();
    let mut rates = vec![Vec::new(); kinds.len()];
    for round in 0..rounds {
        for (kind, rates) in kinds.iter().zip(&mut rates) {
            let place = folder.join(format!("{kind:?}-{writers}-{round}"));
            rates.push(rate(*kind, keepers, &place, writers)?);
        }
    }
    for (kind, mut rates) in kinds.iter().zip(rates) {
        rates.sort_unstable();
        let (least, middle, most) = spread(&rates);
        println!("{kind:?}, {writers} writers: {middle} a second, {least} to {most}");
    }
    Ok(())
}

/// The least, the middle and the greatest of what is in order.
fn spread<T: Copy>(values: &[T]) -> (T, T, T) {
    (values[0], values[values.len() / 2], values[values.len() - 1])
}

/// How many writes a second are answered. The folder is a new one.
fn rate(kind: Kind, keepers: &Keepers, folder: &Path, writers: u8) -> Result<u64, Box<dyn Error>> {
    std::fs::create_dir_all(folder)?;
    let count = match kind {
        Kind::Sqlite => served(SqliteStore::open(folder.join("store.db"))?, folder, writers)?,
        Kind::Etcd => {
            let address = table(&keepers.cluster, folder);
            served(EtcdStore::open(&address, &Credentials::default())?, folder, writers)?
        }
        Kind::EtcdAlone => {
            let node = keepers.cluster.nodes()[0];
            at_once(writers, |writer| put_alone(node, writer))?
        }
        Kind::Postgres => served(keepers.new_postgres()?, folder, writers)?,
    };
    Ok(count / SLICE.as_secs())
}

/// A place of its own in the cluster.
fn table(cluster: &Cluster, folder: &Path) -> EtcdAddress {
    let name = folder.file_name().unwrap_or_default().to_string_lossy();
    EtcdAddress { prefix: format!("/krl/{name}"), ..cluster.address() }
}

/// The writes of clients of a server over this store.
fn served(store: impl Store + 'static, folder: &Path, writers: u8) -> Result<u64, Box<dyn Error>> {
    let server = Server::start(Listener::bind(&"127.0.0.1:0".parse()?)?, store)?;
    let at = server.address().clone();
    let count = at_once(writers, |writer| put_as_client(&at, writer, folder))?;
    server.stop()?;
    Ok(count)
}

/// What this many threads come to, which do the same at once.
fn at_once(
    writers: u8,
    write: impl Fn(u8) -> Result<u64, Box<dyn Error>> + Sync,
) -> Result<u64, Box<dyn Error>> {
    let write = &write;
    let counts: Vec<Result<u64, String>> = thread::scope(|scope| {
        let writing: Vec<_> = (0..writers)
            .map(|writer| scope.spawn(move || write(writer).map_err(|error| error.to_string())))
            .collect();
        let ended = writing.into_iter().map(thread::ScopedJoinHandle::join);
        ended.map(|count| count.unwrap_or(Err("a writer panicked".into()))).collect()
    });
    counts.into_iter().sum::<Result<u64, String>>().map_err(Into::into)
}

/// One client puts values to ten rows of its own.
fn put_as_client(at: &Address, writer: u8, folder: &Path) -> Result<u64, Box<dyn Error>> {
    let client = Client::join(at.clone(), writer, folder.join(format!("{writer}.lock")))?;
    let keys: Vec<u64> = (0..10).map(|place| 1000 * u64::from(writer) + 10 * place).collect();
    for key in &keys {
        applied(client.insert(*key, Value::from(0))?)?;
    }
    let (end, mut applied) = (Instant::now() + SLICE, 0);
    for key in keys.iter().cycle().take_while(|_| Instant::now() < end) {
        let outcome = client.put(*key, Value::from(applied))?;
        applied += u64::from(outcome == Outcome::Applied);
    }
    client.leave()?;
    Ok(applied)
}

/// Puts 40 bytes at one of ten keys, by a call for each. The gateway takes both as base64.
fn put_alone(node: SocketAddr, writer: u8) -> Result<u64, Box<dyn Error>> {
    const BYTES: &str = "MDEyMzQ1Njc4OTAxMjM0NTY3ODkwMTIzNDU2Nzg5MDEyMzQ1Njc4OQ==";
    let (agent, url) = (ureq::agent(), format!("http://{node}/v3/kv/put"));
    let (end, mut done) = (Instant::now() + SLICE, 0);
    while Instant::now() < end {
        let key = format!("{:04}", 100 * u64::from(writer) + done % 10);
        let body = format!("{{\"key\":\"{key}\",\"value\":\"{BYTES}\"}}");
        // The connection is used again once the answer is read.
        agent.post(&url).send_string(&body)?.into_string()?;
        done += 1;
    }
    Ok(done)
}

/// How long a server takes to start over a full table.
fn starts(folder: &Path, keepers: &Keepers, rounds: usize) -> Found {
    let rows = (0..ROWS).map(|place| (STEP * place, Value::from(place))).collect();
    let snapshot = Snapshot { epoch: 1, rows, ..Snapshot::default() };
    let (file, address) = (folder.join("full.db"), table(&keepers.cluster, Path::new("full")));
    let mut kinds = keepers.kinds();
    kinds.retain(|kind| *kind != Kind::EtcdAlone);
    for kind in &kinds {
        match kind {
            Kind::Sqlite => SqliteStore::create(&file, &snapshot)?,
            Kind::Postgres => fill_database(keepers, &snapshot)?,
            _ => EtcdStore::create(&address, &Credentials::default(), &snapshot)?,
        }
    }
    let mut times = vec![Vec::new(); kinds.len()];
    for _ in 0..rounds {
        for (kind, times) in kinds.iter().zip(&mut times) {
            times.push(match kind {
                Kind::Sqlite => start(SqliteStore::open(&file)?)?,
                Kind::Postgres => start(keepers.postgres()?)?,
                _ => start(EtcdStore::open(&address, &Credentials::default())?)?,
            });
        }
    }
    for (kind, mut times) in kinds.iter().zip(times) {
        times.sort_unstable();
        let (least, middle, most) = spread(&times);
        println!("{kind:?}, a start on {ROWS} rows: {middle:.2?}, {least:.2?} to {most:.2?}");
    }
    Ok(true)
}

fn fill_database(keepers: &Keepers, snapshot: &Snapshot) -> Result<(), Box<dyn Error>> {
    drop(keepers.new_postgres()?);
    let database = keepers.database.as_ref().ok_or("there is no PostgreSQL")?;
    Ok(PostgresStore::create(&database.address(), None, snapshot)?)
}

fn start(store: impl Store + 'static) -> Result<Duration, Box<dyn Error>> {
    let begun = Instant::now();
    let server = Server::start(Listener::bind(&"127.0.0.1:0".parse()?)?, store)?;
    let took = begun.elapsed();
    server.stop()?;
    Ok(took)
}
