//! The drive of a cached table: processes keep rows of a table of PostgreSQL in memory, next to
//! writers of plain SQL, and all of them, the extension's workers, krl's server and PostgreSQL are
//! killed and stopped.
mod check;
mod closed;
mod faults;
mod notes;
mod reader;
mod readers;
mod transactions;
mod writer;

use crate::Found;
use crate::clients::{ENDING, Process, wait_for};
use crate::log::now;
use crate::lossy::Draws;
use crate::nodes::end_file;
use crate::server::Server;
use crate::waiting::until;
use check::{Change, Read, Verdict, Written, check};
use closed::address_of_reader;
use faults::{Faults, Stopped};
use krl_testing::database::{Database, Sql};
use krl_testing::ports::free_address;
use notes::{CountsByLanguage, noted};
pub use reader::run as read;
use readers::{Language, Programs};
use std::error::Error;
use std::ops::Range;
use std::path::{Path, PathBuf};
use std::sync::atomic::{AtomicBool, Ordering};
use std::thread;
use std::time::{Duration, Instant};
use transactions::commit_prepared;
use writer::Writer;

/// The variable that names the folder of the programs of a PostgreSQL with the extension.
const POSTGRESQL: &str = "KRL_POSTGRESQL";

/// The table, and what writes down its changes.
const TABLE: [&str; 5] = [
    include_str!("cache/table.sql"),
    "CREATE DATABASE spare",
    "CREATE ROLE spare LOGIN",
    "CREATE EXTENSION krl",
    "SELECT krl.cache('item', stripes => 32)",
];

/// The pairs of the table. The rows of the first ones are always there.
const PAIRS: u64 = 20;
const STABLE_PAIRS: u64 = 10;
const KEYS: u64 = 2 * PAIRS;

/// By how many threads each process reads, and how many threads write.
const THREADS: u64 = 2;
const WRITERS: u64 = 6;

/// Some rows have no room in the memory of a reader.
const MEMORY: usize = 1 << 13;

/// How long a reader waits for the database.
const READ_TIMEOUT: Duration = Duration::from_secs(5);

const LEASE: Duration = Duration::from_secs(2);

/// The settings of PostgreSQL. Commits are not flushed unless the extension does so, and a change of
/// many rows takes back the whole table.
const SETTINGS: [&str; 14] = [
    "shared_preload_libraries=krl",
    "krl.lease=2s",
    "krl.timeout=8s",
    "krl.recall_limit=8",
    "krl.stripes=1024",
    "max_prepared_transactions=20",
    "max_worker_processes=16",
    "deadlock_timeout=200ms",
    "checkpoint_timeout=30s",
    "fsync=off",
    "synchronous_commit=off",
    "wal_writer_delay=10s",
    "wal_writer_flush_after=1GB",
    "autovacuum_naptime=5s",
];

/// Faults are this many milliseconds apart, and at most this many longer.
const FAULT_PAUSE: u64 = 300;
const MAX_EXTRA_PAUSE: u64 = 1500;

/// At the end there are no more faults for this long.
const CALM: Duration = Duration::from_secs(4);

struct Drive {
    folder: PathBuf,
    database: Database,
    server: Server,
    programs: Programs,
    /// One of each language, in the order of [`Language::ALL`].
    readers: Vec<Process>,
    /// How many readers were started.
    spawned: u64,
    draws: Draws,
    faults: Faults,
    stopped: Stopped,
    /// When nothing may have been read.
    closed: Vec<Range<u64>>,
}

/// Drives readers and writers for this many seconds, and compares what was read.
pub fn run(folder: &Path, seconds: u64) -> Found {
    let Some(postgresql) = std::env::var_os(POSTGRESQL) else {
        return Err(format!(
            "{POSTGRESQL} has to name the folder of the programs of a PostgreSQL with the extension: \
             `hosts/pgext/check BIN --install FOLDER` makes one"
        )
        .into());
    };
    std::fs::create_dir_all(folder)?;
    let mut drive = Drive::start(folder, Path::new(&postgresql))?;
    let (database, is_over) = (drive.database.address::<String>(), AtomicBool::new(false));
    thread::scope(|scope| {
        let (database, is_over) = (database.as_str(), &is_over);
        let write = |number| Writer { number, database, folder, is_over }.run();
        let writers = (1..=WRITERS).map(|number| scope.spawn(move || write(number)));
        let writers: Vec<_> = writers.collect();
        let driven = drive.befall_for(Duration::from_secs(seconds));
        is_over.store(true, Ordering::Relaxed);
        for writer in writers {
            writer.join().map_err(|_| "a writer panicked")??;
        }
        driven
    })?;
    drive.end()
}

impl Drive {
    fn start(folder: &Path, postgresql: &Path) -> Result<Drive, Box<dyn Error>> {
        let programs = Programs::make(folder)?;
        let server_at = free_address()?;
        let lease = u64::try_from(LEASE.as_millis())?;
        let server = Server::start(folder, &server_at.to_string(), "sqlite", lease)?;
        let servers = format!("krl.servers={server_at}");
        let settings: Vec<&str> = SETTINGS.into_iter().chain([servers.as_str()]).collect();
        let database = Database::start_from(postgresql, &settings);
        let sql = database.connect();
        for statements in TABLE {
            sql.run(statements);
        }
        let mut drive = Drive {
            folder: folder.to_path_buf(),
            database,
            server,
            programs,
            readers: Vec::new(),
            spawned: 0,
            draws: Draws(now()),
            faults: Faults::default(),
            stopped: Stopped::default(),
            closed: Vec::new(),
        };
        let readers = Language::ALL.into_iter().map(|language| drive.start_reader(language));
        drive.readers = readers.collect::<Result<_, _>>()?;
        Ok(drive)
    }

    fn start_reader(&mut self, language: Language) -> std::io::Result<Process> {
        self.spawned += 1;
        let name = language.name(self.spawned);
        let database = address_of_reader(&self.database.address::<String>());
        Process::start(&mut self.programs.command(language, &name, &database)?)
    }

    /// A connection to the database, if it can be reached.
    fn sql(&self) -> Option<Sql> {
        Sql::connect(&self.database.address::<String>()).ok()
    }

    /// Makes faults for this long, and then none for a while.
    fn befall_for(&mut self, time: Duration) -> Result<(), Box<dyn Error>> {
        let end = Instant::now() + time;
        while Instant::now() < end {
            let pause = FAULT_PAUSE + self.draws.below(MAX_EXTRA_PAUSE);
            self.tend_for(Duration::from_millis(pause))?;
            self.befall()?;
        }
        self.tend_for(CALM)
    }

    /// Tends the processes for this long.
    fn tend_for(&mut self, time: Duration) -> Result<(), Box<dyn Error>> {
        let end = Instant::now() + time;
        while Instant::now() < end {
            self.tend()?;
            thread::sleep(Duration::from_millis(20));
        }
        Ok(())
    }

    /// Lets those continue that were stopped, and starts PostgreSQL again if it has ended.
    fn tend(&mut self) -> Result<(), Box<dyn Error>> {
        self.stopped.resume(Instant::now());
        self.tend_database();
        for (language, reader) in Language::ALL.into_iter().zip(&mut self.readers) {
            if let Some(status) = reader.ended()? {
                let fault = format!("the reader in {language:?} has ended by itself: {status}");
                return Err(fault.into());
            }
        }
        Ok(())
    }

    fn tend_database(&mut self) {
        if !self.database.is_running() {
            self.database.start_again();
        }
    }

    /// Waits for the readers, and compares what all have noted.
    fn end(mut self) -> Found {
        self.stopped.resume_all();
        std::fs::write(end_file(&self.folder), "")?;
        for (language, reader) in Language::ALL.into_iter().zip(&mut self.readers) {
            if let Some(fault) = wait_for(reader, Instant::now() + ENDING)? {
                return Err(format!("the reader in {language:?} {fault}").into());
            }
        }
        let (written, last) = self.read_everything()?;
        let mut noted = noted(&self.folder)?;
        noted.reads.push(last);
        let verdict = check(&written, &noted.transactions, &noted.reads, &self.closed);
        for shown in &verdict.shown {
            eprintln!("{}", shown.chars().take(600).collect::<String>());
        }
        println!(
            "{}; {} reads are compared; {}; {verdict}",
            self.faults,
            noted.reads.len(),
            noted.counts
        );
        judge(&verdict, &noted.counts)
    }

    /// What the database has in the end, when all prepared transactions have ended, and a read of
    /// the whole table.
    fn read_everything(&mut self) -> Result<(Written, Read), Box<dyn Error>> {
        let sql = until(ENDING, "the prepared transactions do not end", || {
            self.tend_database();
            Ok(self.sql().filter(|sql| commit_prepared(sql, "").is_some()))
        })?;
        let from = now();
        let rows = sql.try_query("SELECT id, token FROM item ORDER BY id")?;
        let rows = rows.iter().map(|row| (unsigned(row.get(0)), unsigned(row.get(1))));
        let rows = rows.collect();
        let last = Read { reader: None, from, to: now(), keys: 0..KEYS, rows };
        let committed = sql.try_query("SELECT token FROM committed")?;
        let committed = committed.iter().map(|row| unsigned(row.get(0))).collect();
        let changes = sql.try_query("SELECT id, token, has_row FROM history ORDER BY place")?;
        let changes = changes.iter().map(|row| Change {
            key: unsigned(row.get(0)),
            token: unsigned(row.get(1)),
            has_row: row.get(2),
        });
        Ok((Written { committed, changes: changes.collect() }, last))
    }
}

/// Whether all is well. A run that did too little shows nothing.
fn judge(verdict: &Verdict, counts: &CountsByLanguage) -> Found {
    if verdict.count_wrong() > 0 {
        return Ok(false);
    }
    if let Some(language) = Language::ALL.into_iter().find(|it| counts.of(*it).hits == 0) {
        return Err(format!("nothing was read from memory in {language:?}").into());
    }
    if verdict.rows < 1000 || verdict.transactions < 100 {
        return Err("too little was done to judge anything".into());
    }
    Ok(true)
}

fn unsigned(number: i64) -> u64 {
    number.cast_unsigned()
}
