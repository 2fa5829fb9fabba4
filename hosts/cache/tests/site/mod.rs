//! A database, a server of krl, and what stands for the extension: functions in SQL, and a client
//! of krl that takes back what the test names.
#![allow(dead_code, reason = "each test uses a part of it")]
use krl::{Client, MemoryStore, Outcome, Pin, Server, Value};
use krl_cache::{Cache, CacheBuilder, Row, Table};
use krl_testing::database::{Database, Sql};
use std::collections::BTreeSet;
use std::io::{BufRead, Write};
use std::net::TcpListener;
use std::ops::Range;
use std::path::PathBuf;
use std::sync::atomic::{AtomicU32, Ordering};
use std::thread;
use std::time::{Duration, Instant};

/// No wait of a test is longer.
pub const LONG: Duration = Duration::from_secs(60);

/// The mark of all tables.
pub const CLUSTER_MARK: u64 = 1 << 40;

/// The mark of the table `item`, which its stripes follow.
pub const ITEM_MARK: u64 = 99;

/// The keys of krl of all tables.
const KEYS: Range<u64> = ITEM_MARK..300;

/// The functions and the table by which readers know the extension. A key of `krl.notices` is not
/// quiet, and with 0 nothing is; `touches` is a statement that the question makes. The user has the
/// name of the schema, in which tables would be made.
const EXTENSION: &str = "
    ALTER DATABASE postgres SET search_path = public;
    SET search_path = public;
    CREATE SCHEMA krl;
    CREATE TABLE krl.cached (relation regclass, key_columns name[], mark integer,
        stripes integer, by_remainder boolean);
    CREATE TABLE krl.state (servers text, nonce bigint, touches text);
    CREATE TABLE krl.notices (key bigint);
    CREATE FUNCTION krl.servers() RETURNS text LANGUAGE sql AS $$ SELECT servers FROM krl.state $$;
    CREATE FUNCTION krl.quiet(nonce bigint, kept regclass, mark integer, asked integer[])
        RETURNS boolean LANGUAGE plpgsql AS $$
    DECLARE
        state krl.state := (SELECT s FROM krl.state AS s);
    BEGIN
        IF state.touches IS NOT NULL THEN
            EXECUTE state.touches;
        END IF;
        RETURN state.nonce = nonce
            AND EXISTS (SELECT FROM krl.cached WHERE relation = kept AND cached.mark = quiet.mark)
            AND NOT EXISTS (SELECT FROM krl.notices WHERE key IN (0, quiet.mark))
            AND NOT EXISTS (SELECT FROM krl.notices WHERE key - quiet.mark - 1 = ANY (asked));
    END $$;";

/// The table `item`, of sixteen stripes.
const ITEM: &str = "
    CREATE TABLE item (id integer PRIMARY KEY, name text NOT NULL, price bigint);
    INSERT INTO item SELECT id, 'item ' || id, 10 * id FROM generate_series(0, 39) AS id;
    INSERT INTO krl.cached VALUES ('item', '{id}', 99, 16, true);";

/// Tables for readers in other languages: with keys of several columns, with keys that are not unique,
/// with columns of many types, and one that is not cached.
pub const OTHER_TABLES: &str = "
    CREATE TABLE place (country varchar(2), code uuid, \"The Name\" text NOT NULL,
        PRIMARY KEY (country, code));
    INSERT INTO place VALUES ('at', 'a0a0a0a0-a0a0-a0a0-a0a0-a0a0a0a0a0a0', 'Vienna');
    INSERT INTO krl.cached VALUES ('place', '{country,code}', 119, 16, false);
    CREATE TABLE note (author text, body text);
    INSERT INTO note VALUES ('ada', 'one'), ('ada', 'two'), ('grace', 'three');
    INSERT INTO krl.cached VALUES ('note', '{author}', 139, 1, false);
    CREATE TYPE mood AS ENUM ('calm', 'glad');
    CREATE TABLE kinds (id smallint PRIMARY KEY, small smallint, number integer, big bigint,
        single real, long double precision, is_so boolean, bytes bytea, json jsonb,
        exact numeric, at timestamptz, local timestamp, day date, code uuid, words text[], mood mood);
    INSERT INTO kinds VALUES (1, -2, -3, -4, 0.5, -0.25, true, '\\x00ff', '{\"a\": 1}', -1234.0500,
        '2024-02-29 12:34:56.789+00', '1999-12-31 23:59:59.000001', '2024-02-29',
        'a0a0a0a0-a0a0-a0a0-a0a0-a0a0a0a0a0a0', '{one,two}', 'glad');
    INSERT INTO kinds (id) VALUES (2);
    INSERT INTO krl.cached VALUES ('kinds', '{id}', 159, 16, true);
    CREATE TABLE plain (id bigint PRIMARY KEY);";

static COUNT: AtomicU32 = AtomicU32::new(0);

/// All that a reader needs.
pub struct Site {
    pub database: Database,
    pub sql: Sql,
    pub server: Server,
    /// What the extension is to krl.
    worker: Client,
    folder: PathBuf,
}

impl Site {
    /// A site with the table `item`, or none without PostgreSQL.
    pub fn start() -> Option<Site> {
        let database = Database::start()?;
        let sql = database.connect();
        let count = COUNT.fetch_add(1, Ordering::Relaxed);
        let folder = format!("krl-reader-{}-{count}", std::process::id());
        let folder = std::env::temp_dir().join(folder);
        std::fs::create_dir_all(&folder).unwrap();
        let listener = TcpListener::bind("127.0.0.1:0").unwrap();
        let server = Server::start(listener, MemoryStore::default()).unwrap();
        let builder = Client::builder(server.address(), 60, folder.join("worker.lock"));
        let worker = builder.timeout(LONG).join().unwrap();
        create_extension(&sql, &worker, &server.address().to_string());
        Some(Site { database, sql, server, worker, folder })
    }

    /// A cache of the database.
    pub fn cache(&self) -> Cache {
        self.builder().open().unwrap()
    }

    /// One that keeps this many bytes.
    pub fn cache_of(&self, memory: usize) -> Cache {
        self.builder().memory(memory).open().unwrap()
    }

    /// One whose settings are still to be changed.
    pub fn builder(&self) -> CacheBuilder {
        let builder = Cache::builder(self.database.address(), self.folder.join("locks"));
        builder.timeout(LONG)
    }

    /// A cache of a role that is no superuser. It may select from the tables that are there now.
    pub fn cache_of_role(&self, role: &str, timeout: Duration) -> Cache {
        self.sql.run(&format!(
            "CREATE ROLE {role} LOGIN; GRANT USAGE ON SCHEMA krl TO {role};
             GRANT SELECT ON ALL TABLES IN SCHEMA krl, public TO {role}"
        ));
        let builder = Cache::builder(self.database.address(), self.folder.join("locks"));
        builder.user(role, "").timeout(timeout).open().unwrap()
    }

    /// The processes of the database that work for a role.
    pub fn processes_of(&self, role: &str) -> BTreeSet<i32> {
        let all = format!("SELECT pid FROM pg_stat_activity WHERE usename = '{role}'");
        self.sql.query(&all).iter().map(|row| row.get(0)).collect()
    }

    /// Changes rows of what these keys of krl guard, as a transaction does next to the extension.
    pub fn write(&self, keys: Range<u64>, statement: &str) {
        let Range { start, end } = keys;
        self.sql.run(&format!(
            "INSERT INTO krl.notices SELECT * FROM generate_series({start}, {})",
            end - 1
        ));
        self.take_back(start..end);
        self.sql.run(&format!("{statement}; DELETE FROM krl.notices"));
    }

    /// Takes keys of krl back from all readers.
    pub fn take_back(&self, keys: Range<u64>) {
        drop(self.keep_from_readers(keys));
    }

    /// The same, and lets no reader hold them until the pin is dropped.
    pub fn keep_from_readers(&self, keys: Range<u64>) -> Pin {
        self.worker.forget(keys.clone()).unwrap();
        self.worker.pin_for_write(keys).unwrap().1
    }

    /// Does what a program asks for, and answers each line by the line `done`:
    ///
    ///     sql STATEMENTS
    ///     write FIRST END STATEMENTS      changes rows of these keys of krl
    ///     take FIRST END                  takes them back
    ///     define NONCE STATEMENTS         changes a definition
    ///     stop                            ends the database
    ///     start                           starts it again
    pub fn serve(&mut self, asked: impl BufRead, mut answers: impl Write) {
        for line in asked.lines() {
            let line = line.unwrap();
            let (what, rest) = line.split_once(' ').unwrap_or((&line, ""));
            match what {
                "sql" => self.sql.run(rest),
                "write" => {
                    let (keys, statements) = keys_of(rest);
                    self.write(keys, statements);
                }
                "take" => self.take_back(keys_of(rest).0),
                "define" => {
                    let (nonce, statements) = rest.split_once(' ').expect("a nonce");
                    self.define(nonce.parse().expect("a nonce"), statements);
                }
                "stop" => self.database.stop(),
                "start" => {
                    self.database.start_again();
                    self.database.wait_for_answers();
                    self.sql = self.database.connect();
                }
                _ => panic!("the program asks for {line}"),
            }
            // A program that has ended waits for nothing.
            let _ = writeln!(answers, "done").and_then(|()| answers.flush());
        }
    }

    /// Changes a definition as a transaction does next to the extension, or starts it: each time
    /// with another nonce.
    pub fn define(&self, nonce: i64, statement: &str) {
        define(&self.sql, &self.worker, nonce, statement);
    }
}

/// Makes what stands for the extension, whose worker is this client of krl.
pub fn create_extension(sql: &Sql, worker: &Client, servers: &str) {
    sql.run(EXTENSION);
    sql.run(ITEM);
    sql.run(&format!("INSERT INTO krl.state VALUES ('{servers}', 0)"));
    for key in KEYS {
        assert_eq!(worker.insert(key, Value::default()).unwrap(), Outcome::Applied);
    }
    define(sql, worker, 1, "");
}

fn define(sql: &Sql, worker: &Client, nonce: i64, statement: &str) {
    sql.run("INSERT INTO krl.notices VALUES (0)");
    let value = Value::try_from(&nonce.to_ne_bytes()).unwrap();
    assert_eq!(worker.set(CLUSTER_MARK, value).unwrap(), Outcome::Applied);
    sql.run(&format!("{statement}; UPDATE krl.state SET nonce = {nonce}; DELETE FROM krl.notices"));
}

impl Drop for Site {
    fn drop(&mut self) {
        let _ = std::fs::remove_dir_all(&self.folder);
    }
}

/// The keys of krl that a line begins with, and what follows them.
fn keys_of(words: &str) -> (Range<u64>, &str) {
    let mut words = words.splitn(3, ' ');
    let mut key = || words.next().and_then(|word| word.parse().ok()).expect("a key of krl");
    let keys = key()..key();
    (keys, words.next().unwrap_or(""))
}

/// The keys of krl of stripes of the table `item`.
pub fn keys_of_item(stripes: Range<u64>) -> Range<u64> {
    ITEM_MARK + 1 + stripes.start..ITEM_MARK + 1 + stripes.end
}

/// Reads again and again until it is answered from memory only, and returns that answer.
pub fn from_memory<T>(table: &Table, mut read: impl FnMut(&Table) -> T) -> T {
    let end = Instant::now() + LONG;
    loop {
        let before = table.statistics();
        let answer = read(table);
        let after = table.statistics();
        if after.hits > before.hits && after.misses == before.misses {
            return answer;
        }
        assert!(Instant::now() < end, "it is never read from memory: {after:?}");
        thread::sleep(Duration::from_millis(1));
    }
}

/// Waits until the statistics of a table are as they should be.
pub fn wait_until(what: &str, is_so: impl Fn() -> bool) {
    let end = Instant::now() + LONG;
    while !is_so() {
        assert!(Instant::now() < end, "{what}");
        thread::sleep(Duration::from_millis(1));
    }
}

/// The name of an item.
pub fn name(row: &Row) -> String {
    row.get("name").unwrap()
}

/// The name of the item of this key, if there is one.
pub fn name_of(table: &Table, key: i32) -> Option<String> {
    table.get(key).unwrap().as_ref().map(name)
}
