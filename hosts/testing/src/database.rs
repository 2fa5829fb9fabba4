//! A server of PostgreSQL with an empty database.
use crate::{parsed, ports};
use std::net::SocketAddr;
use std::path::{Path, PathBuf};
use std::process::{Child, Command, Stdio};
use std::str::FromStr;
use std::sync::atomic::{AtomicU32, Ordering};
use std::thread;
use std::time::{Duration, Instant};

/// Where Debian and others have its programs.
const PROGRAMS: &str = "/usr/lib/postgresql";

/// The user whom the server runs as if this process is root's: it refuses root.
const USER: &str = "postgres";

/// A server that runs until this is dropped.
#[derive(Debug)]
pub struct Database {
    server: Child,
    /// The folder of PostgreSQL's programs.
    programs: PathBuf,
    settings: Vec<String>,
    folder: PathBuf,
    at: SocketAddr,
}

/// How many statements wait for a lock.
const WAITING: &str = "SELECT count(*) FROM pg_stat_activity WHERE wait_event_type = 'Lock'";

/// Functions, types and operators with names of PostgreSQL's own, which fail. They are called instead
/// of these by a role whose search path is `public, pg_catalog`, and some of them by any role.
pub const TRAPS: &str = "
    DO $do$
    DECLARE
        trap text := $$ LANGUAGE plpgsql AS
            'BEGIN RAISE EXCEPTION ''something of others was called''; END' $$;
        asked text;
        sides text;
    BEGIN
        FOREACH asked IN ARRAY ARRAY['unnest(integer[]) RETURNS SETOF integer',
            'unnest(bigint[]) RETURNS SETOF bigint', 'unnest(text[]) RETURNS SETOF text',
            'unnest(name[]) RETURNS SETOF name', 'quote_ident(name) RETURNS text',
            'quote_ident(text) RETURNS text', 'format(text, name, name) RETURNS text',
            'current_setting(text) RETURNS text', 'to_regclass(text) RETURNS regclass',
            'unnest(bytea[]) RETURNS SETOF bytea', 'repeat(text, integer) RETURNS text',
            'pg_advisory_xact_lock(bigint) RETURNS void']
        LOOP
            EXECUTE 'CREATE FUNCTION public.' || asked || trap;
        END LOOP;
        FOREACH sides IN ARRAY ARRAY['oid, oid', 'oid, regclass', 'name, name', 'uuid, uuid',
            'varchar, varchar', 'varchar, text', 'text, text', 'integer, bigint', 'bigint, bigint',
            'integer, integer', 'boolean, boolean']
        LOOP
            EXECUTE 'CREATE FUNCTION public.compare(' || sides || ') RETURNS boolean' || trap;
            FOREACH asked IN ARRAY ARRAY['=', '>=', '<=']
            LOOP
                EXECUTE pg_catalog.format('CREATE OPERATOR public.%s (LEFTARG = %s, RIGHTARG = %s,
                    FUNCTION = public.compare)', asked, split_part(sides, ', ', 1),
                    split_part(sides, ', ', 2));
            END LOOP;
        END LOOP;
    END $do$;
    CREATE DOMAIN public.uuid AS pg_catalog.uuid CHECK (false);
    CREATE DOMAIN public.text AS pg_catalog.text CHECK (false);";

static COUNT: AtomicU32 = AtomicU32::new(0);

impl Database {
    /// A new server, or none if PostgreSQL is not there.
    pub fn start() -> Option<Database> {
        Database::start_with(&[])
    }

    /// One with these settings, such as `fsync=off`.
    pub fn start_with(settings: &[&str]) -> Option<Database> {
        let Some(programs) = programs() else {
            eprintln!("NOT RUN: there is no PostgreSQL");
            return None;
        };
        Some(Database::start_from(&programs, settings))
    }

    /// One whose programs are in this folder, with these settings.
    pub fn start_from(programs: &Path, settings: &[&str]) -> Database {
        // Another process may take a free address before the server does.
        let started = (0..5).find_map(|_| Database::start_once(programs, settings));
        started.expect("PostgreSQL ends again and again")
    }

    /// Starts the server again that was stopped, at the same address, with its data and settings.
    pub fn start_again(&mut self) {
        let mut command = server(&self.programs, &self.folder.join("data"), self.at);
        command.args(&self.settings);
        self.server = command.spawn().unwrap();
    }

    /// Whether the server has not ended.
    pub fn is_running(&mut self) -> bool {
        self.server.try_wait().is_ok_and(|ended| ended.is_none())
    }

    fn start_once(programs: &Path, settings: &[&str]) -> Option<Database> {
        let count = COUNT.fetch_add(1, Ordering::Relaxed);
        let name = format!("krl-postgres-{}-{count}", std::process::id());
        let folder = std::env::temp_dir().join(name);
        std::fs::create_dir_all(&folder).unwrap();
        if is_root() {
            let owned = Command::new("chown").arg(USER).arg(&folder).status();
            assert!(owned.unwrap().success());
        }
        let data = folder.join("data");
        let mut init = program(&programs.join("initdb"));
        init.arg("--pgdata").arg(&data).args(["--username", "krl", "--auth", "trust"]);
        init.args(["--no-sync", "--encoding", "UTF8", "--locale", "C"]);
        assert!(init.stdout(Stdio::null()).stderr(Stdio::null()).status().unwrap().success());
        let at = ports::free_address().unwrap();
        let settings = settings.iter().flat_map(|setting| ["-c", setting]).map(String::from);
        let settings: Vec<String> = settings.collect();
        let server = server(programs, &data, at).args(&settings).spawn().unwrap();
        Database { server, programs: programs.to_path_buf(), settings, folder, at }.answers()
    }

    /// This server, once it answers, or none if it has ended.
    fn answers(mut self) -> Option<Database> {
        let end = Instant::now() + Duration::from_secs(60);
        while !self.is_answering() {
            if self.server.try_wait().unwrap().is_some() {
                return None;
            }
            assert!(Instant::now() < end, "PostgreSQL does not answer");
            thread::sleep(Duration::from_millis(20));
        }
        Some(self)
    }

    /// Waits until the server answers that was started again.
    pub fn wait_for_answers(&self) {
        let end = Instant::now() + Duration::from_secs(60);
        while !self.is_answering() {
            assert!(Instant::now() < end, "PostgreSQL does not answer");
            thread::sleep(Duration::from_millis(20));
        }
    }

    fn is_answering(&self) -> bool {
        Sql::connect(&self.address::<String>()).is_ok()
    }

    /// Where the table is.
    pub fn address<Address: FromStr>(&self) -> Address {
        address_at(self.at)
    }

    /// A file of the server with these bytes, which only it may read, for a setting.
    pub fn file(name: &str, bytes: &[u8]) -> String {
        let count = COUNT.fetch_add(1, Ordering::Relaxed);
        let name = format!("krl-postgres-{}-{count}-{name}", std::process::id());
        let path = std::env::temp_dir().join(name);
        std::fs::write(&path, bytes).unwrap();
        let path = path.into_os_string().into_string().unwrap();
        assert!(Command::new("chmod").args(["600", &path]).status().unwrap().success());
        // Without PostgreSQL there may be no such user, and nobody reads the file.
        if is_root() && programs().is_some() {
            assert!(Command::new("chown").args([USER, &path]).status().unwrap().success());
        }
        path
    }

    /// The server's own address, for a relay to it.
    pub fn at(&self) -> SocketAddr {
        self.at
    }

    /// A connection of its own.
    pub fn connect(&self) -> Sql {
        Sql::connect(&self.address::<String>()).unwrap()
    }

    /// Waits until at least this many statements wait for a lock.
    pub fn wait_for_waiting(&self, count: i64) {
        self.connect().wait_until(WAITING, |found| found >= count);
    }

    /// Waits until no statement waits for a lock.
    pub fn wait_for_none_waiting(&self) {
        self.connect().wait_until(WAITING, |found| found == 0);
    }

    /// Ends the server as an operator does, and waits until it has ended.
    pub fn stop(&mut self) {
        self.end("-INT");
    }

    /// Ends the server at once, as a crash does: it recovers when it is started again.
    pub fn crash(&mut self) {
        self.end("-QUIT");
    }

    fn end(&mut self, signal: &str) {
        if !self.is_running() {
            return;
        }
        let status = Command::new("kill").args([signal, &self.server.id().to_string()]).status();
        assert!(status.unwrap().success());
        let end = Instant::now() + Duration::from_secs(60);
        while self.is_running() && Instant::now() < end {
            thread::sleep(Duration::from_millis(10));
        }
    }
}

impl Drop for Database {
    fn drop(&mut self) {
        // At once, whatever is connected.
        self.end("-QUIT");
        let _ = self.server.kill();
        let _ = self.server.wait();
        let _ = std::fs::remove_dir_all(&self.folder);
    }
}

/// A connection that runs statements.
#[derive(Debug)]
pub struct Sql {
    client: tokio_postgres::Client,
    runtime: tokio::runtime::Runtime,
}

impl Sql {
    /// A connection to the database at this address.
    pub fn connect(address: &str) -> Result<Sql, tokio_postgres::Error> {
        let runtime = tokio::runtime::Builder::new_current_thread().enable_all().build().unwrap();
        let connecting = tokio_postgres::connect(address, tokio_postgres::NoTls);
        let (client, connection) = runtime.block_on(connecting)?;
        runtime.spawn(connection);
        Ok(Sql { client, runtime })
    }

    /// Runs statements that answer nothing.
    pub fn run(&self, statements: &str) {
        self.try_run(statements).unwrap();
    }

    /// The same, or why they were not run to the end.
    pub fn try_run(&self, statements: &str) -> Result<(), tokio_postgres::Error> {
        self.runtime.block_on(self.client.batch_execute(statements))
    }

    /// The rows of an answer.
    pub fn query(&self, asked: &str) -> Vec<tokio_postgres::Row> {
        self.try_query(asked).unwrap()
    }

    /// The same, or why there is none.
    pub fn try_query(
        &self,
        asked: &str,
    ) -> Result<Vec<tokio_postgres::Row>, tokio_postgres::Error> {
        self.runtime.block_on(self.client.query(asked, &[]))
    }

    /// Asks again and again until the one number of the answer is as it should be.
    pub fn wait_until(&self, asked: &str, is_expected: impl Fn(i64) -> bool) {
        let end = Instant::now() + Duration::from_secs(60);
        loop {
            let row = self.runtime.block_on(self.client.query_one(asked, &[])).unwrap();
            if is_expected(row.get::<_, i64>(0)) {
                return;
            }
            assert!(Instant::now() < end, "{asked}: {row:?}");
            thread::sleep(Duration::from_millis(10));
        }
    }
}

/// The table of the server that is reached there.
pub fn address_at<Address: FromStr>(at: SocketAddr) -> Address {
    parsed(&format!("postgres://krl@{at}/postgres"))
}

/// The server of these data, at this address.
fn server(programs: &Path, data: &Path, at: SocketAddr) -> Command {
    let mut command = program(&programs.join("postgres"));
    command.arg("-D").arg(data).args(["-h", "127.0.0.1", "-k", ""]);
    command.args(["-p", &at.port().to_string()]);
    command.stdout(Stdio::null()).stderr(Stdio::null());
    command
}

/// The folder of the newest version's programs.
fn programs() -> Option<PathBuf> {
    let versions = std::fs::read_dir(PROGRAMS).ok()?;
    let folders = versions.flatten().map(|version| version.path().join("bin"));
    folders.filter(|folder| folder.join("postgres").exists()).max()
}

fn is_root() -> bool {
    let id = Command::new("id").arg("-u").output();
    id.is_ok_and(|output| output.stdout.starts_with(b"0"))
}

/// The program, as a user whom PostgreSQL takes, in a folder that this user may enter.
fn program(path: &Path) -> Command {
    let mut command = if is_root() {
        let mut command = Command::new("setpriv");
        command.args(["--reuid", USER, "--regid", USER, "--init-groups", "--"]).arg(path);
        command
    } else {
        Command::new(path)
    };
    command.current_dir("/");
    command
}
