//! A table of shards, each with a server, over files or in databases, for tests that change the shards.
#![allow(dead_code, reason = "each test takes what it needs")]
use crate::common::{errors, program, text};
use krl::store::{KeptShard, Snapshot, Store};
use krl::{Client, ShardMap, SqliteStore, Value};
use krl_etcd::{Credentials, EtcdAddress, EtcdStore};
use krl_postgres::{PostgresAddress, PostgresStore};
use krl_testing::cluster::Cluster;
use krl_testing::database::Database;
use krl_testing::ports::free_address;
use std::collections::{BTreeMap, BTreeSet};
use std::fs;
use std::path::{Path, PathBuf};
use std::process::{Command, Output};
use std::sync::atomic::{AtomicU32, Ordering};
use std::time::Duration;
use tempfile::TempDir;

/// No wait of a test is longer.
const LONG: Duration = Duration::from_secs(60);

/// Starts a server unless it runs, and returns when it serves: `start.sh NAME STATUS ADDRESS STORE MAP`.
const START: &str = "\
unset LD_PRELOAD
cd \"$(dirname \"$0\")\" || exit
exec 9>\"$1.start\"
flock 9
$SERVER health --ready \"$2\" >/dev/null 2>&1 && exit
$SERVER serve --store \"$4\" --listen \"$3\" --status \"$2\" --map \"$5\" \\
    >>\"$1.log\" 2>&1 </dev/null 9>&- &
echo $! >\"$1.process\"
until $SERVER health --ready \"$2\" >/dev/null 2>&1; do
    kill -0 $! 2>/dev/null || exit
    sleep 0.05
done
";

/// Stops one if it runs, and returns when it has ended: `stop.sh NAME STORE`. Another process may have
/// its number by now.
const STOP: &str = "\
unset LD_PRELOAD
cd \"$(dirname \"$0\")\" || exit
[ -e \"$1.process\" ] || exit 0
store=$2
read -r process <\"$1.process\"
runs() {
    tr '\\0' ' ' <\"/proc/$process/cmdline\" | grep -qF \" serve --store $store \"
}
runs 2>/dev/null || exit 0
kill \"$process\"
while runs 2>/dev/null; do sleep 0.02; done
";

/// Where the stores of a table are.
pub enum Engine {
    Files,
    Postgres(Database),
    Etcd(Cluster),
}

/// A table of shards, each with a server, and the file of its map. All is gone when the test is.
pub struct World<'e> {
    engine: &'e Engine,
    number: u32,
    folder: TempDir,
    /// The servers that were started, each with its status port.
    servers: Vec<(String, String)>,
    /// The servers at the places of others, by their names.
    places: Vec<(String, String)>,
    /// Where the stores are, by the names of their servers.
    stores: BTreeMap<String, String>,
    /// The map that servers watch.
    watched: String,
    /// The map that commands change.
    pub changed: String,
}

static COUNT: AtomicU32 = AtomicU32::new(0);

impl Engine {
    /// A new place for a store of this name.
    pub fn place(&self, name: &str) -> String {
        match self {
            Engine::Files => format!("{name}.db"),
            Engine::Etcd(cluster) => cluster.address(name),
            Engine::Postgres(database) => {
                database.connect().run(&format!("CREATE DATABASE {name}"));
                let address: String = database.address();
                let (server, _) = address.rsplit_once('/').unwrap();
                format!("{server}/{name}")
            }
        }
    }
}

impl<'e> World<'e> {
    /// One shard of all keys, at the server `a`, over these rows, and the map of it.
    pub fn new(engine: &'e Engine, keys: impl IntoIterator<Item = u64>) -> World<'e> {
        World::watching(engine, keys, "map.toml")
    }

    /// The same, with servers that watch another map.
    pub fn watching(
        engine: &'e Engine,
        keys: impl IntoIterator<Item = u64>,
        watched: &str,
    ) -> World<'e> {
        let mut world = World {
            engine,
            number: COUNT.fetch_add(1, Ordering::Relaxed),
            folder: tempfile::tempdir().unwrap(),
            servers: Vec::new(),
            places: Vec::new(),
            stores: BTreeMap::new(),
            watched: watched.into(),
            changed: "map.toml".into(),
        };
        for (name, script) in [("start.sh", START), ("stop.sh", STOP)] {
            let server = format!("SERVER='{}'\n", env!("CARGO_BIN_EXE_krl-server"));
            fs::write(world.path(name), server + script).unwrap();
        }
        let rows = keys.into_iter().map(|key| (key, Value::from(key))).collect();
        let shard = Some("0..@1".parse().unwrap());
        world.create("a", &Snapshot { epoch: 1, rows, shard, ..Snapshot::default() });
        let servers = world.address("a");
        let map = format!("version = 1\n\n[[shard]]\nfirst = 0\nservers = \"{servers}\"\n");
        fs::write(world.path("map.toml"), map).unwrap();
        world.start("a");
        world
    }

    pub fn path(&self, name: &str) -> PathBuf {
        self.folder.path().join(name)
    }

    /// Where the store of this name is: a new place if it is the first time.
    pub fn store(&mut self, name: &str) -> String {
        if let Some(store) = self.stores.get(name) {
            return store.clone();
        }
        let place = match self.engine {
            Engine::Files => self.engine.place(name),
            _ => self.engine.place(&format!("w{}_{name}", self.number)),
        };
        self.put_store(name, &place);
        place
    }

    /// The store of this name is at this place.
    pub fn put_store(&mut self, name: &str, place: &str) {
        self.stores.insert(name.into(), place.into());
    }

    pub fn create(&mut self, name: &str, snapshot: &Snapshot) {
        let place = self.store(name);
        if let Ok(address) = place.parse::<EtcdAddress>() {
            EtcdStore::create(&address, &Credentials::default(), snapshot).unwrap();
        } else if let Ok(address) = place.parse::<PostgresAddress>() {
            PostgresStore::create(&address, None, snapshot).unwrap();
        } else {
            SqliteStore::create(self.path(&place), snapshot).unwrap();
        }
    }

    /// What the store of this name has. A file has nothing if it is not there.
    fn snapshot(&self, name: &str) -> Snapshot {
        let place = &self.stores[name];
        if let Ok(address) = place.parse::<EtcdAddress>() {
            EtcdStore::open(&address, &Credentials::default()).unwrap().load().unwrap()
        } else if let Ok(address) = place.parse::<PostgresAddress>() {
            PostgresStore::open(&address, None).unwrap().load().unwrap()
        } else if self.path(place).exists() {
            SqliteStore::read(self.path(place)).unwrap().snapshot
        } else {
            Snapshot::default()
        }
    }

    pub fn address(&self, name: &str) -> String {
        let other = self.places.iter().find(|(known, _)| known == name).map(|(_, other)| other);
        format!("unix:{}", self.path(other.map_or(name, |other| other)).display())
    }

    /// The status port of a server, which is a free one if it has not been started yet.
    pub fn status(&mut self, name: &str) -> String {
        if let Some((_, status)) = self.servers.iter().find(|(known, _)| known == name) {
            return status.clone();
        }
        let port = free_address().unwrap().to_string();
        self.servers.push((name.into(), port.clone()));
        port
    }

    pub fn start_command(&mut self, name: &str) -> String {
        let (script, status, store) = (self.path("start.sh"), self.status(name), self.store(name));
        let (script, address, map) = (script.display(), self.address(name), &self.watched);
        format!("sh '{script}' {name} {status} '{address}' '{store}' '{map}'")
    }

    pub fn stop_command(&mut self, name: &str) -> String {
        format!("sh '{}' {name} '{}'", self.path("stop.sh").display(), self.store(name))
    }

    pub fn start(&mut self, name: &str) {
        let command = self.start_command(name);
        assert!(Command::new("sh").args(["-c", &command]).status().unwrap().success());
    }

    /// Gives the files of a store another name.
    pub fn rename(&self, from: &str, to: &str) {
        for file in fs::read_dir(self.path("")).unwrap() {
            let name = file.unwrap().file_name().into_string().unwrap();
            if let Some(end) = name.strip_prefix(from).filter(|end| *end != ".lock") {
                fs::rename(self.path(&name), self.path(&format!("{to}{end}"))).unwrap();
            }
        }
    }

    pub fn stop(&mut self, name: &str) {
        let command = self.stop_command(name);
        assert!(Command::new("sh").args(["-c", &command]).status().unwrap().success());
    }

    /// The command with these words, for shards of the old servers and of a new one.
    pub fn reshard(&mut self, words: &[&str], old: &[&str], new: &str) -> Command {
        let stop: Vec<String> = old.iter().map(|name| self.stop_command(name)).collect();
        let start: Vec<String> = old.iter().map(|name| self.start_command(name)).collect();
        let mut command = program();
        command.current_dir(self.folder.path()).arg("reshard").args(words);
        for name in old {
            command.args(["--status", &self.status(name)]);
        }
        command.args(["--map", &self.changed, "--stop", &stop.join(" && ")]);
        command.args(["--start", &start.join(" && "), "--start-new", &self.start_command(new)]);
        command
    }

    /// Cuts the shard of `old` at a key, for the server `new`.
    pub fn split(&mut self, old: &str, at: u64, new: &str) -> Command {
        let (store, new_store) = (self.store(old), self.store(new));
        let (at, servers) = (at.to_string(), self.address(new));
        let words = ["split", &store, &at, &new_store, "--servers", &servers];
        self.reshard(&words, &[old], new)
    }

    /// Makes one shard of two, for a server on a new store at the place of the lower one.
    pub fn merge(&mut self, [lower, upper]: [&str; 2], at: u64, new: &str) -> Command {
        self.places.push((new.into(), lower.into()));
        let [lower_store, upper_store, new_store] = [lower, upper, new].map(|it| self.store(it));
        let at = at.to_string();
        let words = ["merge", &lower_store, &upper_store, &new_store, "--at", &at];
        self.reshard(&words, &[lower, upper], new)
    }

    /// Moves the shard of `old` to the server `new`.
    pub fn move_away(&mut self, old: &str, first: u64, new: &str) -> Command {
        let (store, new_store) = (self.store(old), self.store(new));
        let (first, servers) = (first.to_string(), self.address(new));
        let words = ["move", &store, &new_store, "--first", &first, "--servers", &servers];
        self.reshard(&words, &[old], new)
    }

    pub fn map(&self) -> ShardMap {
        ShardMap::from_file(self.path("map.toml")).unwrap()
    }

    pub fn version(&self) -> u64 {
        self.map().version().unwrap().get()
    }

    /// A client that follows the map.
    pub fn join(&self, number: u8) -> Client {
        self.join_by(&self.path("map.toml"), number)
    }

    /// A client that follows the map in this file.
    pub fn join_by(&self, file: &Path, number: u8) -> Client {
        let client = self.join_deaf(number);
        client.follow(file).unwrap();
        client
    }

    /// A client that does not follow it.
    pub fn join_deaf(&self, number: u8) -> Client {
        let builder = Client::builder(self.map(), number, self.folder.path());
        builder.timeout(LONG).join().unwrap()
    }

    /// Which shards the stores are of, sealed or not, by their names.
    pub fn kept(&self, names: &[&str]) -> Vec<String> {
        let kept = |name: &&str| {
            self.snapshot(name).shard.as_ref().map_or(String::new(), KeptShard::to_string)
        };
        names.iter().map(kept).collect()
    }

    /// The keys of the stores on which servers may start: none is there twice.
    pub fn keys(&self) -> BTreeSet<u64> {
        let stores = self.stores.keys().map(|name| self.snapshot(name));
        let mut keys = BTreeSet::new();
        for store in stores.filter(|store| store.shard.is_some_and(|shard| !shard.is_sealed)) {
            let count = keys.len() + store.rows.len();
            keys.extend(store.rows.into_keys());
            assert_eq!(keys.len(), count, "two stores have a key in common");
        }
        keys
    }

    pub fn stop_all(&mut self) {
        let names: Vec<String> = self.servers.iter().map(|(name, _)| name.clone()).collect();
        for name in names {
            self.stop(&name);
        }
    }
}

impl Drop for World<'_> {
    fn drop(&mut self) {
        self.stop_all();
    }
}

/// The same command with another value of an option, or with an option that it lacks.
pub fn with(command: &Command, option: &str, value: &str) -> Command {
    let mut other = program();
    other.current_dir(command.get_current_dir().unwrap());
    let mut words = command.get_args();
    while let Some(word) = words.next() {
        if word == option {
            words.next();
        } else {
            other.arg(word);
        }
    }
    other.args([option, value]);
    other
}

/// Runs the command, which ends well.
pub fn run(command: &mut Command) -> Output {
    let output = command.output().unwrap();
    assert_eq!(output.status.code(), Some(0), "{}", errors(&output));
    output
}

/// Runs the command, which fails. Returns why.
pub fn refused(command: &mut Command) -> String {
    let output = command.output().unwrap();
    assert_eq!(output.status.code(), Some(1), "{}{}", text(&output), errors(&output));
    errors(&output)
}
