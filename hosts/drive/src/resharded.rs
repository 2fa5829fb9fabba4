//! A table whose shards `krl-server reshard` changes: its servers, its stores and its map, all in a
//! folder, and the commands that change them.
use krl::{Client, Servers, ShardMap};
use krl_testing::ports::free_address;
use std::error::Error;
use std::fs::File;
use std::path::{Path, PathBuf};
use std::process::{Command, Stdio};
use std::time::Duration;

type Done<T = ()> = Result<T, Box<dyn Error>>;

/// A server of a shard. Its store has its name.
pub struct ShardServer {
    name: String,
    pub servers: Servers,
    /// Where it shows its status.
    status: String,
}

/// A change of the shards of servers. The new server has another place in the map, but after a merge.
pub enum Change<'c> {
    Split { whole: &'c ShardServer, at: u64 },
    Move { old: &'c ShardServer, first: u64 },
    Merge { lower: &'c ShardServer, upper: &'c ShardServer, at: u64 },
}

/// The servers and the map of a table.
pub struct Table<'p> {
    folder: PathBuf,
    /// `krl-server`.
    program: &'p Path,
    lease: &'static str,
    /// How many servers there were.
    servers: u32,
}

impl<'p> Table<'p> {
    /// A table without a server, in this folder.
    pub fn new(folder: &Path, program: &'p Path, lease: &'static str) -> Done<Table<'p>> {
        std::fs::create_dir_all(folder)?;
        Ok(Table { folder: folder.canonicalize()?, program, lease, servers: 0 })
    }

    /// A server that has not started yet.
    pub fn new_server(&mut self) -> Done<ShardServer> {
        self.servers += 1;
        let name = name_of(self.servers);
        let servers = format!("unix:{}", self.folder.join(&name).display()).parse()?;
        Ok(ShardServer { name, servers, status: free_address()?.to_string() })
    }

    pub fn folder(&self) -> &Path {
        &self.folder
    }

    pub fn map(&self) -> PathBuf {
        self.folder.join("map.toml")
    }

    /// What the commands report.
    pub fn log(&self) -> PathBuf {
        self.folder.join("log")
    }

    pub fn store(&self, server: &ShardServer) -> PathBuf {
        self.store_of(&server.name)
    }

    /// The stores of all servers that there were.
    pub fn stores(&self) -> Vec<PathBuf> {
        (1..=self.servers).map(|number| self.store_of(&name_of(number))).collect()
    }

    fn store_of(&self, name: &str) -> PathBuf {
        self.folder.join(format!("{name}.db"))
    }

    /// A client that follows the map.
    pub fn join(&self, number: u8, timeout: Duration) -> Done<Client> {
        let map = ShardMap::from_file(self.map()).map_err(|error| error.to_string())?;
        let client = Client::builder(map, number, &self.folder).timeout(timeout).join()?;
        client.follow(self.map())?;
        Ok(client)
    }

    /// Starts the server, if it does not run, and waits until it serves.
    pub fn start(&self, server: &ShardServer) -> Done {
        shell(&self.start_command(server))
    }

    /// A command that does so.
    fn start_command(&self, ShardServer { name, servers, status }: &ShardServer) -> String {
        let (program, folder) = (self.program.display(), self.folder.display());
        let lease = self.lease;
        format!(
            "setsid '{program}' serve --store '{folder}/{name}.db' --listen '{servers}' --status {status} \
             --map '{folder}/map.toml' --lease {lease} >>'{folder}/{name}.log' 2>&1 </dev/null &\n\
             until '{program}' health --ready {status} >/dev/null 2>&1; do\n\
             kill -0 $! 2>/dev/null || exit 1; sleep 0.01; done"
        )
    }

    /// A command that has it stop if it runs, and waits for nothing. Its number is in the lock file,
    /// also when another process has that number by now.
    fn stop_command(&self, name: &str) -> String {
        let store = self.store_of(name);
        format!(
            "process=$(sed -n 's/^process \\([0-9]*\\),.*/\\1/p' '{store}.lock')\n\
             runs() {{ tr '\\0' ' ' <\"/proc/$process/cmdline\" | grep -q ' serve .*{store} '; }}\n\
             runs 2>/dev/null || exit 0\n\
             kill \"$process\"\n",
            store = store.display()
        )
    }

    /// Stops all servers, and waits until they have ended.
    pub fn stop_all(&self) -> Done {
        for name in (1..=self.servers).map(name_of) {
            if self.store_of(&name).with_extension("db.lock").exists() {
                let stop = self.stop_command(&name);
                shell(&format!("{stop}while runs 2>/dev/null; do sleep 0.02; done"))?;
            }
        }
        Ok(())
    }

    /// The command that makes the change. The new store is that of this server.
    pub fn reshard(&self, change: &Change<'_>, new: &ShardServer) -> Done<Command> {
        let old = change.old();
        let both = |command: &dyn Fn(&ShardServer) -> String| {
            let each = old.iter().map(|server| format!("({})", command(server)));
            each.collect::<Vec<_>>().join(" && ")
        };
        let mut command = Command::new(self.program);
        command.arg("reshard").arg(change.name());
        command.args(old.iter().map(|server| self.store(server)));
        let key = change.key().to_string();
        match change {
            Change::Split { .. } => command.arg(key).arg(self.store(new)),
            Change::Move { .. } => command.arg(self.store(new)).args(["--first", &key]),
            Change::Merge { .. } => command.arg(self.store(new)).args(["--at", &key]),
        };
        if !matches!(change, Change::Merge { .. }) {
            command.args(["--servers", &new.servers.to_string()]);
        }
        command.arg("--map").arg(self.map());
        for server in &old {
            command.args(["--status", &server.status]);
        }
        let start = both(&|server| self.start_command(server));
        let stop = both(&|server| self.stop_command(&server.name));
        command.args(["--start", &start, "--stop", &stop]);
        command.args(["--start-new", &self.start_command(new)]);
        let log = File::options().create(true).append(true).open(self.log())?;
        command.stdout(Stdio::null()).stderr(log);
        Ok(command)
    }
}

impl Change<'_> {
    pub fn name(&self) -> &'static str {
        match self {
            Change::Split { .. } => "split",
            Change::Move { .. } => "move",
            Change::Merge { .. } => "merge",
        }
    }

    fn key(&self) -> u64 {
        let (Change::Split { at: key, .. }
        | Change::Move { first: key, .. }
        | Change::Merge { at: key, .. }) = self;
        *key
    }

    /// The servers whose shards change.
    pub fn old(&self) -> Vec<&ShardServer> {
        match self {
            Change::Split { whole: old, .. } | Change::Move { old, .. } => vec![old],
            Change::Merge { lower, upper, .. } => vec![lower, upper],
        }
    }
}

impl Drop for Table<'_> {
    fn drop(&mut self) {
        let _ = self.stop_all();
    }
}

fn name_of(number: u32) -> String {
    format!("s{number}")
}

pub fn shell(command: &str) -> Done {
    let status = Command::new("sh").args(["-c", command]).status()?;
    if status.success() { Ok(()) } else { Err(format!("'{command}' has ended: {status}").into()) }
}
