//! A server in this process, and the program as a process that asks it.
#![allow(dead_code, reason = "each file of tests takes a part of this")]
use krl::{Client, Leases, Listener, MemoryStore, Server, ServerBuilder};
use nix::sys::signal::{Signal, kill};
use nix::unistd::Pid;
use std::io::Write;
use std::path::PathBuf;
use std::process::{Child, Command, Output, Stdio};
use std::thread;
use std::time::{Duration, Instant};

/// No wait of a test is longer.
pub const LONG: Duration = Duration::from_secs(30);

/// What a run of the program came to.
#[derive(Debug, PartialEq, Eq)]
pub struct Ended {
    pub status: i32,
    pub out: String,
    pub errors: String,
}

/// A server, and a folder for the lock files of its clients that is gone when the test is.
pub struct World {
    pub server: Server,
    pub folder: PathBuf,
}

impl World {
    pub fn new(name: &str) -> World {
        World::over(name, None)
    }

    /// A world whose server serves this shard.
    pub fn over(name: &str, shard: Option<&str>) -> World {
        World { server: start(shard), folder: World::folder_of(name) }
    }

    /// A world whose server grants leases of this length.
    pub fn leased(name: &str, length: Duration) -> World {
        let leases = Leases::of(length).unwrap();
        let server = builder().leases(leases).start().unwrap();
        World { server, folder: World::folder_of(name) }
    }

    /// A new folder of a test.
    pub fn folder_of(test: &str) -> PathBuf {
        let folder = format!("krl-client-{}-{test}", std::process::id());
        let folder = std::env::temp_dir().join(folder);
        std::fs::create_dir_all(&folder).unwrap();
        folder
    }

    /// A client in this process.
    pub fn client(&self, number: u8) -> Client {
        let lock_file = self.folder.join(format!("own-{number}.lock"));
        Client::join(self.server.address().clone(), number, lock_file).unwrap()
    }

    /// The program with these words, for this server.
    pub fn command(&self, words: &[&str]) -> Command {
        let mut command = Command::new(env!("CARGO_BIN_EXE_krl-client"));
        let settings = ["KRL_MAP", "KRL_NUMBER", "KRL_LOCK_FILE", "KRL_TIMEOUT", "KRL_FORMAT"];
        for name in settings {
            command.env_remove(name);
        }
        command
            .env("KRL_SERVER", self.server.address().to_string())
            .env("XDG_STATE_HOME", &self.folder)
            .stdin(Stdio::null())
            .stdout(Stdio::piped())
            .stderr(Stdio::piped())
            .args(words);
        command
    }

    pub fn spawn(&self, words: &[&str]) -> Child {
        self.command(words).spawn().unwrap()
    }

    pub fn run(&self, words: &[&str]) -> Ended {
        self.spawn(words).wait_with_output().unwrap().into()
    }

    /// Runs the program with these words, and lines on its standard input.
    pub fn run_lines(&self, words: &[&str], lines: &str) -> Ended {
        let mut program = self.command(words).stdin(Stdio::piped()).spawn().unwrap();
        // A program that ends early does not read all.
        let _ = program.stdin.take().unwrap().write_all(lines.as_bytes());
        program.wait_with_output().unwrap().into()
    }

    /// Runs the program, which has to end well, and gives what it prints.
    pub fn prints(&self, words: &[&str]) -> String {
        let ended = self.run(words);
        assert_eq!((ended.status, ended.errors.as_str()), (0, ""), "{words:?}: {ended:?}");
        ended.out
    }

    /// Waits until the client of this number holds something, as the server shows.
    pub fn wait_until_held(&self, number: u8) {
        wait_for("a client holds something", || {
            self.server.status().holdings.iter().any(|it| it.client == number && it.slots > 0)
        });
    }
}

/// A server of this shard, or of all keys.
pub fn start(shard: Option<&str>) -> Server {
    match shard {
        Some(shard) => builder().shard(shard.parse().unwrap()).start().unwrap(),
        None => builder().start().unwrap(),
    }
}

fn builder() -> ServerBuilder<MemoryStore> {
    let listener = Listener::bind(&"127.0.0.1:0".parse().unwrap()).unwrap();
    Server::builder(listener, MemoryStore::default())
}

impl Drop for World {
    fn drop(&mut self) {
        let _ = std::fs::remove_dir_all(&self.folder);
    }
}

impl From<Output> for Ended {
    fn from(output: Output) -> Ended {
        let text = |bytes| String::from_utf8(bytes).unwrap();
        Ended {
            status: output.status.code().unwrap_or(-1),
            out: text(output.stdout),
            errors: text(output.stderr),
        }
    }
}

pub fn signal(program: &Child, signal: Signal) {
    kill(Pid::from_raw(i32::try_from(program.id()).unwrap()), signal).unwrap();
}

pub fn wait_for(what: &str, mut is_so: impl FnMut() -> bool) {
    let end = Instant::now() + LONG;
    while !is_so() {
        assert!(Instant::now() < end, "{what}: not within {LONG:?}");
        thread::sleep(Duration::from_millis(5));
    }
}
