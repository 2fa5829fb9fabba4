//! A log and an output that can't be written, or that nobody reads.
mod common;

use common::{Serving, errors, join, program, until};
use krl::{Address, Outcome, Value};
use std::fs::{File, OpenOptions};
use std::io::{Read, Write};
use std::net::TcpStream;
use std::path::Path;
use std::process::{Child, Command, Output, Stdio};
use std::sync::atomic::{AtomicU16, Ordering};
use std::thread;
use std::time::Duration;

static NEXT_PORT: AtomicU16 = AtomicU16::new(7401);

/// A server whose log can't be read: so its addresses have to be known.
struct Deaf {
    folder: tempfile::TempDir,
    process: Child,
    status: String,
}

impl Deaf {
    fn start(log: impl Into<Stdio>) -> Deaf {
        let folder = tempfile::tempdir().unwrap();
        let [low, high, ..] = std::process::id().to_le_bytes();
        // No other process takes a port of this address, and no other test this port.
        let port = NEXT_PORT.fetch_add(1, Ordering::Relaxed);
        let status = format!("127.75.{high}.{low}:{port}");
        let mut command = program();
        command.args(["serve", "--create", "--store"]).arg(folder.path().join("krl.db"));
        command.args(["--status", &status, "--listen", &unix(folder.path())]);
        // A pin lives through a machine that stands still for a while.
        command.args(["--lease", "600s"]);
        let process = command.stderr(log).spawn().unwrap();
        Deaf { folder, process, status }
    }

    fn serves_a_client(&mut self) {
        let path = self.folder.path();
        until("it listens", || {
            assert_eq!(self.process.try_wait().unwrap(), None, "the server has ended");
            path.join("socket").exists()
        });
        let address: Address = unix(path).parse().unwrap();
        let client = join(&address, path, 3);
        assert_eq!(client.insert(1, Value::from(1)), Ok(Outcome::Applied));
        client.leave().unwrap();
    }

    fn lost_lines(&self) -> u64 {
        let mut stream = TcpStream::connect(&self.status).unwrap();
        stream.write_all(b"GET /metrics HTTP/1.1\r\nHost: 127.0.0.1\r\n\r\n").unwrap();
        let mut page = String::new();
        stream.read_to_string(&mut page).unwrap();
        let line = page.lines().find_map(|line| line.strip_prefix("krl_log_lost_total "));
        line.expect(&page).parse().unwrap()
    }

    fn ends_in_order(mut self) {
        let words = ["-TERM".to_string(), self.process.id().to_string()];
        assert!(Command::new("kill").args(words).status().unwrap().success());
        assert_eq!(self.process.wait().unwrap().code(), Some(0));
    }
}

impl Drop for Deaf {
    fn drop(&mut self) {
        // One that has ended needs no end.
        let _ = self.process.kill();
        let _ = self.process.wait();
    }
}

fn unix(folder: &Path) -> String {
    format!("unix:{}", folder.join("socket").display())
}

fn full() -> File {
    OpenOptions::new().write(true).open("/dev/full").unwrap()
}

#[test]
fn a_server_whose_log_is_on_a_full_disk_continues_and_counts() {
    let mut server = Deaf::start(full());
    server.serves_a_client();
    until("lost lines are counted", || server.lost_lines() > 0);
    server.ends_in_order();
}

#[test]
fn a_server_whose_log_has_lost_its_reader_continues() {
    let (reader, writer) = std::io::pipe().unwrap();
    drop(reader);
    let mut server = Deaf::start(writer);
    server.serves_a_client();
    until("lost lines are counted", || server.lost_lines() > 0);
    server.ends_in_order();
}

#[test]
fn a_server_whose_log_nobody_reads_continues() {
    let (reader, writer) = std::io::pipe().unwrap();
    // It ends when the pipe is full.
    let mut fills = Command::new("dd");
    fills.args(["if=/dev/zero", "of=/dev/stdout", "oflag=nonblock", "bs=1", "count=10000000"]);
    let filled = fills.stdout(writer.try_clone().unwrap()).stderr(Stdio::null()).status();
    assert!(!filled.unwrap().success(), "the pipe is full");
    let mut server = Deaf::start(writer);
    server.serves_a_client();
    server.ends_in_order();
    drop(reader);
}

/// What the program does if its output is this.
fn run_into(output: impl Into<Stdio>, words: &[&str]) -> Output {
    program().args(words).stdout(output).stderr(Stdio::piped()).output().unwrap()
}

#[test]
fn commands_whose_output_cannot_be_written_fail_in_order() {
    let folder = tempfile::tempdir().unwrap();
    let store = folder.path().join("krl.db");
    let serving = Serving::start(&store);
    let (copy, again) = (folder.path().join("copy.db"), folder.path().join("again.db"));
    let [copy, again] = [&copy, &again].map(|path| path.to_str().unwrap());
    let status = serving.status.as_str();
    let commands: [&[&str]; 5] = [
        &["status", status],
        &["locks", "--status", status],
        &["health", status],
        &["config"],
        &["backup", status, copy],
    ];
    let more: [&[&str]; 2] =
        [&["check", copy], &["restore", copy, "--store", again, "--clients-are-stopped"]];
    for words in commands.iter().chain(&more) {
        let failed = run_into(full(), words);
        assert_eq!(failed.status.code(), Some(1), "{words:?}: {}", errors(&failed));
        let message = errors(&failed);
        assert!(
            message.contains("standard output can't be written: No space"),
            "{words:?}: {message}"
        );
        let is_done = matches!(words[0], "backup" | "restore");
        assert_eq!(message.contains("it is done, but"), is_done, "{words:?}: {message}");
        assert_eq!(message.lines().count(), 1, "{words:?}: {message}");
    }
    for path in [copy, again] {
        assert!(Path::new(path).exists(), "{path}");
    }
    for words in [&["status", status][..], &["check", copy]] {
        let (reader, writer) = std::io::pipe().unwrap();
        drop(reader);
        let ended = run_into(writer, words);
        assert_eq!((ended.status.code(), errors(&ended).as_str()), (Some(141), ""), "{words:?}");
    }
    let failed = program().args(["status", "nowhere"]).stderr(full()).status().unwrap();
    assert_eq!(failed.code(), Some(2));
}

#[test]
fn a_wait_of_ten_seconds_is_logged_once_and_its_end_too() {
    let folder = tempfile::tempdir().unwrap();
    let log = folder.path().join("log");
    let mut server = Deaf::start(File::create(&log).unwrap());
    server.serves_a_client();
    let path = server.folder.path();
    let address: Address = unix(path).parse().unwrap();
    let (holder, waiter) = (join(&address, path, 4), join(&address, path, 7));
    assert_eq!(holder.insert(15, Value::from(1)), Ok(Outcome::Applied));
    let (_, pin) = holder.pin_for_read(15..16).unwrap();
    let lines = |words: &str| {
        let text = std::fs::read_to_string(&log).unwrap();
        text.lines().filter(|line| line.contains(words)).map(String::from).collect::<Vec<_>>()
    };
    thread::scope(|scope| {
        let writes = scope.spawn(|| waiter.within(Duration::MAX).put(15, Value::from(2)));
        until("a wait is logged", || !lines("a client has waited for a long time").is_empty());
        drop(pin);
        assert_eq!(writes.join().unwrap(), Ok(Outcome::Applied));
    });
    until("its end is logged", || !lines("a long wait has ended").is_empty());
    // Lines after that one may not be whole yet.
    for line in lines("").iter().take_while(|line| !line.contains("a long wait has ended")) {
        assert!(!line.contains("= ") && !line.ends_with('='), "a field has no value: {line}");
    }
    let begun = lines("a client has waited for a long time");
    assert_eq!(begun.len(), 1, "{begun:?}");
    for part in ["WARN", "client=7", "waits_for=4", "lo=15", "mode=\"X\"", "seconds=1"] {
        assert!(begun[0].contains(part), "{part}: {begun:?}");
    }
}
