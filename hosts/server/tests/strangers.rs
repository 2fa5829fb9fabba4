//! What a stranger can make a server hold: `SECURITY.md` has the table.
mod common;

use common::{Serving, join, program, until};
use krl::{Address, Outcome, Value};
use std::io::{Read, Write};
use std::net::TcpStream;
use std::path::Path;
use std::process::Command;
use std::thread;
use std::time::Duration;

/// As many as one address may have at once.
const MANY: usize = 64;

/// How long a test waits for what has to come.
const PATIENCE: Duration = Duration::from_secs(60);

const KIB: usize = 1 << 10;
const MIB: usize = 1 << 20;

/// The bytes of memory that the server's process has of its own.
fn held(serving: &Serving) -> usize {
    let path = format!("/proc/{}/status", serving.process.id());
    let status = std::fs::read_to_string(path).unwrap();
    let line = status.lines().find_map(|line| line.strip_prefix("RssAnon:")).unwrap();
    line.split_whitespace().next().unwrap().parse::<usize>().unwrap() * KIB
}

/// The most memory that the server takes beyond what it has now, until it has closed all these
/// strangers, which have sent this and wait.
fn taken_by_strangers(serving: &Serving, at: &str, bytes: &[u8]) -> usize {
    let before = held(serving);
    let connect = |_| {
        let mut stream = TcpStream::connect(at).unwrap();
        stream.set_read_timeout(Some(PATIENCE)).unwrap();
        stream.set_write_timeout(Some(PATIENCE)).unwrap();
        // One that is closed at once has sent enough.
        let _ = stream.write_all(bytes);
        stream
    };
    let strangers: Vec<TcpStream> = (0..MANY).map(connect).collect();
    let waits = thread::spawn(move || strangers.into_iter().for_each(wait_for_end));
    let mut most = before;
    while !waits.is_finished() {
        most = most.max(held(serving));
        thread::sleep(Duration::from_millis(10));
    }
    waits.join().unwrap();
    most - before
}

/// Waits until the server has closed the connection.
fn wait_for_end(mut stream: TcpStream) {
    match stream.read_to_end(&mut Vec::new()) {
        Ok(_) => {}
        Err(error) => assert_eq!(error.kind(), std::io::ErrorKind::ConnectionReset, "{error}"),
    }
}

/// A frame that announces this many bytes, and has fewer.
fn unfinished(kind: u8, promised: usize, brought: usize) -> Vec<u8> {
    let head = [&[1, kind][..], &3u64.to_le_bytes(), &1u64.to_le_bytes()].concat();
    let mut frame = (promised as u64).to_le_bytes().to_vec();
    frame.extend(head);
    frame.resize(brought, 7);
    frame
}

fn serve(folder: &Path, words: &[&str]) -> Serving {
    let mut command = program();
    command.arg("serve").arg("--store").arg(folder.join("krl.db")).args(words);
    Serving::start_by(&mut command)
}

#[test]
fn strangers_at_the_port_of_clients_take_little_and_leave_it() {
    let folder = tempfile::tempdir().unwrap();
    let serving = serve(folder.path(), &["--room", "1048576"]);
    let at = serving.address.to_string();
    let before = held(&serving);
    for kind in [0, 2] {
        // Neither a Hello nor the report of an unknown client may be this long.
        let taken = taken_by_strangers(&serving, &at, &unfinished(kind, 31 * MIB, MIB));
        assert!(taken < 8 * MIB, "{taken} bytes by long frames of kind {kind}");
    }
    let taken = taken_by_strangers(&serving, &at, &unfinished(0, KIB, KIB - 1));
    assert!(taken < 8 * MIB, "{taken} bytes by frames that are not whole");
    let left = held(&serving).saturating_sub(before);
    assert!(left < 8 * MIB, "{left} bytes are left of them");
    let client = join(&serving.address, folder.path(), 3);
    assert_eq!(client.insert(1, Value::from(1)), Ok(Outcome::Applied));
}

#[test]
fn strangers_at_ports_of_tls_take_little_and_leave_it() {
    let folder = tempfile::tempdir().unwrap();
    let script = concat!(env!("CARGO_MANIFEST_DIR"), "/../packaging/certificates");
    let made = Command::new(script).arg(folder.path()).arg("server").output();
    assert!(made.unwrap().status.success());
    let file = |name: &str| folder.path().join(name).to_str().unwrap().to_string();
    let (authority, certificate, key) =
        (file("authority.crt"), file("server.crt"), file("server.key"));
    let words = ["--listen", "tls:127.0.0.1:0", "--status", "tls:127.0.0.1:0"];
    let shows =
        ["--tls-authority", &authority, "--tls-certificate", &certificate, "--tls-key", &key];
    let serving = serve(folder.path(), &[&words[..], &shows].concat());
    let before = held(&serving);
    // The record of a handshake of 16 KiB, which is not whole.
    let mut hello = vec![22, 3, 1, 0x40, 0];
    hello.resize(16 * KIB, 1);
    for at in [serving.address.to_string(), serving.status.clone()] {
        let at = at.strip_prefix("tls:").unwrap();
        let taken = taken_by_strangers(&serving, at, &hello);
        assert!(taken < 16 * MIB, "{taken} bytes at {at}");
    }
    let left = held(&serving).saturating_sub(before);
    assert!(left < 16 * MIB, "{left} bytes are left of them");
}

#[test]
fn strangers_at_the_status_port_take_little_and_leave_it() {
    let folder = tempfile::tempdir().unwrap();
    let serving = serve(folder.path(), &[]);
    let before = held(&serving);
    let head = format!("GET /status HTTP/1.1\r\nA: {}", "a".repeat(15 * KIB));
    let taken = taken_by_strangers(&serving, &serving.status, head.as_bytes());
    assert!(taken < 8 * MIB, "{taken} bytes");
    let left = held(&serving).saturating_sub(before);
    assert!(left < 8 * MIB, "{left} bytes are left of them");
    until("it answers", || serving.get("/healthz").0 == 200);
}

#[test]
fn a_client_whose_report_is_long_is_served_after_a_restart() {
    const ROWS: u64 = 500;
    let folder = tempfile::tempdir().unwrap();
    let store = folder.path().join("krl.db");
    let at: Address = format!("unix:{}", folder.path().join("socket").display()).parse().unwrap();
    let serving = Serving::start_at(&store, &at);
    let client = serving.join(folder.path(), 3);
    for key in 0..ROWS {
        assert_eq!(client.insert(key, Value::from(key)), Ok(Outcome::Applied));
    }
    assert_eq!(client.read(0..ROWS).unwrap().len() as u64, ROWS);
    serving.signal(&["KILL"]);
    serving.ended();
    let serving = Serving::start_at(&store, &at);
    // It waits for the report, and then for what the client gives back.
    let other = serving.join(folder.path(), 4);
    assert_eq!(other.put(7, Value::from(8)), Ok(Outcome::Applied));
    assert_eq!(client.read(7..8).unwrap()[0].value, Value::from(8));
    let too_long = "krl_connections_closed_total{reason=\"frame_too_long\"}";
    assert!(serving.sample(too_long) < 1.0);
}
