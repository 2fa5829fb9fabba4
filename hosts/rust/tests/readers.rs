//! Readers, which are no clients: what they return, what they may send, and whom they hold up.
mod peer;

use krl::error::Refusal;
use krl::{
    Address, Client, ErrorKind, JoinErrorKind, MemoryStore, Outcome, Reader, Row, Server, Value,
};
use peer::{HELLO, Peer, frame};
use std::io::Write;
use std::net::TcpListener;
use std::path::PathBuf;
use std::sync::atomic::{AtomicBool, AtomicU64, Ordering};
use std::thread::{self, ScopedJoinHandle};
use std::time::{Duration, Instant};

/// The Hello of a reader's host, without a mark.
const READER_HELLO: [u8; 11] = [3, 0, 0, 0, 0, 0, 0, 0, 0, 4, 4];

/// No wait of a test is longer.
const LONG: Duration = Duration::from_secs(60);

fn listener() -> TcpListener {
    TcpListener::bind("127.0.0.1:0").unwrap()
}

fn server() -> Server {
    Server::start(listener(), MemoryStore::default()).unwrap()
}

fn lock_file(name: &str) -> PathBuf {
    std::env::temp_dir().join(format!("krl-readers-{}-{name}.lock", std::process::id()))
}

/// A client of this number.
fn client(server: &Server, number: u8, name: &str) -> Client {
    Client::builder(server.address(), number, lock_file(name)).timeout(LONG).join().unwrap()
}

fn reader(server: &Server) -> Reader {
    Reader::new(server.address()).with_timeout(LONG)
}

/// Waits until it is true.
fn wait_until(mut is_so: impl FnMut() -> bool) {
    let end = Instant::now() + LONG;
    while !is_so() {
        assert!(Instant::now() < end);
        thread::sleep(Duration::from_millis(5));
    }
}

fn row(key: u64, number: u64) -> Row {
    Row { key, value: Value::from(number) }
}

#[test]
fn a_reader_reads_what_was_written() {
    let server = server();
    let (client, mut reader) = (client(&server, 0, "written"), reader(&server));
    assert_eq!(reader.read(..).unwrap(), []);
    for key in [15, 3, 9] {
        assert_eq!(client.insert(key, Value::from(key)).unwrap(), Outcome::Applied);
        assert_eq!(reader.get(key).unwrap(), Some(Value::from(key)), "as soon as it is answered");
    }
    assert_eq!(client.delete(9).unwrap(), Outcome::Applied);
    assert_eq!(reader.read(3..).unwrap(), [row(3, 3), row(15, 15)]);
    assert_eq!(reader.read(4..15).unwrap(), []);
    assert_eq!(reader.read(5..5).unwrap(), []);
    let (greater, smaller) = (5, 4);
    assert_eq!(reader.read(greater..smaller).unwrap_err().kind, ErrorKind::BadRange);
    assert_eq!(reader.get(u64::MAX).unwrap_err().kind, ErrorKind::BadKey);
    client.leave().unwrap();
}

#[test]
fn a_long_range_is_read_in_parts() {
    let server = server();
    let (client, mut reader) = (client(&server, 0, "long"), reader(&server));
    let rows: Vec<Row> = (0..300).map(|key| row(7 * key, key)).collect();
    for row in &rows {
        assert_eq!(client.insert(row.key, row.value).unwrap(), Outcome::Applied);
    }
    assert_eq!(reader.read(..).unwrap(), rows);
    assert_eq!(reader.read(7..7 * 200).unwrap(), rows[1..200]);
    assert_eq!(client.read_once(..).unwrap(), rows);
    assert_eq!(reader.read_at_one_moment(..).unwrap(), None);
    assert_eq!(reader.read_at_one_moment(7..7 * 130).unwrap(), None);
    assert_eq!(reader.read_at_one_moment(7..7 * 129).unwrap(), Some(rows[1..129].to_vec()));
    assert_eq!(reader.read_at_one_moment(9..9).unwrap(), Some(vec![]));
    client.leave().unwrap();
}

#[test]
fn what_is_read_once_is_not_kept() {
    let server = server();
    let (first, second) = (client(&server, 0, "once"), client(&server, 1, "twice"));
    assert_eq!(second.insert(15, Value::from(5)).unwrap(), Outcome::Applied);
    assert_eq!(first.read_once(10..20).unwrap(), [row(15, 5)]);
    assert_eq!(first.cached(10..20).unwrap(), None);
    wait_until(|| server.status().connections == 3);
    first.leave().unwrap();
    assert_eq!(first.read_once(10..20).unwrap_err().kind, ErrorKind::Left);
    second.leave().unwrap();
}

/// A row counts up. No reader may see a number that is less than one that was answered before it
/// asked, or than one that it has seen; and all of them get answers.
#[test]
fn many_readers_see_each_write_that_was_answered_and_none_starves() {
    const READERS: usize = 100;
    const READS: u64 = 30;
    let server = server();
    let (writer, is_over) = (client(&server, 0, "counts"), AtomicBool::new(false));
    assert_eq!(writer.insert(1, Value::from(0)).unwrap(), Outcome::Applied);
    let answered = AtomicU64::new(0);
    let read = || {
        let (mut reader, mut seen) = (reader(&server), 0);
        for _ in 0..READS {
            let before = answered.load(Ordering::SeqCst).max(seen);
            seen = reader.get(1).unwrap().and_then(|value| value.to_u64()).unwrap();
            assert!(seen >= before, "{seen} after {before}");
        }
    };
    thread::scope(|scope| {
        let readers: Vec<_> = (0..READERS).map(|_| scope.spawn(read)).collect();
        scope.spawn(|| {
            for number in 1.. {
                assert_eq!(writer.put(1, Value::from(number)).unwrap(), Outcome::Applied);
                answered.store(number, Ordering::SeqCst);
                if is_over.load(Ordering::SeqCst) {
                    break;
                }
            }
        });
        let ended: Vec<_> = readers.into_iter().map(ScopedJoinHandle::join).collect();
        is_over.store(true, Ordering::SeqCst);
        assert!(ended.iter().all(Result::is_ok));
    });
    assert!(answered.load(Ordering::SeqCst) > 0, "the client was not held up for ever");
    writer.leave().unwrap();
}

#[test]
fn readers_take_no_place_of_a_client() {
    let server = Server::builder(listener(), MemoryStore::default()).max_connections(1);
    let server = server.start().unwrap();
    let mut readers: Vec<Reader> = (0..5).map(|_| reader(&server)).collect();
    for reader in &mut readers {
        assert_eq!(reader.read(..).unwrap(), []);
    }
    let client = client(&server, 0, "place");
    assert_eq!(client.insert(1, Value::from(1)).unwrap(), Outcome::Applied);
    for reader in &mut readers {
        assert_eq!(reader.read(..).unwrap(), [row(1, 1)]);
    }
    client.leave().unwrap();
}

#[test]
fn a_message_of_a_client_is_denied_to_a_reader() {
    let server = server();
    let mut peer = Peer::new(&server);
    peer.send(&READER_HELLO);
    peer.send(&frame(HELLO, 3, 1, &[]));
    let judged = || {
        let status = server.status();
        (status.denied, status.taken)
    };
    wait_until(|| judged() != (0, 0));
    assert_eq!(judged(), (1, 0));
}

#[test]
fn a_reader_goes_on_after_its_server_has_started_again() {
    let first = server();
    let address = first.address().clone();
    let mut reader = reader(&first);
    assert_eq!(reader.read(..).unwrap(), []);
    drop(first);
    let listener = TcpListener::bind(address.to_string()).unwrap();
    let _second = Server::start(listener, MemoryStore::default()).unwrap();
    assert_eq!(reader.read(..).unwrap(), []);
}

#[test]
fn a_reader_without_a_server_waits_until_its_time_is_over() {
    let address = listener().local_addr().unwrap();
    let mut reader = Reader::new(Address::from(address)).with_timeout(Duration::ZERO);
    assert_eq!(reader.read(..).unwrap_err().kind, ErrorKind::TimedOut);
}

/// It gives up long before its time is over.
#[test]
fn a_reader_that_is_not_connected_learns_why() {
    let why = |address| {
        let mut reader = Reader::new(Address::from(address)).with_timeout(100 * LONG);
        reader.connect(..).unwrap_err().kind
    };
    let nobody = listener().local_addr().unwrap();
    assert!(matches!(why(nobody), JoinErrorKind::NothingListens { .. }));
    let other = listener();
    let address = other.local_addr().unwrap();
    thread::spawn(move || {
        for stream in other.incoming() {
            let _ = stream.unwrap().write_all(b"HTTP/1.1 400 Bad Request\r\n\r\n");
        }
    });
    assert!(matches!(why(address), JoinErrorKind::NoServer { .. }));
    let server = server();
    reader(&server).connect(3..9).unwrap();
    let (greater, smaller) = (5, 4);
    let refused = reader(&server).connect(greater..smaller).unwrap_err().kind;
    assert!(matches!(refused, JoinErrorKind::Refused(ErrorKind::BadRange)));
}

#[test]
fn a_reader_of_another_version_learns_it() {
    let server = server();
    let (mut peer, mut received) = (Peer::new(&server), Vec::new());
    peer.send(&[3, 0, 0, 0, 0, 0, 0, 0, 0, 4, 9]);
    wait_until(|| {
        received.extend(peer.receive(Duration::from_millis(20)));
        received.len() >= 12
    });
    assert_eq!(received.get(8..12), Some(&[0, 17, Refusal::Version { read: 4 }.reason(), 4][..]));
}
