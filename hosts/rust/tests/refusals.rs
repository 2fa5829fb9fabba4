//! A server reports why it does not serve a client, to hosts that take host frames.
mod peer;

use krl::error::{Refusal, Unsent};
use krl::operate::evict;
use krl::store::{Change, Snapshot};
use krl::{Client, ErrorKind, JoinError, JoinErrorKind, MemoryStore, Server, Value};
use peer::{HELLO, HOST_ANSWER, HOST_HELLO, Peer, frame, incarnation};
use std::io::{Read, Write};
use std::net::{SocketAddr, TcpListener};
use std::path::PathBuf;
use std::thread;
use std::time::{Duration, Instant};

/// Shorter than the second between two frames of one reason.
const SHORT: Duration = Duration::from_millis(300);

/// No wait of a test is longer.
const LONG: Duration = Duration::from_secs(30);

fn server(store: MemoryStore) -> Server {
    Server::start(TcpListener::bind("127.0.0.1:0").unwrap(), store).unwrap()
}

/// A store of a server on which these clients registered, and from which they have not left.
fn store(clients: &[u8]) -> MemoryStore {
    let mut snapshot = Snapshot::default();
    snapshot.apply(&Change::Started { epoch: 1 });
    for client in clients {
        snapshot.apply(&Change::Registered { client: *client, incarnation: 17 });
    }
    snapshot.into()
}

fn lock_file(name: &str) -> PathBuf {
    std::env::temp_dir().join(format!("krl-refusals-{}-{name}.lock", std::process::id()))
}

/// A frame that gives a reason.
fn refused(reason: u8, numbers: [u64; 2]) -> Vec<u8> {
    let mut bytes = vec![19, 0, 0, 0, 0, 0, 0, 0, 0, 17, reason];
    for number in numbers {
        bytes.extend_from_slice(&number.to_le_bytes());
    }
    bytes
}

/// What a peer receives that sends these frames after its host's Hello.
fn answer_to(server: &Server, sent: &[Vec<u8>]) -> Vec<u8> {
    let mut peer = Peer::new(server);
    peer.send(&HOST_HELLO);
    for frame in sent {
        peer.send(frame);
    }
    let received = peer.receive(SHORT);
    assert_eq!(
        received.get(..HOST_ANSWER.len()),
        Some(&HOST_ANSWER[..]),
        "the host's answer comes first"
    );
    received[HOST_ANSWER.len()..].to_vec()
}

fn of_version(version: u8) -> Vec<u8> {
    let mut bytes = frame(HELLO, 3, 1, &[]);
    bytes[8] = version;
    bytes
}

#[test]
fn a_message_of_another_version() {
    let server = server(MemoryStore::default());
    assert_eq!(answer_to(&server, &[of_version(2)]), refused(0, [4, 0]));
    let no_message = [1, 0, 0, 0, 0, 0, 0, 0, 1].to_vec();
    assert_eq!(answer_to(&server, &[no_message]), [], "its version is the right one");
}

/// A host that names no version, or another one, is refused before anything of its client is
/// judged: it would take no long grant.
#[test]
fn a_host_of_another_version() {
    let server = server(MemoryStore::default());
    let hellos: [&[u8]; 3] = [
        &[2, 0, 0, 0, 0, 0, 0, 0, 0, 0],
        &[3, 0, 0, 0, 0, 0, 0, 0, 0, 0, 2],
        &[&[26, 0, 0, 0, 0, 0, 0, 0, 0, 0][..], &[7; 24]].concat(),
    ];
    for hello in hellos {
        let mut peer = Peer::new(&server);
        peer.send(&[hello, &frame(HELLO, 3, 1, &[])].concat());
        let begun = Instant::now();
        assert_eq!(peer.receive(LONG), refused(0, [4, 0]), "{hello:?}");
        assert!(begun.elapsed() < LONG, "the connection ends");
    }
    assert_eq!(server.status().taken, 0, "the library takes nothing");
    let is_counted = || server.status().closed.counts().any(|it| it == ("other_version", 3));
    let end = Instant::now() + LONG;
    while !is_counted() {
        assert!(Instant::now() < end, "{:?}", server.status().closed);
        thread::sleep(Duration::from_millis(5));
    }
}

/// A server that answers each connection by these bytes, and reads what comes until it ends.
fn server_of(bytes: &'static [u8]) -> SocketAddr {
    let listener = TcpListener::bind("127.0.0.1:0").unwrap();
    let address = listener.local_addr().unwrap();
    thread::spawn(move || {
        for stream in listener.incoming() {
            let mut stream = stream.unwrap();
            let _ = stream.write_all(bytes);
            let _ = stream.read_to_end(&mut Vec::new());
        }
    });
    address
}

/// A client learns at once that its only server is of another version, and does not wait for its
/// timeout.
#[test]
fn a_server_of_another_version() {
    let answers: [(&[u8], u8); 3] = [
        (&[3, 0, 0, 0, 0, 0, 0, 0, 0, 16, 1], 1),
        (&[4, 0, 0, 0, 0, 0, 0, 0, 0, 16, 1, 2], 2),
        (&[19, 0, 0, 0, 0, 0, 0, 0, 0, 17, 0, 5, 0, 0, 0, 0, 0, 0, 0, 0, 0, 0, 0, 0, 0, 0, 0], 5),
    ];
    for (answer, version) in answers {
        let lock = lock_file(&format!("version-{version}"));
        let client = Client::builder(server_of(answer), 3, &lock).timeout(2 * LONG);
        let begun = Instant::now();
        let error = client.join().unwrap_err();
        assert!(begun.elapsed() < LONG, "{:?}", begun.elapsed());
        let expected = Refusal::Version { read: version };
        assert!(matches!(error.kind, JoinErrorKind::Unserved(why) if why == expected), "{error:?}");
        assert!(error.to_string().contains(&format!("speaks version {version} of")), "{error}");
        std::fs::remove_file(lock).unwrap();
    }
}

#[test]
fn a_number_that_no_client_has() {
    let server = server(MemoryStore::default());
    assert_eq!(answer_to(&server, &[frame(HELLO, 64, 1, &[])]), refused(1, [64, 0]));
}

#[test]
fn each_reason_is_sent_once_a_second() {
    let server = server(store(&[]));
    let sent: Vec<_> = (0..50).map(|turn| frame(HELLO, 64 + turn % 2, 1, &[])).collect();
    assert_eq!(answer_to(&server, &sent), refused(1, [64, 0]));
}

#[test]
fn a_peer_whose_host_sends_no_hello_is_of_another_version() {
    let server = server(store(&[3, 7]));
    let mut peer = Peer::new(&server);
    peer.send(&frame(HELLO, 3, 16, &[]));
    assert_eq!(peer.receive(SHORT), refused(0, [4, 0]));
    assert_eq!(server.status().taken, 0);
}

/// Why a client of this number does not join.
fn not_joined(server: &Server, number: u8, name: &str) -> JoinError {
    let (address, lock) = (server.address().clone(), lock_file(name));
    let client = Client::builder(address, number, &lock).timeout(SHORT).join();
    std::fs::remove_file(lock).unwrap();
    client.unwrap_err()
}

#[test]
fn a_client_of_an_older_incarnation() {
    let (mut snapshot, registered) = (Snapshot::default(), 1 << 62);
    snapshot.apply(&Change::Registered { client: 3, incarnation: registered });
    let error = not_joined(&server(snapshot.into()), 3, "older");
    let expected = Refusal::Incarnation { client: 3, registered };
    assert!(matches!(error.kind, JoinErrorKind::Unserved(why) if why == expected), "{error:?}");
}

#[test]
fn a_client_whose_clock_is_far_ahead() {
    let (server, lock) = (server(MemoryStore::default()), lock_file("ahead"));
    // Of the year 2046.
    std::fs::write(&lock, "krl client 03 incarnation 02426388266503144698\n").unwrap();
    let client = Client::builder(server.address().clone(), 3, &lock);
    let error = client.timeout(SHORT).join().unwrap_err();
    let JoinErrorKind::Unserved(refusal) = error.kind else { panic!("{error:?}") };
    assert!(matches!(refusal, Refusal::FarAhead { client: 3, .. }), "{refusal:?}");
    assert!(refusal.to_string().contains("more than a day ahead of the server's clock"));
    // Another number has a file of its own.
    let folder = lock_file("ahead-folder");
    std::fs::create_dir(&folder).unwrap();
    std::fs::copy(&lock, folder.join("client-3.lock")).unwrap();
    let numbers = Client::builder_with_numbers(server.address().clone(), 3..=4, &folder);
    let other = numbers.timeout(LONG).join().unwrap();
    assert_eq!(other.number(), 4);
    other.leave().unwrap();
    std::fs::remove_dir_all(&folder).unwrap();
    // The number is not lost.
    std::fs::remove_file(&lock).unwrap();
    let client = Client::join(server.address().clone(), 3, &lock).unwrap();
    client.leave().unwrap();
    std::fs::remove_file(lock).unwrap();
}

#[test]
fn an_operator_evicts_a_client_whose_clock_was_ahead() {
    let (mut snapshot, registered) = (Snapshot::default(), 1 << 62);
    snapshot.apply(&Change::Registered { client: 3, incarnation: registered });
    let (server, lock) = (server(snapshot.into()), lock_file("evicted"));
    evict(server.address().clone(), 3, &lock).unwrap();
    assert_eq!(incarnation(&lock), registered + 1);
    std::fs::remove_file(lock).unwrap();
}

#[test]
fn a_client_that_was_replaced() {
    let (server, lock) = (server(MemoryStore::default()), lock_file("replaced"));
    let client = Client::join(server.address().clone(), 3, &lock).unwrap();
    // What it reads there it gives back before it asks for the lock of a write.
    client.read(0..9).unwrap();
    let evicting = lock_file("replacing");
    evict(server.address().clone(), 3, &evicting).unwrap();
    let registered = incarnation(&evicting);
    client.set_timeout(Duration::from_millis(1500));
    let why = Unsent::Unserved(Refusal::Incarnation { client: 3, registered });
    assert_eq!(client.insert(1, Value::from(1)), Err(ErrorKind::NotSent(why).into()));
    std::fs::remove_file(evicting).unwrap();
    std::fs::remove_file(lock).unwrap();
}

#[test]
fn a_server_that_misses_reports() {
    let (server, lock) = (server(store(&[3, 7])), lock_file("missing"));
    let client = Client::builder(server.address().clone(), 5, &lock);
    // It joins, and no request is answered before the reports have come. The server may have
    // reported nothing yet at a timeout.
    let (client, end) = (client.timeout(LONG).join().unwrap(), Instant::now() + LONG);
    client.set_timeout(SHORT);
    let refusal = || client.read(0..9).unwrap_err().to_string();
    while !refusal().contains("waits for the reports of the clients 3, 7,") {
        assert!(Instant::now() < end, "{}", refusal());
    }
    std::fs::remove_file(lock).unwrap();
}
