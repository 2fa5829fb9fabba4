//! A peer that sends a message of another incarnation gets nothing of the client's.
mod peer;

use krl::{Client, MemoryStore, Outcome, Server, Value};
use peer::{ACK, BYE, HELLO, HOST_HELLO, Peer, frame, incarnation};
use std::net::TcpListener;
use std::path::PathBuf;
use std::thread;
use std::time::{Duration, Instant};

/// Longer than a server takes to answer or to repeat a push.
const QUIET: Duration = Duration::from_millis(400);

const NOTHING: [Vec<u8>; 0] = [];

fn server() -> Server {
    let listener = TcpListener::bind("127.0.0.1:0").unwrap();
    Server::start(listener, MemoryStore::default()).unwrap()
}

/// A connection whose host has sent its Hello.
fn stranger_of(server: &Server) -> Peer {
    let mut stranger = Peer::new(server);
    stranger.send(&HOST_HELLO);
    stranger
}

fn lock_file(name: &str) -> PathBuf {
    std::env::temp_dir().join(format!("krl-routes-{}-{name}.lock", std::process::id()))
}

#[test]
fn a_forged_bye_of_an_older_incarnation_is_not_answered() {
    let (server, lock, other) = (server(), lock_file("bye"), lock_file("writer"));
    let client = Client::join(server.address(), 3, &lock).unwrap();
    let writer = Client::join(server.address(), 4, &other).unwrap();
    let mut stranger = stranger_of(&server);
    for turn in 0..5 {
        client.read(0..20).unwrap();
        // After it nothing comes from the client before it is called back.
        stranger.send(&frame(BYE, 3, incarnation(&lock) - 1, &[]));
        thread::sleep(Duration::from_millis(10));
        assert!(writer.insert(turn, Value::from(1)).is_ok());
    }
    assert_eq!(stranger.receive_messages(QUIET), NOTHING, "it takes none of the client's messages");
    client.leave().unwrap();
    writer.leave().unwrap();
    std::fs::remove_file(other).unwrap();
    // The client that has left may send its Bye again, and is answered.
    stranger.send(&frame(BYE, 3, incarnation(&lock), &[]));
    assert_eq!(stranger.receive_messages(QUIET), [Vec::new()]);
    std::fs::remove_file(lock).unwrap();
}

#[test]
fn an_incarnation_that_never_sent_hello_takes_no_route() {
    let (server, lock, other) = (server(), lock_file("future"), lock_file("caller"));
    let client = Client::join(server.address().clone(), 3, &lock).unwrap();
    let writer = Client::join(server.address().clone(), 4, &other).unwrap();
    let mut stranger = stranger_of(&server);
    for (turn, incarnation) in [0, 1, u64::MAX].into_iter().enumerate() {
        client.read(0..20).unwrap();
        // After it nothing comes from the client before it is called back.
        stranger.send(&frame(ACK, 3, incarnation, &[1, 1]));
        stranger.send(&frame(BYE, 3, incarnation, &[]));
        thread::sleep(Duration::from_millis(10));
        assert_eq!(writer.insert(turn as u64, Value::from(1)), Ok(Outcome::Applied));
    }
    assert_eq!(client.insert(10, Value::from(1)), Ok(Outcome::Applied));
    assert_eq!(stranger.receive_messages(QUIET), NOTHING);
    client.leave().unwrap();
    writer.leave().unwrap();
    for file in [lock, other] {
        std::fs::remove_file(file).unwrap();
    }
}

/// A process that was evicted and still runs sends its Hello and its acknowledgements again and
/// again, next to its successor.
#[test]
fn a_zombie_takes_nothing_of_its_successor() {
    let (server, lock, other) = (server(), lock_file("heir"), lock_file("other"));
    let mut zombie = stranger_of(&server);
    zombie.send(&frame(HELLO, 3, 1, &[]));
    assert_ne!(
        zombie.receive_messages(QUIET),
        NOTHING,
        "it is the client, until its successor joins"
    );
    let heir = Client::join(server.address().clone(), 3, &lock).unwrap();
    let writer = Client::join(server.address().clone(), 4, &other).unwrap();
    zombie.receive(QUIET);
    for turn in 0..20 {
        zombie.send(&frame(HELLO, 3, 1, &[]));
        zombie.send(&frame(ACK, 3, 1, &[1, turn]));
        let begun = Instant::now();
        // There is a row from the first turn on.
        let judged = (writer.put(10, Value::from(turn)), writer.insert(10, Value::from(turn)));
        let [put, insert] = match turn {
            0 => [Outcome::Absent, Outcome::Applied],
            _ => [Outcome::Applied, Outcome::Exists],
        };
        assert_eq!(judged, (Ok(put), Ok(insert)));
        assert_eq!(heir.read(0..20).unwrap().len(), 1);
        assert!(begun.elapsed() < Duration::from_secs(5), "{:?}", begun.elapsed());
    }
    assert_eq!(zombie.receive_messages(QUIET), NOTHING);
    heir.leave().unwrap();
    writer.leave().unwrap();
    for file in [lock, other] {
        std::fs::remove_file(file).unwrap();
    }
}
