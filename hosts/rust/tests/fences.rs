//! The fence between maps: a server of a shard serves clients of that shard only by the same map.
mod peer;

use krl::error::{Refusal, ServeError};
use krl::operate::evict;
use krl::store::{Change, ShardBounds, Snapshot};
use krl::{
    Client, Error, ErrorKind, JoinError, JoinErrorKind, MemoryStore, Outcome, Row, Server, Shard,
    ShardMap, Value,
};
use peer::{HELLO, HOST_ANSWER, HOST_HELLO, Peer, frame};
use std::io::{Read, Write};
use std::net::{SocketAddr, TcpListener, TcpStream};
use std::num::NonZeroU64;
use std::path::PathBuf;
use std::sync::mpsc::{Receiver, Sender, channel};
use std::thread;
use std::time::{Duration, Instant};

/// No wait of a test is longer.
const LONG: Duration = Duration::from_secs(20);

fn bounds(text: &str) -> ShardBounds {
    text.parse().unwrap()
}

/// A folder that is gone when the test is.
struct Folder(PathBuf);

impl Folder {
    fn new(name: &str) -> Folder {
        let name = format!("krl-fences-{}-{name}", std::process::id());
        let folder = std::env::temp_dir().join(name);
        std::fs::create_dir_all(&folder).unwrap();
        Folder(folder)
    }

    /// A client of this server, which it takes for that of a shard, or of all keys.
    fn join(&self, server: &Server, shard: Option<&str>) -> Result<Client, JoinError> {
        let servers = krl::Servers::from(server.address());
        let servers = match shard {
            Some(shard) => servers.of_shard(bounds(shard)),
            None => servers,
        };
        Client::builder(servers, 3, self.0.join("client.lock")).timeout(LONG).join()
    }
}

impl Drop for Folder {
    fn drop(&mut self) {
        let _ = std::fs::remove_dir_all(&self.0);
    }
}

fn start(address: &str, store: MemoryStore, shard: Option<&str>) -> Result<Server, ServeError> {
    let builder = Server::builder(TcpListener::bind(address).unwrap(), store);
    match shard {
        Some(shard) => builder.shard(bounds(shard)).start(),
        None => builder.start(),
    }
}

fn server(shard: Option<&str>) -> Server {
    start("127.0.0.1:0", MemoryStore::default(), shard).unwrap()
}

fn map(version: u64, shards: &[(u64, &Server)]) -> ShardMap {
    let shard = |(first, server): &(u64, &Server)| Shard::new(*first, server.address());
    let map = ShardMap::new(shards.iter().map(shard).collect()).unwrap();
    map.with_version(NonZeroU64::new(version).unwrap())
}

#[test]
fn a_client_of_the_same_shard_is_served_and_every_other_one_is_refused() {
    let folder = Folder::new("same");
    let shards = [None, Some("0..9@3"), Some("0..8@3"), Some("1..9@3"), Some("0..9@4")];
    for served in shards {
        let server = server(served);
        for expected in shards {
            let joined = folder.join(&server, expected);
            if expected == served {
                let client = joined.unwrap();
                assert_eq!(client.insert(5, Value::from(1)), Ok(Outcome::Applied));
                client.leave().unwrap();
                continue;
            }
            let refused = joined.unwrap_err();
            let JoinErrorKind::OtherShard(other) = &refused.kind else { panic!("{refused:?}") };
            let (ours, theirs) = (other.expected, other.served);
            assert_eq!((ours, theirs), (expected.map(bounds), served.map(bounds)));
        }
        let records = server.monitor().snapshot().unwrap().records;
        assert_eq!(records.len(), 1, "the library takes only the served client");
    }
}

#[test]
fn the_library_receives_nothing_before_the_shard_was_sent() {
    let server = server(Some("0..9@3"));
    let refused = {
        let numbers: Vec<u8> = [0_u64, 9, 3].into_iter().flat_map(u64::to_le_bytes).collect();
        [&[27, 0, 0, 0, 0, 0, 0, 0, 0, 17, 7][..], &numbers].concat()
    };
    let sign = {
        let numbers: Vec<u8> = [3_u64, 1, 5, 0, 0].into_iter().flat_map(u64::to_le_bytes).collect();
        [&[42, 0, 0, 0, 0, 0, 0, 0, 0, 1][..], &numbers].concat()
    };
    for speech in [frame(HELLO, 3, 1, &[]), sign] {
        let mut peer = Peer::new(&server);
        peer.send(&HOST_HELLO);
        peer.send(&speech);
        assert_eq!(peer.receive(LONG), [&HOST_ANSWER[..], &refused].concat());
    }
    // A Shard that names none is refused, also by a server of all keys.
    let whole = self::server(None);
    let all_keys = [&[27, 0, 0, 0, 0, 0, 0, 0, 0, 17, 7][..], &[0; 24]].concat();
    for (server, refused) in [(&server, &refused), (&whole, &all_keys)] {
        let mut peer = Peer::new(server);
        peer.send(&HOST_HELLO);
        peer.send(&[&[26, 0, 0, 0, 0, 0, 0, 0, 0, 2][..], &[0; 24]].concat());
        assert_eq!(peer.receive(LONG), [&HOST_ANSWER[..], refused].concat());
    }
    let mut silent = Peer::new(&server);
    silent.send(&frame(HELLO, 3, 1, &[]));
    assert_eq!(silent.receive(LONG), [], "its host takes no host frames");
    assert_eq!(server.status().taken, 0);
    assert!(server.monitor().snapshot().unwrap().records.is_empty());
}

/// The next frame of a stream, or `None` at its end.
fn next_frame(stream: &mut TcpStream) -> Option<Vec<u8>> {
    let mut length = [0; 8];
    stream.read_exact(&mut length).ok()?;
    let mut frame = vec![0; usize::try_from(u64::from_le_bytes(length)).unwrap()];
    stream.read_exact(&mut frame).ok()?;
    Some(frame)
}

/// A server that answers signs and knows nothing of shards, and the frames that its clients send.
fn heedless_server() -> (SocketAddr, Receiver<Vec<u8>>) {
    let listener = TcpListener::bind("127.0.0.1:0").unwrap();
    let (address, (sender, frames)) = (listener.local_addr().unwrap(), channel());
    thread::spawn(move || {
        for stream in listener.incoming().flatten() {
            heed_no_shard(stream, &sender);
        }
    });
    (address, frames)
}

fn heed_no_shard(mut stream: TcpStream, sender: &Sender<Vec<u8>>) {
    let _ = stream.write_all(&HOST_ANSWER);
    while let Some(frame) = next_frame(&mut stream) {
        if frame.starts_with(&[0, 1]) {
            let (incarnation, moment) = (&frame[10..18], &frame[18..26]);
            let kind = [26, 0, 0, 0, 0, 0, 0, 0, 0, 20];
            let terms = [&kind[..], incarnation, moment, &u64::MAX.to_le_bytes()].concat();
            let _ = stream.write_all(&terms);
        }
        let _ = sender.send(frame);
    }
}

#[test]
fn a_client_sends_nothing_of_the_library_to_a_server_that_confirms_no_shard() {
    let folder = Folder::new("heedless");
    let (address, frames) = heedless_server();
    let servers = krl::Servers::from(address).of_shard(bounds("0..9@3"));
    let builder = Client::builder(servers, 3, folder.0.join("client.lock"));
    let refused = builder.timeout(LONG).join().unwrap_err();
    let JoinErrorKind::OtherShard(other) = &refused.kind else { panic!("{refused:?}") };
    assert_eq!((other.expected, other.served), (Some(bounds("0..9@3")), None));
    let received: Vec<Vec<u8>> = frames.try_iter().collect();
    assert!(received.iter().all(|frame| frame.starts_with(&[0])), "{received:?}");
    assert!(received[1].starts_with(&[0, 2, 0, 0, 0, 0, 0, 0, 0, 0, 9]), "{received:?}");
}

#[test]
fn a_client_with_an_old_map_writes_to_no_side_of_a_split() {
    let folder = Folder::new("split");
    let one = server(Some("0..@1"));
    let old_map = map(1, &[(0, &one)]);
    let join = |map: &ShardMap, number| {
        Client::builder(map.clone(), number, &folder.0).timeout(LONG).join()
    };
    let old = join(&old_map, 1).unwrap();
    assert_eq!(old.insert(50, Value::from(1)), Ok(Outcome::Applied));
    // The client is evicted, its process continues, and the server is split and started again.
    let address = one.address().to_string();
    let mut whole = one.monitor().snapshot().unwrap();
    one.stop().unwrap();
    for client in whole.present() {
        whole.apply(&Change::Left { client });
    }
    let (lower, upper) = whole.split(40);
    let store = MemoryStore::from;
    let lower = start(&address, store(lower), Some("0..40@2")).unwrap();
    let upper = start("127.0.0.1:0", store(upper), Some("40..@2")).unwrap();
    let new_map = map(2, &[(0, &lower), (40, &upper)]);
    // A client that does not follow the map learns it before its timeout. It holds what it needs for
    // this one, and so it may have reached the server before.
    let (begun, time) = (Instant::now(), Duration::from_secs(10));
    old.set_timeout(time);
    let unknown = old.insert(10, Value::from(2)).unwrap_err();
    let reason = Refusal::OtherShard(Some(bounds("0..40@2")));
    assert_eq!((unknown.shard, unknown.kind), (Some(0), ErrorKind::Unserved(reason)));
    let refused = old.insert(60, Value::from(2)).unwrap_err();
    let ErrorKind::OtherShard(other) = refused.kind else { panic!("{refused:?}") };
    assert_eq!((refused.shard, other.served), (Some(0), Some(bounds("0..40@2"))));
    assert!(refused.to_string().contains("has to be loaded again"), "{refused}");
    assert!(begun.elapsed() < time);
    let new = join(&new_map, 2).unwrap();
    assert_eq!(new.read(..), Ok(vec![Row { key: 50, value: Value::from(1) }]));
    assert_eq!(new.insert(60, Value::from(3)), Ok(Outcome::Applied));
    drop(old);
    let keys = |server: &Server| -> Vec<u64> {
        server.monitor().snapshot().unwrap().rows.into_keys().collect()
    };
    assert_eq!((keys(&lower), keys(&upper)), (vec![], vec![50, 60]));
}

#[test]
fn a_client_continues_when_its_server_is_started_as_its_shard_again() {
    let folder = Folder::new("again");
    let mut server = server(Some("0..9@3"));
    let address = server.address().to_string();
    let client = folder.join(&server, Some("0..9@3")).unwrap();
    assert_eq!(client.insert(5, Value::from(1)), Ok(Outcome::Applied));
    client.forget(..).unwrap();
    for shard in ["0..9@2", "0..9@3"] {
        let snapshot = server.monitor().snapshot().unwrap();
        server.stop().unwrap();
        // Its store keeps the shard, and no server of another one would start.
        let store = MemoryStore::from(Snapshot { shard: None, ..snapshot });
        server = start(&address, store, Some(shard)).unwrap();
        let end = Instant::now() + LONG;
        let found = loop {
            match client.read(0..9) {
                Ok(rows) => break Some(rows),
                Err(Error { kind: ErrorKind::OtherShard(_), .. }) if shard == "0..9@2" => {
                    break None;
                }
                Err(refused) => assert!(Instant::now() < end, "{refused:?}"),
            }
        };
        let rows = vec![Row { key: 5, value: Value::from(1) }];
        assert_eq!(found, (shard == "0..9@3").then_some(rows));
    }
    assert_eq!(client.put(5, Value::from(2)), Ok(Outcome::Applied));
}

#[test]
fn a_store_with_a_key_of_another_shard_is_not_served() {
    let store = [10, 50].map(|key| Row { key, value: Value::from(0) }).into_iter().collect();
    let refused = start("127.0.0.1:0", store, Some("0..40@2")).unwrap_err();
    let ServeError::OtherKey { key: 50, shard } = &refused else { panic!("{refused:?}") };
    assert_eq!(*shard, bounds("0..40@2"));
    assert!(refused.to_string().contains("the key 50"), "{refused}");
}

#[test]
fn an_operator_who_names_the_shard_evicts_its_client() {
    let folder = Folder::new("evict");
    let server = server(Some("0..9@3"));
    std::mem::forget(folder.join(&server, Some("0..9@3")).unwrap());
    let at = |shard: &str| krl::Servers::from(server.address()).of_shard(bounds(shard));
    let lock = folder.0.join("operator.lock");
    assert!(matches!(
        evict(at("0..9@2"), 3, &lock).unwrap_err().kind,
        JoinErrorKind::OtherShard(_)
    ));
    evict(at("0..9@3"), 3, &lock).unwrap();
    let records = server.monitor().snapshot().unwrap().records;
    assert!(records.iter().all(|record| record.left), "{records:?}");
}
