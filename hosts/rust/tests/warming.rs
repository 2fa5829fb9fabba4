//! How many lock requests it takes to read many rows for the first time, or to hold them.
use krl::operate::Reach;
use krl::{Client, Listener, MemoryStore, Row, Server, Value};
use std::path::PathBuf;
use std::thread;
use std::time::{Duration, Instant};

const ROWS: u64 = 10_000;

/// No wait of a test is longer.
const LONG: Duration = Duration::from_secs(60);

/// A server with the rows, and a folder that is gone when the test is.
struct World {
    server: Server,
    folder: PathBuf,
}

impl World {
    fn new(name: &str, reach: Reach) -> World {
        let name = format!("krl-warming-{}-{name}", std::process::id());
        let folder = std::env::temp_dir().join(name);
        std::fs::create_dir_all(&folder).unwrap();
        let row = |key| Row { key, value: Value::from(key) };
        let store: MemoryStore = (0..ROWS).map(row).collect();
        let listener = Listener::bind(&"127.0.0.1:0".parse().unwrap()).unwrap();
        let server = Server::builder(listener, store).reach(reach).start().unwrap();
        World { server, folder }
    }

    fn join(&self, number: u8) -> Client {
        let lock_file = self.folder.join(format!("client-{number}.lock"));
        let client = Client::builder(self.server.address(), number, lock_file);
        client.timeout(LONG).join().unwrap()
    }

    /// How many lock requests the server grants while this is done.
    fn grants(&self, what: impl FnOnce()) -> u64 {
        let count = || self.server.monitor().measured().grants.count;
        let before = count();
        what();
        count() - before
    }
}

impl Drop for World {
    fn drop(&mut self) {
        let _ = std::fs::remove_dir_all(&self.folder);
    }
}

/// One request for each 128 rows, whether they are read or pinned too.
#[test]
fn ten_thousand_rows_take_79_requests() {
    let world = World::new("all", Reach::default());
    let client = world.join(0);
    let read = || assert_eq!(client.read(0..ROWS).unwrap().len() as u64, ROWS);
    assert_eq!(world.grants(read), 79);
    assert_eq!(world.grants(read), 0, "they are in the cache");
    client.forget(..).unwrap();
    let read_all = || assert_eq!(client.read(..).unwrap().len() as u64, ROWS);
    assert_eq!(world.grants(read_all), 79);
    client.forget(..).unwrap();
    assert_eq!(world.grants(|| drop(client.pin_for_read(0..ROWS).unwrap())), 79);
    client.forget(..).unwrap();
    assert_eq!(world.grants(|| drop(client.pin_for_update(0..ROWS).unwrap())), 79);
    client.forget(..).unwrap();
    assert_eq!(world.grants(|| drop(client.pin_for_write(0..ROWS).unwrap())), 79);
}

#[test]
fn a_shorter_reach_takes_more_requests() {
    for (reach, grants) in [(1, 100), (8, 13), (32, 4), (99, 2), (100, 1), (128, 1)] {
        let world = World::new(&format!("reach-{reach}"), Reach::of(reach).unwrap());
        let client = world.join(0);
        let read = || assert_eq!(client.read(300..400).unwrap().len(), 100);
        assert_eq!(world.grants(read), grants, "reach {reach}");
    }
}

/// A slot for which a reader has to wait ends a grant. What was granted before it stays, and the
/// next request begins there and continues to the end of the range.
#[test]
fn a_read_continues_after_a_shorter_grant() {
    let world = World::new("waits", Reach::default());
    let (reader, writer) = (world.join(0), world.join(1));
    let (_, pin) = writer.pin_for_write(500..501).unwrap();
    let grants = world.grants(|| {
        thread::scope(|scope| {
            let read = scope.spawn(|| reader.read(0..1000).unwrap().len());
            let end = Instant::now() + LONG;
            while world.server.status().waits.is_empty() {
                assert!(Instant::now() < end, "the reader does not wait");
                thread::sleep(Duration::from_millis(1));
            }
            assert_eq!(reader.cached(0..500).unwrap().map(|rows| rows.len()), Some(500));
            assert_eq!(reader.cached(0..501), Ok(None));
            drop(pin);
            assert_eq!(read.join().unwrap(), 1000);
        });
    });
    assert_eq!(grants, 4 + 4);
}
