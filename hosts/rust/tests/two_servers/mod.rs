//! Two servers, and clients of the first one or of both.
use krl::{Client, Listener, MemoryStore, Row, Server, Shard, ShardMap, Value};
use std::path::PathBuf;
use std::time::Duration;

/// No wait of a test is longer.
const LONG: Duration = Duration::from_secs(60);

/// The second shard begins here.
const BOUND: u64 = 100;

/// Two servers, and a folder that is gone when the test is.
pub struct World {
    servers: Vec<Server>,
    folder: PathBuf,
}

impl World {
    /// The name is that of the test, and of no other one.
    pub fn new(name: &str) -> World {
        let name = format!("krl-two-servers-{}-{name}", std::process::id());
        let folder = std::env::temp_dir().join(name);
        std::fs::create_dir_all(&folder).unwrap();
        let start = |_| {
            let listener = Listener::bind(&"127.0.0.1:0".parse().unwrap()).unwrap();
            Server::start(listener, MemoryStore::default()).unwrap()
        };
        World { servers: (0..2).map(start).collect(), folder }
    }

    /// A client of the first server.
    pub fn join(&self, number: u8) -> Client {
        let lock_file = self.folder.join(format!("client-{number}.lock"));
        let builder = Client::builder(self.servers[0].address(), number, lock_file);
        builder.timeout(LONG).join().unwrap()
    }

    /// A client of both servers. The second one has the keys from 100 on.
    pub fn join_both(&self, number: u8) -> Client {
        let shard = |(first, server): (u64, &Server)| Shard::new(first, server.address());
        let shards = [0, BOUND].into_iter().zip(&self.servers).map(shard).collect();
        let map = ShardMap::new(shards).unwrap();
        Client::builder(map, number, &self.folder).timeout(LONG).join().unwrap()
    }
}

impl Drop for World {
    fn drop(&mut self) {
        let _ = std::fs::remove_dir_all(&self.folder);
    }
}

pub fn row(key: u64, number: u64) -> Row {
    Row { key, value: Value::from(number) }
}
