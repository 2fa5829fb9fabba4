//! etcd: gRPC. A client that caches keeps a copy of the keys that a watch brings up to date.
use crate::grpc::Grpc;
use crate::local::Local;
use crate::protobuf::{Field, Message, bytes_of, fields, number_of};
use crate::system::{self, Caching, Connection, Done, Found, System, Table, number, until_ready};
use krl::Row;
use std::net::{Shutdown, TcpStream};
use std::ops::Range;
use std::sync::Arc;
use std::thread;

const RANGE: &str = "/etcdserverpb.KV/Range";
const PUT: &str = "/etcdserverpb.KV/Put";
const TRANSACTION: &str = "/etcdserverpb.KV/Txn";
const WATCH: &str = "/etcdserverpb.Watch/Watch";

/// How many puts a transaction has: at most 128.
const CHUNK: u64 = 100;

pub struct Etcd {
    address: String,
    table: Table,
}

impl Etcd {
    pub fn new(address: &str, table: Table) -> Etcd {
        Etcd { address: address.into(), table }
    }
}

impl System for Etcd {
    fn name(&self) -> &'static str {
        "etcd"
    }

    fn make_rows(&mut self) -> Done {
        let mut asked = until_ready(|| {
            let mut asked = Grpc::open(&self.address)?;
            asked.call(PUT, &put(0, &self.table.value(0)))?;
            Ok(asked)
        })?;
        let zero = self.table.value(0);
        for lo in (0..self.table.rows).step_by(usize::try_from(CHUNK)?) {
            let operation = |all: Message, key| {
                let request = Message::default().bytes(2, &put(key, &zero).0);
                all.bytes(2, &request.0)
            };
            asked.call(TRANSACTION, &(lo..lo + CHUNK).fold(Message::default(), operation))?;
        }
        Ok(())
    }

    fn may_be_stale(&self) -> bool {
        true
    }

    fn connect(&self, _: u8, caching: Caching) -> Found<Box<dyn Connection>> {
        let asked = Grpc::open(&self.address)?;
        let address = self.address.clone();
        Ok(Box::new(Watching { address, table: self.table, caching, asked, copy: None }))
    }
}

fn put(key: u64, value: &[u8]) -> Message {
    Message::default().bytes(1, &key.to_be_bytes()).bytes(2, value)
}

fn range(keys: &Range<u64>) -> Message {
    Message::default().bytes(1, &keys.start.to_be_bytes()).bytes(2, &keys.end.to_be_bytes())
}

/// The row of a `KeyValue`.
fn row(pair: &[u8]) -> Found<Row> {
    let pair = fields(pair)?;
    system::row(number(bytes_of(&pair, 1))?, bytes_of(&pair, 5))
}

struct Watching {
    address: String,
    table: Table,
    caching: Caching,
    asked: Grpc,
    copy: Option<Copy>,
}

/// A copy of some keys, and the socket of the watch that keeps it.
struct Copy {
    local: Arc<Local>,
    socket: TcpStream,
}

impl Drop for Copy {
    /// Ends the thread of the watch.
    fn drop(&mut self) {
        let _ = self.socket.shutdown(Shutdown::Both);
    }
}

impl Watching {
    /// The rows of a range, and the revision at which they are so.
    fn ask(&mut self, keys: &Range<u64>, rows: &mut Vec<Row>) -> Found<u64> {
        let answer = self.asked.call(RANGE, &range(keys))?;
        let answer = fields(&answer)?;
        rows.clear();
        for (number, field) in &answer {
            if let (2, Field::Bytes(pair)) = (number, field) {
                rows.push(row(pair)?);
            }
        }
        Ok(number_of(&fields(bytes_of(&answer, 1))?, 3))
    }
}

impl Connection for Watching {
    /// Reads the keys, and watches them from the next revision on.
    fn fill(&mut self, keys: Range<u64>) -> Done {
        if self.caching == Caching::Off {
            return Ok(());
        }
        let mut rows = Vec::new();
        let revision = self.ask(&keys, &mut rows)?;
        let local = Arc::new(Local::default());
        for row in rows {
            local.lock().fill(row);
        }
        let mut watch = Grpc::open(&self.address)?;
        let socket = watch.socket().try_clone()?;
        socket.set_read_timeout(None)?;
        let create = range(&keys).number(3, revision + 1);
        watch.subscribe(WATCH, &Message::default().bytes(1, &create.0))?;
        let kept = Arc::clone(&local);
        thread::spawn(move || while take_events(&mut watch, &kept).is_ok() {});
        self.copy = Some(Copy { local, socket });
        Ok(())
    }

    fn cached(&mut self, keys: Range<u64>, rows: &mut Vec<Row>) -> bool {
        self.copy.as_ref().is_some_and(|copy| copy.local.scan(keys, rows))
    }

    fn read(&mut self, keys: Range<u64>, rows: &mut Vec<Row>) -> Done {
        self.ask(&keys, rows).map(drop)
    }

    fn write(&mut self, key: u64, number: u64) -> Done {
        self.asked.call(PUT, &put(key, &self.table.value(number))).map(drop)
    }
}

/// Takes the changes of the next message into the copy. No row is deleted here.
fn take_events(watch: &mut Grpc, copy: &Local) -> Done {
    let message = watch.message()?;
    for (field, event) in fields(&message)? {
        if let (11, Field::Bytes(event)) = (field, event) {
            let row = row(bytes_of(&fields(event)?, 2))?;
            copy.lock().by_key.insert(row.key, row.value);
        }
    }
    Ok(())
}
