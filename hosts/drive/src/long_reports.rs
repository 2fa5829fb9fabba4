//! Long reports in the worst orders. A server that has started again waits for the report of each
//! client, and nobody may wait longer because one of them has no order.
use crate::Found;
use crate::strangers::HOST_HELLO;
use krl::store::{Record, Snapshot};
use krl::{Address, Client, Listener, MemoryStore, Server, Value};
use std::error::Error;
use std::io::Write;
use std::net::{SocketAddr, TcpStream};
use std::path::Path;
use std::thread;
use std::time::{Duration, Instant};

/// How long a read may wait for the report.
const SOON: Duration = Duration::from_secs(5);

/// This many ranges are reported, one for each row.
const RANGES: u64 = 65_536;

/// The client that the server waits for, and its incarnation.
const REPORTER: (u8, u64) = (0, 1);

/// The client that reads meanwhile.
const READER: u8 = 7;

/// The ends of the range at a place of the report.
type Order = fn(u64) -> (u64, u64);

const ORDERS: [(&str, Order); 4] = [
    ("in order", |place| (place, place + 1)),
    ("backwards", |place| (RANGES - 1 - place, RANGES - place)),
    ("by a stride", |place| {
        let first = place * 40_503 % RANGES;
        (first, first + 1)
    }),
    ("each to the end", |place| (place, RANGES)),
];

pub fn run() -> Found {
    let folder = std::env::temp_dir().join(format!("krl-reports-{}", std::process::id()));
    std::fs::create_dir_all(&folder)?;
    let found = beside_reports(&folder);
    std::fs::remove_dir_all(&folder)?;
    found
}

fn beside_reports(folder: &Path) -> Found {
    for (name, order) in ORDERS {
        let waited = waits_for(order, &folder.join("reader.lock"))?;
        println!(
            "during a report of {RANGES} ranges {name} a read waits {} ms",
            waited.as_millis()
        );
        if waited > SOON {
            return Ok(false);
        }
    }
    Ok(true)
}

/// How long a read takes that waits for a report of this order.
fn waits_for(order: Order, lock_file: &Path) -> Result<Duration, Box<dyn Error>> {
    let listener = Listener::bind(&"127.0.0.1:0".parse()?)?;
    let server = Server::start(listener, MemoryStore::from(full_table()))?;
    let Address::Tcp(at) = *server.address() else { return Err("it listens elsewhere".into()) };
    let reader = Client::join(at, READER, lock_file)?;
    let report = report(server.status().epoch, order);
    let begun = Instant::now();
    let _reporter = send_alone(at, &report)?;
    let rows = reader.read(0..8)?;
    let waited = begun.elapsed();
    // What a server shows follows a little later.
    while !server.status().missing.is_empty() && begun.elapsed() < 2 * SOON {
        thread::sleep(Duration::from_millis(5));
    }
    if rows.len() != 8 || !server.status().missing.is_empty() {
        return Err("the report was not taken".into());
    }
    reader.leave()?;
    server.stop()?;
    Ok(waited)
}

/// A full table, and a client that has not left.
fn full_table() -> Snapshot {
    let (client, incarnation) = REPORTER;
    Snapshot {
        epoch: 1,
        rows: (0..RANGES).map(|key| (key, Value::from(key))).collect(),
        records: vec![Record { client, incarnation, last: None, left: false }],
        ..Snapshot::default()
    }
}

/// Sends one message on a connection of its own, after its host's Hello. The connection stays open.
fn send_alone(at: SocketAddr, message: &[u8]) -> Result<TcpStream, Box<dyn Error>> {
    let mut stream = TcpStream::connect(at)?;
    stream.write_all(&HOST_HELLO)?;
    stream.write_all(&(message.len() as u64).to_le_bytes())?;
    stream.write_all(message)?;
    Ok(stream)
}

/// A report that the client reads each of these ranges, and no entry. `docs/WIRE.md` has its form.
fn report(epoch: u64, order: Order) -> Vec<u8> {
    let (client, incarnation) = REPORTER;
    let mut bytes = vec![1, 2];
    for number in [u64::from(client), incarnation, epoch] {
        bytes.extend(number.to_le_bytes());
    }
    bytes.extend(u32::try_from(RANGES).unwrap_or(u32::MAX).to_le_bytes());
    for (low, high) in (0..RANGES).map(order) {
        bytes.extend(low.to_le_bytes());
        bytes.extend(high.to_le_bytes());
        bytes.push(1);
    }
    bytes.extend(0_u32.to_le_bytes());
    bytes
}
