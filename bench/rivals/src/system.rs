//! What each system is asked.
use krl::{Row, Value};
use std::error::Error;
use std::io;
use std::net::TcpStream;
use std::ops::Range;
use std::thread;
use std::time::{Duration, Instant};

pub type Found<T> = Result<T, Box<dyn Error + Send + Sync>>;
pub type Done = Found<()>;

/// The rows of each system: this many keys from 0 on, and values of this many bytes.
#[derive(Clone, Copy, Debug)]
pub struct Table {
    pub rows: u64,
    pub value_bytes: usize,
}

impl Table {
    /// The value for a number: its eight bytes, and zeros after them.
    pub fn value(self, number: u64) -> Vec<u8> {
        let mut bytes = number.to_be_bytes().to_vec();
        bytes.resize(self.value_bytes, 0);
        bytes
    }
}

/// The row of a key and its value as bytes.
pub fn row(key: u64, value: &[u8]) -> Found<Row> {
    Ok(Row { key, value: Value::try_from(value)? })
}

/// The number that a row's value is for.
pub fn number_of(row: &Row) -> u64 {
    let bytes = row.value.as_bytes().first_chunk::<8>();
    bytes.map_or(0, |bytes| u64::from_be_bytes(*bytes))
}

/// How long a server may take until it listens.
const PATIENCE: Duration = Duration::from_secs(30);

/// Whether a client keeps rows.
#[derive(Clone, Copy, Debug, PartialEq, Eq)]
pub enum Caching {
    On,
    /// Each read is asked of the server.
    Off,
}

/// A server that runs.
pub trait System {
    fn name(&self) -> &'static str;

    /// Whether a client's cache may show a row that is older than a write which was acknowledged.
    fn may_be_stale(&self) -> bool;

    /// Makes all rows, each with the value 0, as soon as the server listens.
    fn make_rows(&mut self) -> Done;

    /// A client, with an empty cache if it has one. Clients of one number don't live at once. A
    /// client whose cache is never stale need not be able to go without.
    fn connect(&self, number: u8, caching: Caching) -> Found<Box<dyn Connection>>;
}

/// A client. It is used by one thread.
pub trait Connection: Send {
    /// Brings these rows into the cache, if there is one.
    fn fill(&mut self, keys: Range<u64>) -> Done;

    /// The rows of a range from the cache, with no message; `false` if they are not there.
    fn cached(&mut self, keys: Range<u64>, rows: &mut Vec<Row>) -> bool;

    /// The rows of a range, asked of the server if the cache lacks one.
    fn read(&mut self, keys: Range<u64>, rows: &mut Vec<Row>) -> Done;

    /// Gives a row another value, which is on the disk when this returns.
    fn write(&mut self, key: u64, value: u64) -> Done;

    /// Ends the client in an orderly way, if there is one.
    fn close(self: Box<Self>) -> Done {
        Ok(())
    }
}

/// A connection whose small messages leave at once, as soon as the server listens.
pub fn tcp(address: &str) -> io::Result<TcpStream> {
    let end = Instant::now() + PATIENCE;
    loop {
        match TcpStream::connect(address) {
            Ok(stream) => {
                stream.set_nodelay(true)?;
                stream.set_read_timeout(Some(PATIENCE))?;
                return Ok(stream);
            }
            Err(error) if Instant::now() > end => return Err(error),
            Err(_) => thread::sleep(Duration::from_millis(50)),
        }
    }
}

/// Tries what fails until the server is ready.
pub fn until_ready<T>(mut attempt: impl FnMut() -> Found<T>) -> Found<T> {
    let end = Instant::now() + PATIENCE;
    loop {
        match attempt() {
            Err(_) if Instant::now() < end => thread::sleep(Duration::from_millis(50)),
            tried => return tried,
        }
    }
}

/// The bytes of a key.
pub fn number(bytes: &[u8]) -> Found<u64> {
    Ok(u64::from_be_bytes(bytes.try_into().map_err(|_| "a number of eight bytes is expected")?))
}
