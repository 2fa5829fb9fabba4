//! Redis: RESP 3 over one connection, and what it reports of tracked keys over another.
//!
//! A client keeps the rows that it reads until Redis reports that their keys have changed (CLIENT
//! TRACKING). The notices come to a connection of their own, which a thread reads: so a scan of the
//! cache makes no system call, and an answer is read by the thread that waits for it.
use crate::local::Local;
use crate::system::{
    Caching, Connection, Done, Found, System, Table, number, row, tcp, until_ready,
};
use krl::Row;
use std::io::{BufRead, BufReader, Read, Write};
use std::net::{Shutdown, TcpStream};
use std::ops::Range;
use std::sync::Arc;
use std::thread;

const CHUNK: u64 = 100;

pub struct Redis {
    address: String,
    table: Table,
}

impl Redis {
    pub fn new(address: &str, table: Table) -> Redis {
        Redis { address: address.into(), table }
    }
}

impl System for Redis {
    fn name(&self) -> &'static str {
        "Redis"
    }

    fn make_rows(&mut self) -> Done {
        let mut asked = until_ready(|| Wire::open(&self.address, self.table))?;
        for lo in (0..self.table.rows).step_by(usize::try_from(CHUNK)?) {
            asked.make_rows(lo..self.table.rows.min(lo + CHUNK))?;
        }
        Ok(())
    }

    fn may_be_stale(&self) -> bool {
        true
    }

    fn connect(&self, _: u8, caching: Caching) -> Found<Box<dyn Connection>> {
        match caching {
            Caching::On => Ok(Box::new(Tracking::open(&self.address, self.table)?)),
            Caching::Off => Ok(Box::new(Wire::open(&self.address, self.table)?)),
        }
    }
}

/// Drops the keys of the next notice.
fn drop_noticed(notices: &mut Wire, local: &Local) -> Done {
    let Reply::List(notice) = notices.reply()? else { return Ok(()) };
    let mut rows = local.lock();
    match notice.get(1) {
        Some(Reply::List(keys)) => {
            let bytes = keys.iter().filter_map(|key| key.bytes().ok());
            bytes.filter_map(|key| number(key).ok()).for_each(|key| rows.drop_key(key));
        }
        // All keys are gone.
        _ => rows.drop_all(),
    }
    Ok(())
}

struct Tracking {
    asked: Wire,
    of_notices: TcpStream,
    local: Arc<Local>,
}

impl Drop for Tracking {
    /// Ends the thread that reads the notices.
    fn drop(&mut self) {
        let _ = self.of_notices.shutdown(Shutdown::Both);
    }
}

impl Tracking {
    fn open(address: &str, table: Table) -> Found<Tracking> {
        let mut notices = Wire::open(address, table)?;
        let Reply::Number(id) = notices.call(&[b"CLIENT", b"ID"])? else {
            return Err("Redis reports no CLIENT ID".into());
        };
        let mut asked = Wire::open(address, table)?;
        asked.call(&[b"CLIENT", b"TRACKING", b"ON", b"REDIRECT", id.to_string().as_bytes()])?;
        let local = Arc::new(Local::default());
        let (kept, of_notices) = (Arc::clone(&local), notices.stream.get_ref().try_clone()?);
        of_notices.set_read_timeout(None)?;
        thread::spawn(move || while drop_noticed(&mut notices, &kept).is_ok() {});
        Ok(Tracking { asked, of_notices, local })
    }

    /// Asks for these keys and keeps their rows.
    fn ask(&mut self, keys: &[u64]) -> Done {
        let found = self.asked.rows(keys)?;
        let mut rows = self.local.lock();
        for row in found {
            rows.fill(row);
        }
        Ok(())
    }
}

impl Connection for Tracking {
    fn fill(&mut self, keys: Range<u64>) -> Done {
        let mut room = Vec::new();
        let mut starts = keys.clone().step_by(usize::try_from(CHUNK)?);
        starts.try_for_each(|lo| self.read(lo..keys.end.min(lo + CHUNK), &mut room))
    }

    fn cached(&mut self, keys: Range<u64>, rows: &mut Vec<Row>) -> bool {
        self.local.scan(keys, rows)
    }

    /// Asks again if a notice came between the answer and the scan.
    fn read(&mut self, keys: Range<u64>, rows: &mut Vec<Row>) -> Done {
        while !self.local.scan(keys.clone(), rows) {
            let missing = self.local.lock().begin_read(keys.clone());
            if !missing.is_empty() {
                self.ask(&missing)?;
            }
        }
        Ok(())
    }

    /// The client's own write makes a notice too, which comes later.
    fn write(&mut self, key: u64, value: u64) -> Done {
        self.local.lock().drop_key(key);
        self.asked.write(key, value)?;
        self.local.lock().drop_key(key);
        Ok(())
    }
}

/// A client that keeps nothing.
impl Connection for Wire {
    fn fill(&mut self, _: Range<u64>) -> Done {
        Ok(())
    }

    fn cached(&mut self, _: Range<u64>, _: &mut Vec<Row>) -> bool {
        false
    }

    fn read(&mut self, keys: Range<u64>, rows: &mut Vec<Row>) -> Done {
        let keys: Vec<u64> = keys.collect();
        *rows = self.rows(&keys)?;
        Ok(())
    }

    fn write(&mut self, key: u64, number: u64) -> Done {
        let value = self.table.value(number);
        self.call(&[b"SET", &key.to_be_bytes(), &value]).map(drop)
    }
}

/// An answer of Redis.
#[derive(Debug)]
enum Reply {
    Simple,
    Number(u64),
    Bytes(Vec<u8>),
    Null,
    List(Vec<Reply>),
}

impl Reply {
    fn bytes(&self) -> Found<&[u8]> {
        match self {
            Reply::Bytes(bytes) => Ok(bytes),
            other => Err(format!("Redis answers {other:?} where bytes are expected").into()),
        }
    }
}

/// A connection that speaks RESP 3.
struct Wire {
    table: Table,
    stream: BufReader<TcpStream>,
    request: Vec<u8>,
    line: Vec<u8>,
}

impl Wire {
    fn open(address: &str, table: Table) -> Found<Wire> {
        let stream = BufReader::with_capacity(1 << 16, tcp(address)?);
        let mut wire = Wire { table, stream, request: Vec::new(), line: Vec::new() };
        wire.call(&[b"HELLO", b"3"])?;
        Ok(wire)
    }

    /// Makes the rows of these keys by one command.
    fn make_rows(&mut self, keys: Range<u64>) -> Done {
        let (keys, zero): (Vec<_>, _) = (keys.map(u64::to_be_bytes).collect(), self.table.value(0));
        let mut words: Vec<&[u8]> = vec![b"MSET"];
        words.extend(keys.iter().flat_map(|key| [&key[..], &zero]));
        self.call(&words).map(drop)
    }

    /// The rows of these keys, each of which has one.
    fn rows(&mut self, keys: &[u64]) -> Found<Vec<Row>> {
        let bytes: Vec<[u8; 8]> = keys.iter().map(|key| key.to_be_bytes()).collect();
        let mut words: Vec<&[u8]> = vec![b"MGET"];
        words.extend(bytes.iter().map(|key| &key[..]));
        let Reply::List(values) = self.call(&words)? else {
            return Err("Redis answers MGET by no list".into());
        };
        keys.iter().zip(&values).map(|(key, value)| row(*key, value.bytes()?)).collect()
    }

    fn call(&mut self, words: &[&[u8]]) -> Found<Reply> {
        self.request.clear();
        write!(self.request, "*{}\r\n", words.len())?;
        for word in words {
            write!(self.request, "${}\r\n", word.len())?;
            self.request.extend_from_slice(word);
            self.request.extend_from_slice(b"\r\n");
        }
        self.stream.get_mut().write_all(&self.request)?;
        self.reply()
    }

    fn reply(&mut self) -> Found<Reply> {
        self.line.clear();
        self.stream.read_until(b'\n', &mut self.line)?;
        let line = self.line.strip_suffix(b"\r\n").ok_or("Redis hung up")?;
        let (kind, rest) = line.split_first().ok_or("Redis answers an empty line")?;
        let text = std::str::from_utf8(rest)?;
        match kind {
            b'+' | b'#' | b',' => Ok(Reply::Simple),
            b':' => Ok(Reply::Number(text.parse()?)),
            b'_' => Ok(Reply::Null),
            b'$' => self.bytes(text.parse()?),
            b'*' | b'>' | b'~' => self.list(text.parse()?),
            b'%' => self.list(2 * text.parse::<usize>()?),
            _ => Err(format!("Redis: {text}").into()),
        }
    }

    fn bytes(&mut self, length: usize) -> Found<Reply> {
        let mut bytes = vec![0; length + 2];
        self.stream.read_exact(&mut bytes)?;
        bytes.truncate(length);
        Ok(Reply::Bytes(bytes))
    }

    fn list(&mut self, length: usize) -> Found<Reply> {
        let items: Found<Vec<Reply>> = (0..length).map(|_| self.reply()).collect();
        Ok(Reply::List(items?))
    }
}
