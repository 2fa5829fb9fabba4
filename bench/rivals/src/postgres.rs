//! PostgreSQL: prepared statements by its own protocol, version 3, values in their binary form.
use crate::system::{
    Caching, Connection, Done, Found, System, Table, number, row, tcp, until_ready,
};
use krl::Row;
use std::io::{BufReader, Read, Write};
use std::net::TcpStream;
use std::ops::Range;

/// The plan is the index scan, and a write is on the disk when it is answered.
const SETTINGS: &str = "set enable_seqscan = off; set enable_bitmapscan = off; \
                        set synchronous_commit = on";
const SCAN: &str = "select key, value from rows where key >= $1 and key < $2 order by key";
const UPDATE: &str = "update rows set value = $2 where key = $1";

pub struct Postgres {
    address: String,
    table: Table,
}

impl Postgres {
    pub fn new(address: &str, table: Table) -> Postgres {
        Postgres { address: address.into(), table }
    }
}

impl System for Postgres {
    fn name(&self) -> &'static str {
        "PostgreSQL"
    }

    fn make_rows(&mut self) -> Done {
        let mut wire = until_ready(|| Wire::open(&self.address))?;
        wire.query("drop table if exists rows")?;
        wire.query("create table rows (key bigint primary key, value bytea not null)")?;
        wire.query(&format!(
            "insert into rows select key, decode(repeat('00', {}), 'hex') \
             from generate_series(0, {}) key",
            self.table.value_bytes,
            self.table.rows - 1
        ))?;
        wire.query("vacuum analyze rows")
    }

    fn may_be_stale(&self) -> bool {
        false
    }

    fn connect(&self, _: u8, _: Caching) -> Found<Box<dyn Connection>> {
        let mut wire = Wire::open(&self.address)?;
        wire.query(SETTINGS)?;
        wire.prepare("scan", SCAN)?;
        wire.prepare("update", UPDATE)?;
        Ok(Box::new(Asking { wire, table: self.table }))
    }
}

struct Asking {
    wire: Wire,
    table: Table,
}

impl Connection for Asking {
    fn fill(&mut self, _: Range<u64>) -> Done {
        Ok(())
    }

    fn cached(&mut self, _: Range<u64>, _: &mut Vec<Row>) -> bool {
        false
    }

    fn read(&mut self, keys: Range<u64>, rows: &mut Vec<Row>) -> Done {
        rows.clear();
        let [lo, hi] = [keys.start, keys.end].map(u64::to_be_bytes);
        self.wire.execute("scan", [&lo, &hi], |[key, value]| {
            rows.push(row(number(key)?, value)?);
            Ok(())
        })
    }

    fn write(&mut self, key: u64, number: u64) -> Done {
        let value = self.table.value(number);
        self.wire.execute("update", [&key.to_be_bytes(), &value], |_| Ok(()))
    }
}

/// A connection that speaks PostgreSQL's protocol.
struct Wire {
    stream: BufReader<TcpStream>,
    out: Vec<u8>,
    payload: Vec<u8>,
}

impl Wire {
    /// Connects as the user `postgres`, whom the server has to trust.
    fn open(address: &str) -> Found<Wire> {
        let stream = BufReader::with_capacity(1 << 16, tcp(address)?);
        let mut wire = Wire { stream, out: Vec::new(), payload: Vec::new() };
        let mut start = (3_u32 << 16).to_be_bytes().to_vec();
        start.extend(b"user\0postgres\0database\0postgres\0\0");
        wire.out.extend(length_of(&start));
        wire.out.extend(start);
        wire.finish(|_| Ok(()))?;
        Ok(wire)
    }

    fn query(&mut self, text: &str) -> Done {
        self.push(b'Q', &[text.as_bytes(), b"\0"]);
        self.finish(|_| Ok(()))
    }

    fn prepare(&mut self, name: &str, text: &str) -> Done {
        // No type of a parameter is given: the server finds them.
        self.push(b'P', &[name.as_bytes(), b"\0", text.as_bytes(), b"\0", &[0, 0]]);
        self.push(b'S', &[]);
        self.finish(|_| Ok(()))
    }

    /// Runs a prepared statement of two parameters.
    fn execute(
        &mut self,
        name: &str,
        [first, second]: [&[u8]; 2],
        each: impl FnMut([&[u8]; 2]) -> Done,
    ) -> Done {
        // All parameters and results in binary form: format codes of one entry, 1.
        const BINARY: &[u8] = &[0, 1, 0, 1];
        let name = name.as_bytes();
        let lengths = [first, second].map(|it| u32::try_from(it.len()).unwrap_or(0).to_be_bytes());
        let parts: [&[u8]; 10] =
            [b"\0", name, b"\0", BINARY, &[0, 2], &lengths[0], first, &lengths[1], second, BINARY];
        self.push(b'B', &parts);
        self.push(b'E', &[b"\0", &[0; 4]]);
        self.push(b'S', &[]);
        self.finish(each)
    }

    fn push(&mut self, kind: u8, parts: &[&[u8]]) {
        let payload = parts.concat();
        self.out.push(kind);
        self.out.extend(length_of(&payload));
        self.out.extend(payload);
    }

    /// Sends what was pushed, and takes answers until the server is ready again.
    fn finish(&mut self, mut each: impl FnMut([&[u8]; 2]) -> Done) -> Done {
        self.stream.get_mut().write_all(&self.out)?;
        self.out.clear();
        let mut failed = None;
        loop {
            match self.take()? {
                b'D' => each(columns(&self.payload)?)?,
                b'E' => failed = Some(String::from_utf8_lossy(&self.payload).replace('\0', " ")),
                b'R' if self.payload != [0; 4] => {
                    return Err("PostgreSQL asks for a password: trust 127.0.0.1".into());
                }
                b'Z' => break,
                _ => {}
            }
            // A server that refuses a connection reports why, hangs up, and is never ready.
            if failed.as_deref().is_some_and(|why| why.contains("FATAL")) {
                break;
            }
        }
        failed.map_or(Ok(()), |why| Err(format!("PostgreSQL: {why}").into()))
    }

    /// The kind of the next message, whose payload is taken.
    fn take(&mut self) -> Found<u8> {
        let mut head = [0; 5];
        self.stream.read_exact(&mut head)?;
        let [kind, length @ ..] = head;
        let length = u32::from_be_bytes(length).checked_sub(4).ok_or("a message is too short")?;
        self.payload.resize(usize::try_from(length)?, 0);
        self.stream.read_exact(&mut self.payload)?;
        Ok(kind)
    }
}

/// The length of a message counts its own four bytes.
fn length_of(payload: &[u8]) -> [u8; 4] {
    u32::try_from(payload.len() + 4).unwrap_or(u32::MAX).to_be_bytes()
}

/// The two columns of a row.
fn columns(row: &[u8]) -> Found<[&[u8]; 2]> {
    let (first, rest) = column(row.get(2..).unwrap_or_default())?;
    let (second, _) = column(rest)?;
    Ok([first, second])
}

fn column(row: &[u8]) -> Found<(&[u8], &[u8])> {
    let (length, rest) = row.split_first_chunk::<4>().ok_or("a row is too short")?;
    let length = usize::try_from(u32::from_be_bytes(*length))?;
    Ok(rest.split_at_checked(length).ok_or("a row is too short")?)
}

#[cfg(test)]
mod tests {
    use super::*;

    #[test]
    fn a_row_has_its_columns() {
        let row = [0, 2, 0, 0, 0, 1, 7, 0, 0, 0, 2, 8, 9];
        assert_eq!(columns(&row).unwrap(), [&[7][..], &[8, 9]]);
        assert!(columns(&row[..12]).is_err());
        assert!(columns(&[]).is_err());
    }
}
