//! krl-cache: each process keeps rows in its own memory, and writes by plain SQL.
use crate::method::{Counted, Done, Found, Method, Place, ROWS};
use crate::plain::{self, Plain};
use krl_cache::{Cache, Row, Table};
use std::ops::Range;
use std::thread;
use std::time::Duration;

/// Memory for all rows.
const MEMORY: usize = 256 << 20;

/// So often a process reads all rows until each is in memory.
const MOST_PASSES: u32 = 1000;

/// What a process of the application keeps.
pub struct Process {
    pub cache: Cache,
    pub items: Table,
}

/// A thread of a process of the application.
pub struct Cached {
    items: Table,
    writes: Plain,
}

impl Process {
    pub fn open(place: &Place) -> Found<Process> {
        let cache = Cache::builder(place.postgres.parse()?, &place.folder).memory(MEMORY).open()?;
        let items = cache.table("item")?;
        Ok(Process { cache, items })
    }
}

impl Cached {
    pub fn new(place: &Place, process: &Process) -> Found<Cached> {
        Ok(Cached { items: process.items.clone(), writes: Plain::new(place, "item")? })
    }
}

impl Method for Cached {
    fn read(&mut self, keys: Range<u64>, rows: &mut Vec<Counted>) -> Done {
        rows.clear();
        for row in self.items.range(keys.start.cast_signed()..keys.end.cast_signed())? {
            rows.push(counted(&row)?);
        }
        Ok(())
    }

    fn write(&mut self, key: u64) -> Found<u64> {
        self.writes.write(key)
    }

    /// Rows that were missed are kept some time later.
    fn warm_up(&mut self) -> Done {
        for _ in 0..MOST_PASSES {
            let before = self.items.statistics().misses;
            self.read_all()?;
            if self.items.statistics().misses == before {
                return Ok(());
            }
            thread::sleep(Duration::from_millis(10));
        }
        Err("the rows are never all in memory".into())
    }
}

fn counted(row: &Row) -> Found<Counted> {
    let (key, count): (i64, i64) = (row.get("id")?, row.get("n")?);
    Ok((key.cast_unsigned(), count.cast_unsigned()))
}

/// Makes the tables, the same rows in each.
pub fn make_rows(place: &Place) -> Done {
    let bytes = place.bytes;
    let ids = format!("FROM generate_series(0, {ROWS} - 1) AS id");
    let tables = format!(
        "CREATE TABLE plain (id bigint PRIMARY KEY, n bigint NOT NULL, body bytea NOT NULL);
         INSERT INTO plain SELECT id, 0, decode(repeat('aa', {bytes}), 'hex') {ids};
         CREATE TABLE item (LIKE plain INCLUDING ALL);
         INSERT INTO item SELECT * FROM plain;
         ANALYZE;"
    );
    plain::run(place, &[&tables, "CREATE EXTENSION krl", "SELECT krl.cache('item')"])
}
