//! krl: a server over SQLite, and clients of the library `krl`.
use crate::system::{self, Caching, Connection, Done, Found, System, Table, until_ready};
use krl::{Address, Client, Listener, Outcome, Row, Server, SqliteStore, Value};
use krl::operate::{Reach, Room};
use krl::store::{Change, Store, Write};
use std::ops::Range;
use std::path::{Path, PathBuf};

/// Serves the rows until the process ends.
pub fn serve(address: &str, folder: &Path, reach: Reach, table: Table) -> Done {
    let mut store = SqliteStore::open(folder.join("krl.db"))?;
    let rows: Found<Vec<Change>> = (0..table.rows).map(|key| row(key, table)).collect();
    store.commit(&rows?)?;
    let listener = Listener::bind(&address.parse()?)?;
    let room = Room::of(usize::try_from(table.rows)?.max(Room::default().rows()))?;
    Server::builder(listener, store).reach(reach).room(room).start()?.wait()?;
    Ok(())
}

/// A row that is there at the start. Nobody has written it.
fn row(key: u64, table: Table) -> Found<Change> {
    let write = Write::Insert(system::row(key, &table.value(0))?);
    Ok(Change::Judged { client: 0, number: 0, write, outcome: Outcome::Applied })
}

pub struct Krl {
    name: &'static str,
    address: Address,
    table: Table,
    /// Where the clients' lock files are.
    folder: PathBuf,
}

impl Krl {
    pub fn new(name: &'static str, address: &str, folder: &Path, table: Table) -> Found<Krl> {
        Ok(Krl { name, address: address.parse()?, table, folder: folder.into() })
    }

    fn join(&self, number: u8) -> Found<Client> {
        let lock_file = self.folder.join(format!("{}-client-{number}.lock", self.name));
        Ok(Client::join(self.address.clone(), number, lock_file)?)
    }
}

impl System for Krl {
    fn name(&self) -> &'static str {
        self.name
    }

    /// The server has made them.
    fn make_rows(&mut self) -> Done {
        let client = until_ready(|| self.join(0))?;
        let last = client.read(self.table.rows - 1..self.table.rows)?;
        client.leave()?;
        if last.len() == 1 { Ok(()) } else { Err("krl lacks the last row".into()) }
    }

    fn may_be_stale(&self) -> bool {
        false
    }

    fn connect(&self, number: u8, _: Caching) -> Found<Box<dyn Connection>> {
        Ok(Box::new(Joined { client: self.join(number)?, table: self.table }))
    }
}

struct Joined {
    client: Client,
    table: Table,
}

impl Connection for Joined {
    fn fill(&mut self, keys: Range<u64>) -> Done {
        self.client.read(keys)?;
        Ok(())
    }

    fn cached(&mut self, keys: Range<u64>, rows: &mut Vec<Row>) -> bool {
        matches!(self.client.cached_into(keys, rows), Ok(true))
    }

    fn read(&mut self, keys: Range<u64>, rows: &mut Vec<Row>) -> Done {
        *rows = self.client.read(keys)?;
        Ok(())
    }

    fn write(&mut self, key: u64, number: u64) -> Done {
        let value = Value::try_from(&self.table.value(number)[..])?;
        match self.client.put(key, value)? {
            Outcome::Applied => Ok(()),
            outcome => Err(format!("krl judged a put of key {key}: {outcome}").into()),
        }
    }

    fn close(self: Box<Self>) -> Done {
        Ok(self.client.leave()?)
    }
}
