//! PostgreSQL only, by prepared statements: one for a read, one for a write.
use crate::method::{Counted, Done, Found, Method, Place};
use krl_cache::tokio_postgres::{Client, NoTls, Row, Statement, connect};
use std::ops::Range;
use tokio::runtime::{Builder, Runtime};

/// A connection to PostgreSQL.
pub struct Plain {
    runtime: Runtime,
    client: Client,
    range: Statement,
    some: Statement,
    update: Statement,
    bytes: usize,
}

impl Plain {
    /// A connection that reads and writes the table of this name.
    pub fn new(place: &Place, table: &str) -> Found<Plain> {
        let runtime = Builder::new_current_thread().enable_all().build()?;
        let (client, range, some, update) = runtime.block_on(async {
            let (client, connection) = connect(&place.postgres, NoTls).await?;
            tokio::spawn(connection);
            let select = format!("SELECT id, n, body FROM {table} WHERE");
            let range = format!("{select} id >= $1 AND id < $2 ORDER BY id");
            let some = format!("{select} id = ANY ($1)");
            let update =
                format!("UPDATE {table} SET n = n + 1, body = $2 WHERE id = $1 RETURNING n");
            let range = client.prepare(&range).await?;
            let some = client.prepare(&some).await?;
            let update = client.prepare(&update).await?;
            Found::Ok((client, range, some, update))
        })?;
        Ok(Plain { runtime, client, range, some, update, bytes: place.bytes })
    }

    /// The rows of these keys, in no order: the key, how often it was changed, and the body.
    pub fn some(&self, keys: &[i64]) -> Found<Vec<(u64, u64, Vec<u8>)>> {
        let rows = self.runtime.block_on(self.client.query(&self.some, &[&keys]))?;
        Ok(rows.iter().map(whole).collect())
    }
}

impl Method for Plain {
    fn read(&mut self, keys: Range<u64>, rows: &mut Vec<Counted>) -> Done {
        let (lo, hi) = (keys.start.cast_signed(), keys.end.cast_signed());
        let found = self.runtime.block_on(self.client.query(&self.range, &[&lo, &hi]))?;
        rows.clear();
        rows.extend(found.iter().map(whole).map(|(key, count, _)| (key, count)));
        Ok(())
    }

    fn write(&mut self, key: u64) -> Found<u64> {
        let (key, body) = (key.cast_signed(), vec![0xaa_u8; self.bytes]);
        let changed = self.runtime.block_on(self.client.query_one(&self.update, &[&key, &body]))?;
        Ok(changed.get::<_, i64>(0).cast_unsigned())
    }
}

fn whole(row: &Row) -> (u64, u64, Vec<u8>) {
    let (key, count): (i64, i64) = (row.get(0), row.get(1));
    (key.cast_unsigned(), count.cast_unsigned(), row.get(2))
}

/// Runs statements over a connection of their own, each text in a transaction.
pub fn run(place: &Place, texts: &[&str]) -> Done {
    let runtime = Builder::new_current_thread().enable_all().build()?;
    runtime.block_on(async {
        let (client, connection) = connect(&place.postgres, NoTls).await?;
        tokio::spawn(connection);
        for statements in texts {
            client.batch_execute(statements).await?;
        }
        Found::Ok(())
    })
}
