//! The products in the database, which are sold by SQL.
use crate::{Found, Product};
use krl_cache::tokio_postgres::{Client, NoTls, Row, Statement, connect};
use tokio::runtime::{Builder, Runtime};

/// A connection to the database.
pub struct Database {
    runtime: Runtime,
    client: Client,
    load: Statement,
    sell: Statement,
}

impl Database {
    /// Connects, for the products of this table.
    pub fn connect(address: &str, table: &str) -> Found<Database> {
        let runtime = Builder::new_current_thread().enable_all().build()?;
        let (client, load, sell) = runtime.block_on(async {
            let (client, connection) = connect(address, NoTls).await?;
            tokio::spawn(connection);
            let load = format!("SELECT id, sold, price FROM {table} WHERE id = ANY ($1)");
            let sell = format!("UPDATE {table} SET sold = sold + 1 WHERE id = $1 RETURNING sold");
            let (load, sell) = (client.prepare(&load).await?, client.prepare(&sell).await?);
            Found::Ok((client, load, sell))
        })?;
        Ok(Database { runtime, client, load, sell })
    }

    /// These products, in no particular order.
    pub fn load(&self, numbers: &[i64]) -> Found<Vec<Product>> {
        let rows = self.runtime.block_on(self.client.query(&self.load, &[&numbers]))?;
        let number = |row: &Row, place: usize| row.get::<_, i64>(place).cast_unsigned();
        let product = |row: &Row| Product {
            number: number(row, 0),
            sold: number(row, 1),
            price: number(row, 2),
        };
        Ok(rows.iter().map(product).collect())
    }

    /// Sells a product, and returns how often it was sold then.
    pub fn sell(&self, number: u64) -> Found<u64> {
        let number = number.cast_signed();
        let sold = self.runtime.block_on(self.client.query_one(&self.sell, &[&number]))?;
        Ok(sold.get::<_, i64>(0).cast_unsigned())
    }
}
