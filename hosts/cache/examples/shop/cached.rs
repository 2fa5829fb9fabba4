//! krl-cache: each process keeps products in its own memory.
use crate::database::Database;
use crate::{Found, Place, Product, Shop, Way};
use krl_cache::{Cache, ReadError, Row, Table};
use std::ops::Range;

/// A process that reads by krl-cache, and sells by SQL.
pub struct Cached {
    cache: Cache,
    products: Table,
    database: Database,
}

impl Cached {
    pub fn open(place: &Place) -> Found<Cached> {
        let folder = format!("{}/clients", place.folder);
        let cache = Cache::builder(place.database.parse()?, folder).open()?;
        let products = cache.table(Way::Krl.table())?;
        let database = Database::connect(&place.database, Way::Krl.table())?;
        Ok(Cached { cache, products, database })
    }
}

impl Shop for Cached {
    fn shelf(&mut self, numbers: Range<u64>) -> Found<Vec<Product>> {
        let rows = self.products.range(numbers.start.cast_signed()..numbers.end.cast_signed())?;
        let products: Result<_, ReadError> = rows.iter().map(product).collect();
        Ok(products?)
    }

    fn sell(&mut self, number: u64) -> Found<u64> {
        self.database.sell(number)
    }

    fn read_from_memory(&self) -> u64 {
        self.products.statistics().hits
    }

    fn leave(self: Box<Self>) {
        self.cache.close();
    }
}

fn product(row: &Row) -> Result<Product, ReadError> {
    let number = |column| row.get::<i64>(column).map(i64::cast_unsigned);
    Ok(Product { number: number("id")?, sold: number("sold")?, price: number("price")? })
}
