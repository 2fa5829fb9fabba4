//! What was acknowledged to somebody, in a file that all processes share.
use crate::{Found, PRODUCTS, Product};
use std::fs::{File, OpenOptions};
use std::ops::Range;
use std::os::unix::fs::FileExt;

const BYTES: u64 = 8;

/// How often each product was sold, and its price, as somebody knows them. If two note a product at
/// once, the file may name the smaller number: then a stale read may be overlooked, and none is
/// invented.
pub struct Acknowledged(File);

impl Acknowledged {
    pub fn open(folder: &str, way: crate::Way) -> Found<Acknowledged> {
        let mut options = OpenOptions::new();
        options.read(true).write(true).create(true).truncate(false);
        let file = options.open(format!("{folder}/acknowledged-{way}"))?;
        file.set_len(PRODUCTS * 2 * BYTES)?;
        Ok(Acknowledged(file))
    }

    /// A sale was acknowledged.
    pub fn note_sold(&self, number: u64, sold: u64) -> Found<()> {
        Ok(self.0.write_all_at(&sold.to_be_bytes(), number * 2 * BYTES)?)
    }

    /// A price was acknowledged.
    pub fn note_price(&self, number: u64, price: u64) -> Found<()> {
        Ok(self.0.write_all_at(&price.to_be_bytes(), (number * 2 + 1) * BYTES)?)
    }

    /// These products as they were known before a read.
    pub fn before(&self, numbers: Range<u64>) -> Found<Vec<Product>> {
        let length = usize::try_from((numbers.end - numbers.start) * 2 * BYTES)?;
        let mut bytes = vec![0; length];
        self.0.read_exact_at(&mut bytes, numbers.start * 2 * BYTES)?;
        let (counts, _) = bytes.as_chunks();
        let counts: Vec<u64> = counts.iter().map(|count| u64::from_be_bytes(*count)).collect();
        let product = |(number, counts): (u64, &[u64; 2])| {
            let [sold, price] = *counts;
            Product { number, sold, price }
        };
        Ok(numbers.zip(counts.as_chunks().0).map(product).collect())
    }
}
