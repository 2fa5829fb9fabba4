//! What was acknowledged, so that a stale row is seen.
use crate::method::{Counted, Found, ROWS};
use std::ops::Range;
use std::sync::atomic::{AtomicU64, Ordering};

/// The greatest count of each row that was acknowledged to a writer.
#[derive(Debug)]
pub struct Acknowledged(Vec<AtomicU64>);

impl Acknowledged {
    pub fn new() -> Acknowledged {
        Acknowledged((0..ROWS).map(|_| AtomicU64::new(0)).collect())
    }

    fn of(&self, key: u64) -> Found<&AtomicU64> {
        Ok(self.0.get(usize::try_from(key)?).ok_or("there is no such key")?)
    }

    /// A write was acknowledged.
    pub fn note(&self, key: u64, count: u64) -> Found<()> {
        self.of(key)?.fetch_max(count, Ordering::SeqCst);
        Ok(())
    }

    /// The counts before a read.
    pub fn before(&self, keys: Range<u64>, least: &mut Vec<u64>) -> Found<()> {
        least.clear();
        for key in keys {
            least.push(self.of(key)?.load(Ordering::SeqCst));
        }
        Ok(())
    }
}

/// How many of these rows, of which the first has the least key, are older than what had been acknowledged before.
pub fn count_stale(rows: &[Counted], least: &[u64]) -> u64 {
    rows.iter().zip(least).filter(|((_, count), least)| count < least).count() as u64
}

#[cfg(test)]
mod tests {
    use super::*;

    #[test]
    fn a_row_older_than_an_acknowledged_write_is_stale() {
        let (acknowledged, mut least) = (Acknowledged::new(), Vec::new());
        acknowledged.note(6, 3).unwrap();
        acknowledged.note(6, 2).unwrap();
        acknowledged.before(5..8, &mut least).unwrap();
        assert_eq!(least, [0, 3, 0]);
        assert_eq!(count_stale(&[(5, 0), (6, 3), (7, 9)], &least), 0);
        assert_eq!(count_stale(&[(5, 0), (6, 2), (7, 9)], &least), 1);
        assert!(acknowledged.note(ROWS, 1).is_err());
    }
}
