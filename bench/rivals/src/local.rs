//! A cache of rows by key, as a client of Redis or etcd keeps one.
use krl::{Row, Value};
use std::collections::BTreeMap;
use std::ops::Range;
use std::sync::{Mutex, MutexGuard, PoisonError};

/// Rows by key. The thread that reads the server's notices changes it next to the client's own.
#[derive(Debug, Default)]
pub struct Local(Mutex<Rows>);

#[derive(Debug, Default)]
pub struct Rows {
    pub by_key: BTreeMap<u64, Value>,
    /// The keys that were dropped since a read began: its answer may be older than these notices.
    dropped: Vec<u64>,
}

impl Local {
    pub fn lock(&self) -> MutexGuard<'_, Rows> {
        self.0.lock().unwrap_or_else(PoisonError::into_inner)
    }

    /// The rows of a range, if each of its keys has one here.
    pub fn scan(&self, keys: Range<u64>, into: &mut Vec<Row>) -> bool {
        let rows = self.lock();
        let count = keys.end - keys.start;
        into.clear();
        into.extend(rows.by_key.range(keys).map(|(key, value)| Row { key: *key, value: *value }));
        into.len() as u64 == count
    }
}

impl Rows {
    /// A read begins: the keys of the range that have no row here.
    pub fn begin_read(&mut self, keys: Range<u64>) -> Vec<u64> {
        self.dropped.clear();
        keys.filter(|key| !self.by_key.contains_key(key)).collect()
    }

    /// A row that the server sent. It is kept unless a notice of its key came meanwhile.
    pub fn fill(&mut self, row: Row) {
        if !self.dropped.contains(&row.key) {
            self.by_key.insert(row.key, row.value);
        }
    }

    pub fn drop_key(&mut self, key: u64) {
        self.by_key.remove(&key);
        self.dropped.push(key);
    }

    pub fn drop_all(&mut self) {
        self.dropped.extend(self.by_key.keys());
        self.by_key.clear();
    }
}

#[cfg(test)]
mod tests {
    use super::*;

    #[test]
    fn an_answer_older_than_a_notice_is_not_kept() {
        let local = Local::default();
        let row = |key| Row { key, value: Value::from(key) };
        assert_eq!(local.lock().begin_read(0..3), [0, 1, 2]);
        local.lock().drop_key(1);
        (0..3).for_each(|key| local.lock().fill(row(key)));
        let mut rows = Vec::new();
        assert!(!local.scan(0..3, &mut rows));
        assert_eq!(local.lock().begin_read(0..3), [1]);
        local.lock().fill(row(1));
        assert!(local.scan(0..3, &mut rows));
        assert_eq!(rows, [row(0), row(1), row(2)]);
    }
}
