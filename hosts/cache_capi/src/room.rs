//! Room for the rows of an answer.
use crate::code::Code;
use crate::fault::Fault;
use krl_cache::Row;

/// Rows by their places. A key that was asked for may have none.
#[derive(Clone, Debug, Default)]
pub struct Room(Vec<Option<Row>>);

impl Room {
    /// The rows of the last answer are gone, also if the next read fails.
    pub fn clear(&mut self) {
        self.0.clear();
    }

    /// The row of one key is the only one, if it has one.
    pub fn put_one(&mut self, row: Option<Row>) -> Code {
        if row.is_none() {
            return Code::Absent;
        }
        self.0.push(row);
        Code::Ok
    }

    /// Rows of keys, some of which may have none.
    pub fn put_of_keys(&mut self, rows: Vec<Option<Row>>) -> Code {
        self.0 = rows;
        Code::Ok
    }

    pub fn put_all(&mut self, rows: Vec<Row>) -> Code {
        self.0.extend(rows.into_iter().map(Some));
        Code::Ok
    }

    pub fn count(&self) -> usize {
        self.0.len()
    }

    /// The row at this place, if there is one.
    pub fn row(&self, place: usize) -> Option<&Row> {
        self.0.get(place)?.as_ref()
    }

    /// The row at this place, or none if its key has none.
    pub fn row_of_key(&self, place: usize) -> Result<Option<&Row>, Fault> {
        let row = self.0.get(place).map(Option::as_ref);
        let count = self.count();
        row.ok_or_else(|| Fault::misuse(format!("there is no place {place} in {count} rows")))
    }
}
