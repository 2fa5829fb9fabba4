//! The rows of a key, as they are kept and loaded.
use crate::held::Held;
use crate::key::Key;
use crate::row::{ReadMark, Row};
use std::slice;
use std::sync::Arc;

/// About how many bytes a key takes besides its rows.
const OVERHEAD: usize = 128;

/// All rows of a key: mostly one; none, if the table has none. A clone is cheap: it has the same rows.
#[derive(Clone, Debug)]
pub(crate) enum Rows {
    One(Row),
    Others(Arc<Others>),
}

#[derive(Debug)]
pub(crate) struct Others {
    rows: Box<[Row]>,
    mark: ReadMark,
}

/// Rows that were loaded, and what they are held by if they were kept.
pub(crate) type Loaded = (Rows, Option<Held>);

impl Rows {
    pub fn new(rows: Vec<Row>) -> Rows {
        match <[Row; 1]>::try_from(rows) {
            Ok([row]) => Rows::One(row),
            Err(rows) => {
                let (rows, mark) = (rows.into(), ReadMark::default());
                Rows::Others(Arc::new(Others { rows, mark }))
            }
        }
    }

    pub fn as_slice(&self) -> &[Row] {
        match self {
            Rows::One(row) => slice::from_ref(row),
            Rows::Others(others) => &others.rows,
        }
    }

    /// Whether they were read from memory since they were kept, or since room was needed.
    pub fn mark(&self) -> &ReadMark {
        match self {
            Rows::One(row) => row.mark(),
            Rows::Others(others) => &others.mark,
        }
    }

    pub fn size(&self, key: &Key) -> usize {
        OVERHEAD + key.size() + self.as_slice().iter().map(Row::size).sum::<usize>()
    }
}
