//! A row as PostgreSQL sends it.
use crate::error::ReadError;
use std::fmt;
use std::sync::Arc;
use std::sync::atomic::{AtomicBool, Ordering};
use tokio_postgres::types::{FromSql, Type, WasNull, WrongType};

/// The length that stands for NULL.
const NULL: i32 = -1;

/// How many bytes a length takes.
const LENGTH: usize = size_of::<i32>();

/// A column of the rows of a table.
#[derive(Clone, Debug, PartialEq, Eq)]
pub struct Column {
    name: Box<str>,
    sql_type: Type,
}

impl Column {
    /// A column of this name and type.
    pub(crate) fn new(name: &str, sql_type: Type) -> Column {
        Column { name: name.into(), sql_type }
    }

    /// The column's name.
    #[must_use]
    pub fn name(&self) -> &str {
        &self.name
    }

    /// The column's type.
    #[must_use]
    pub fn sql_type(&self) -> &Type {
        &self.sql_type
    }
}

/// A row: the columns of the table, as PostgreSQL sends them in its binary format. They are
/// converted when they are read. A clone is cheap: it is the same row.
///
/// ```no_run
/// # fn show(row: &krl_cache::Row) -> Result<(), krl_cache::ReadError> {
/// let name: &str = row.get("name")?;
/// let price: Option<i64> = row.get("price")?; // NULL is None
/// # Ok(())
/// # }
/// ```
#[derive(Clone)]
pub struct Row(Arc<Content>);

struct Content {
    columns: Arc<[Column]>,
    /// Of each column the length, and the bytes if it is not [`NULL`].
    values: Box<[u8]>,
    /// Of the rows of its key, if it is the only one.
    mark: ReadMark,
}

/// Whether rows were read from memory.
#[derive(Debug, Default)]
pub(crate) struct ReadMark(AtomicBool);

/// The bytes of a column, of whatever type.
struct Bytes<'r>(&'r [u8]);

impl<'r> FromSql<'r> for Bytes<'r> {
    fn from_sql(
        _: &Type,
        bytes: &'r [u8],
    ) -> Result<Bytes<'r>, Box<dyn std::error::Error + Sync + Send>> {
        Ok(Bytes(bytes))
    }

    fn accepts(_: &Type) -> bool {
        true
    }
}

impl ReadMark {
    pub fn set(&self) {
        // What is set is not written again: other processors read it.
        if !self.is_set() {
            self.0.store(true, Ordering::Relaxed);
        }
    }

    pub fn is_set(&self) -> bool {
        self.0.load(Ordering::Relaxed)
    }

    /// Whether it was set. It is not from now on.
    pub fn take(&self) -> bool {
        self.0.swap(false, Ordering::Relaxed)
    }
}

impl Row {
    /// The row without its first column, which is not of the table.
    pub(crate) fn of(
        columns: &Arc<[Column]>,
        sent: &tokio_postgres::Row,
    ) -> Result<Row, tokio_postgres::Error> {
        let sent_values = (1..sent.len()).map(|place| sent.try_get(place));
        let sent_values: Vec<Option<Bytes<'_>>> = sent_values.collect::<Result<_, _>>()?;
        Ok(Row::of_values(columns, sent_values.iter().map(|value| value.as_ref().map(|it| it.0))))
    }

    fn of_values<'v>(columns: &Arc<[Column]>, sent: impl Iterator<Item = Option<&'v [u8]>>) -> Row {
        let mut values = Vec::new();
        for value in sent {
            let length = value.map_or(NULL, |value| i32::try_from(value.len()).unwrap_or(NULL));
            values.extend_from_slice(&length.to_ne_bytes());
            values.extend_from_slice(value.unwrap_or_default());
        }
        let (columns, values) = (Arc::clone(columns), values.into());
        Row(Arc::new(Content { columns, values, mark: ReadMark::default() }))
    }

    pub(crate) fn mark(&self) -> &ReadMark {
        &self.0.mark
    }

    /// The columns, in the order of the table.
    #[must_use]
    pub fn columns(&self) -> &[Column] {
        &self.0.columns
    }

    /// The bytes of the column at this place, from 0 on, in PostgreSQL's binary format; `None` if
    /// it is NULL.
    ///
    /// # Panics
    ///
    /// If there is no such column.
    #[must_use]
    pub fn bytes(&self, place: usize) -> Option<&[u8]> {
        let (columns, mut rest) = (self.columns(), self.packed());
        assert!(place < columns.len(), "a row of {} columns", columns.len());
        for _ in 0..place {
            rest = next(rest).1;
        }
        next(rest).0
    }

    /// The value of the column of this name.
    ///
    /// # Errors
    ///
    /// [`ReadError::Column`] if there is no such column, or its type does not fit.
    pub fn get<'r, T: FromSql<'r>>(&'r self, name: &str) -> Result<T, ReadError> {
        let place = self.columns().iter().position(|column| &*column.name == name);
        self.get_at(place.ok_or_else(|| ReadError::no_column(name))?)
    }

    /// The value of the column at this place, from 0 on.
    ///
    /// # Errors
    ///
    /// [`ReadError::Column`] if its type does not fit.
    ///
    /// # Panics
    ///
    /// If there is no such column.
    pub fn get_at<'r, T: FromSql<'r>>(&'r self, place: usize) -> Result<T, ReadError> {
        let column = &self.columns()[place];
        let value = if T::accepts(&column.sql_type) {
            T::from_sql_nullable(&column.sql_type, self.bytes(place))
        } else {
            Err(WrongType::new::<T>(column.sql_type.clone()).into())
        };
        value.map_err(|error| match error.downcast_ref::<WasNull>() {
            Some(WasNull) => misfit(column, &"it is NULL: read an Option"),
            None => misfit(column, &error),
        })
    }

    /// The bytes of all columns one after another, for a program that converts them by itself: of
    /// each column its length, as an `i32` in the byte order of this machine, and its bytes as
    /// [`Row::bytes`] returns them. The length of NULL is -1, and no bytes follow it.
    #[must_use]
    pub fn packed(&self) -> &[u8] {
        &self.0.values
    }

    /// About how many bytes of memory the row takes.
    pub(crate) fn size(&self) -> usize {
        size_of::<Row>() + size_of::<Content>() + self.packed().len()
    }
}

/// The first value, and the rest.
fn next(values: &[u8]) -> (Option<&[u8]>, &[u8]) {
    let Some((length, rest)) = values.split_first_chunk::<LENGTH>() else { return (None, &[]) };
    match usize::try_from(i32::from_ne_bytes(*length)) {
        Ok(length) => (Some(&rest[..length]), &rest[length..]),
        Err(_) => (None, rest),
    }
}

impl PartialEq for Row {
    /// Whether the rows have the same columns with the same bytes.
    fn eq(&self, other: &Row) -> bool {
        self.columns() == other.columns() && self.packed() == other.packed()
    }
}

impl fmt::Debug for Row {
    fn fmt(&self, f: &mut fmt::Formatter<'_>) -> fmt::Result {
        let value = |place: usize| (self.columns()[place].name(), self.bytes(place));
        f.debug_map().entries((0..self.columns().len()).map(value)).finish()
    }
}

/// The value of a column does not fit the type in the program.
fn misfit(column: &Column, why: &dyn fmt::Display) -> ReadError {
    let (name, sql_type) = (column.name(), column.sql_type());
    ReadError::Column(format!(
        "the column \"{name}\" ({sql_type}) does not fit its type in the program: {why}"
    ))
}

#[cfg(test)]
pub(crate) mod tests {
    use super::*;

    /// A row of a text and a bigint that may be NULL.
    pub fn row(name: &str, price: Option<i64>) -> Row {
        let columns = [Column::new("name", Type::TEXT), Column::new("price", Type::INT8)];
        let price = price.map(i64::to_be_bytes);
        let values = [Some(name.as_bytes()), price.as_ref().map(|price| &price[..])];
        Row::of_values(&columns.into(), values.into_iter())
    }

    #[test]
    fn values_are_converted_when_they_are_read() {
        let lamp = row("lamp", Some(30));
        assert_eq!(lamp.get::<&str>("name").unwrap(), "lamp");
        assert_eq!(lamp.get::<i64>("price").unwrap(), 30);
        assert_eq!(lamp.bytes(1), Some(&30_i64.to_be_bytes()[..]));
        assert_eq!(lamp.get_at::<i64>(1).unwrap(), 30);
        let empty = row("", None);
        assert_eq!(empty.get::<String>("name").unwrap(), "");
        assert_eq!(empty.get::<Option<i64>>("price").unwrap(), None);
        assert_eq!((empty.bytes(0), empty.bytes(1)), (Some(&b""[..]), None));
        assert!(lamp == lamp.clone() && lamp != empty);
    }

    #[test]
    fn a_packed_row_has_the_length_and_the_bytes_of_each_column() {
        let [of_name, of_null] = [4_i32, NULL].map(i32::to_ne_bytes);
        assert_eq!(row("lamp", None).packed(), [&of_name, &b"lamp"[..], &of_null].concat());
    }

    #[test]
    fn what_does_not_fit_is_reported_with_its_column() {
        let lamp = row("lamp", None);
        let refused = |error: ReadError| error.to_string();
        let null = refused(lamp.get::<i64>("price").unwrap_err());
        assert!(null.contains("\"price\" (int8)") && null.contains("NULL"), "{null}");
        let other = refused(lamp.get::<i32>("price").unwrap_err());
        assert!(other.contains("i32"), "{other}");
        let missing = refused(lamp.get::<i64>("weight").unwrap_err());
        assert_eq!(missing, "the table has no column \"weight\"");
    }
}
