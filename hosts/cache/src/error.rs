//! Why a read failed.
use crate::key::Key;
use std::error::Error;
use std::fmt;
use std::io;
use tokio_postgres::error::SqlState;

/// Why a call of the reader failed. A read does not fail because krl or the extension does not
/// answer: then the database answers it.
#[derive(Debug)]
#[non_exhaustive]
pub enum ReadError {
    /// The database refused the call, or did not answer in time.
    Database {
        /// The code of what it reported, such as `SqlState::INSUFFICIENT_PRIVILEGE` of
        /// `tokio_postgres::error`. There is none if it was not reached, or did not answer in time.
        sqlstate: Option<SqlState>,
        /// What it reported, or what happened.
        why: String,
    },
    /// The database has no extension `krl`, or one of another version.
    NoExtension,
    /// The key is not one of the table, for this reason.
    Key(String),
    /// The key has several rows: [`Table::rows`](crate::Table::rows) reads all of them.
    SeveralRows(Key),
    /// The column of a row is not there, or is of another type, for this reason.
    Column(String),
    /// The folder of the lock files, a thread or a connection of this process was refused.
    System(io::Error),
}

impl ReadError {
    /// The database reported this.
    pub(crate) fn of_database(error: &tokio_postgres::Error) -> ReadError {
        let Some(reported) = error.as_db_error() else {
            let cause = error.source().map(ToString::to_string);
            return ReadError::without_code(cause.unwrap_or_else(|| error.to_string()));
        };
        let hint = reported.hint().map(|hint| format!(". {hint}")).unwrap_or_default();
        let (sqlstate, message) = (reported.code(), reported.message());
        let why = format!("{message} ({}){hint}", sqlstate.code());
        ReadError::Database { sqlstate: Some(sqlstate.clone()), why }
    }

    /// The database has reported nothing.
    pub(crate) fn without_code(why: String) -> ReadError {
        ReadError::Database { sqlstate: None, why }
    }

    /// The database has not answered in time.
    pub(crate) fn late() -> ReadError {
        ReadError::without_code("no answer came in time".to_string())
    }

    /// There is no table of this name any more.
    pub(crate) fn no_table(name: &str) -> ReadError {
        let why = format!("relation \"{name}\" does not exist");
        ReadError::Database { sqlstate: Some(SqlState::UNDEFINED_TABLE), why }
    }

    /// The same, of a question to the extension, which is not there or is one of another version.
    pub(crate) fn of_extension(self) -> ReadError {
        const MISSING: [SqlState; 4] = [
            SqlState::INVALID_SCHEMA_NAME,
            SqlState::UNDEFINED_TABLE,
            SqlState::UNDEFINED_COLUMN,
            SqlState::UNDEFINED_FUNCTION,
        ];
        match self {
            ReadError::Database { sqlstate: Some(code), .. } if MISSING.contains(&code) => {
                ReadError::NoExtension
            }
            other => other,
        }
    }

    /// The same, of an attempt to connect there.
    pub(crate) fn of_connect(self, address: &str) -> ReadError {
        match self {
            ReadError::Database { sqlstate, why } => {
                let why = format!("cannot connect to {address}: {why}");
                ReadError::Database { sqlstate, why }
            }
            other => other,
        }
    }

    /// Whether the database knows a name or a type no longer, or knows it as another one. A refused
    /// right is none of that, though it is of the same class.
    pub(crate) fn is_of_names(&self) -> bool {
        let refused = SqlState::INSUFFICIENT_PRIVILEGE.code();
        self.sqlstate().is_some_and(|code| code.starts_with("42") && code != refused)
    }

    /// Whether the database refuses a prepared statement, whose columns are those of an earlier table.
    pub(crate) fn is_of_statement(&self) -> bool {
        const REFUSALS: [SqlState; 2] =
            [SqlState::FEATURE_NOT_SUPPORTED, SqlState::INVALID_SQL_STATEMENT_NAME];
        matches!(self, ReadError::Database { sqlstate: Some(code), .. } if REFUSALS.contains(code))
    }

    /// Whether the database refuses a connection to this role, or has no such database. A database
    /// that is away, starts or has no connection left refuses nothing.
    pub(crate) fn is_refused_connection(&self) -> bool {
        const REFUSALS: [SqlState; 5] = [
            SqlState::INVALID_AUTHORIZATION_SPECIFICATION,
            SqlState::INVALID_PASSWORD,
            SqlState::INSUFFICIENT_PRIVILEGE,
            SqlState::INVALID_CATALOG_NAME,
            // The database admits no connections.
            SqlState::OBJECT_NOT_IN_PREREQUISITE_STATE,
        ];
        matches!(self, ReadError::Database { sqlstate: Some(code), .. } if REFUSALS.contains(code))
    }

    /// What the database reported, as five characters. There are none if it reported nothing, or the
    /// error is none of the database.
    #[must_use]
    pub fn sqlstate(&self) -> Option<&str> {
        match self {
            ReadError::Database { sqlstate, .. } => sqlstate.as_ref().map(SqlState::code),
            _ => None,
        }
    }

    pub(crate) fn no_column(name: &str) -> ReadError {
        ReadError::Column(format!("the table has no column \"{name}\""))
    }
}

impl fmt::Display for ReadError {
    fn fmt(&self, f: &mut fmt::Formatter<'_>) -> fmt::Result {
        match self {
            ReadError::Database { why, .. } => write!(f, "the database: {why}"),
            ReadError::NoExtension => f.write_str(concat!(
                "the database has no extension krl of version ",
                env!("CARGO_PKG_VERSION"),
                ": install it there, and call CREATE EXTENSION krl, or ALTER EXTENSION krl UPDATE, \
                 as a superuser",
            )),
            ReadError::Key(why) | ReadError::Column(why) => f.write_str(why),
            ReadError::SeveralRows(key) => {
                write!(f, "the key {key} has several rows: read them by Table::rows")
            }
            ReadError::System(error) => error.fmt(f),
        }
    }
}

impl Error for ReadError {
    fn source(&self) -> Option<&(dyn Error + 'static)> {
        match self {
            ReadError::System(error) => Some(error),
            _ => None,
        }
    }
}

impl From<io::Error> for ReadError {
    fn from(error: io::Error) -> ReadError {
        ReadError::System(error)
    }
}

#[cfg(test)]
mod tests {
    use super::*;

    #[test]
    fn a_database_that_is_away_refuses_no_connection() {
        let error = |code: &str| {
            let sqlstate = Some(SqlState::from_code(code));
            ReadError::Database { sqlstate, why: String::new() }
        };
        let refused = ["28000", "28P01", "42501", "3D000", "55000"];
        assert!(refused.iter().all(|code| error(code).is_refused_connection()));
        let away = ["57P01", "57P03", "53300", "08006", "57014", "XX000"];
        assert!(!away.iter().any(|code| error(code).is_refused_connection()));
        assert!(!ReadError::late().is_refused_connection());
    }
}
