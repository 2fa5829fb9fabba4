//! Times at which the readers may not reach their rows: nothing is answered then, also from memory.
use super::Drive;
use crate::clients::ENDING;
use crate::log::now;
use crate::waiting::until;
use krl_testing::database::Sql;
use std::error::Error;
use std::ops::Range;
use std::time::Duration;

/// The role as which the readers connect.
const READER: &str = "reader";

/// For how long it may not.
const CLOSED: Duration = Duration::from_millis(500);

type Done = Result<(), Box<dyn Error>>;

/// The address of the database for the readers.
pub fn address_of_reader(database: &str) -> String {
    database.replacen("//krl@", &format!("//{READER}@"), 1)
}

/// That of another database of the same server.
fn address_of_another(database: &str) -> String {
    let (server, _) = database.rsplit_once('/').unwrap_or((database, ""));
    format!("{server}/template1")
}

/// Ends the sessions of which this is true, and waits until they have ended.
fn end_sessions(of: &str) -> String {
    format!("SELECT pg_terminate_backend(pid, 5000) FROM pg_stat_activity WHERE {of}")
}

impl Drive {
    /// For some time the role of the readers may not log in, and has no session.
    pub fn close_role(&mut self) -> Done {
        let close = [
            format!("ALTER ROLE {READER} NOLOGIN"),
            end_sessions(&format!("usename = '{READER}'")),
        ];
        let closed = self.sql().is_some_and(|sql| are_run(&sql, &close));
        self.stay_closed(closed)?;
        self.repeat(&[&format!("ALTER ROLE {READER} LOGIN")], Drive::sql)
    }

    /// For some time another name is that of the database.
    pub fn rename_database(&mut self) -> Done {
        let rename = [
            "ALTER DATABASE postgres ALLOW_CONNECTIONS false".to_string(),
            end_sessions("datname = 'postgres'"),
            // It is not renamed if it has prepared transactions.
            "ALTER DATABASE postgres RENAME TO another".to_string(),
        ];
        let renamed = self.sql_of_another().is_some_and(|sql| are_run(&sql, &rename));
        self.stay_closed(renamed)?;
        let name_again =
            "DO $$ BEGIN IF EXISTS (SELECT FROM pg_database WHERE datname = 'another') THEN
            ALTER DATABASE another RENAME TO postgres; END IF; END $$";
        let open = "ALTER DATABASE postgres ALLOW_CONNECTIONS true";
        self.repeat(&[name_again, open], Drive::sql_of_another)
    }

    /// Waits, and notes when nothing may have been read.
    fn stay_closed(&mut self, is_closed: bool) -> Done {
        if is_closed {
            let from = now();
            self.tend_for(CLOSED)?;
            self.closed.push(from..now());
        }
        Ok(())
    }

    /// Runs statements again and again until they succeed, whatever befalls the database.
    pub fn repeat(&mut self, statements: &[&str], connect: impl Fn(&Drive) -> Option<Sql>) -> Done {
        let late = format!("it does not succeed: {}", statements.join("; "));
        until(ENDING, &late, || {
            self.tend()?;
            Ok(connect(self).is_some_and(|sql| are_run(&sql, statements)).then_some(()))
        })
    }

    fn sql_of_another(&self) -> Option<Sql> {
        Sql::connect(&address_of_another(&self.database.address::<String>())).ok()
    }
}

/// Runs one statement after the other, and returns whether all of them succeeded.
fn are_run(sql: &Sql, statements: &[impl AsRef<str>]) -> bool {
    statements.iter().all(|statement| sql.try_run(statement.as_ref()).is_ok())
}

/// Whether a call between these moments lies within a time at which nothing may be read.
pub fn is_within(closed: &[Range<u64>], from: u64, to: u64) -> bool {
    closed.iter().any(|closed| closed.start < from && to < closed.end)
}

#[cfg(test)]
mod tests {
    use super::*;

    #[test]
    fn the_readers_have_a_role_of_their_own() {
        let database = "postgres://krl@127.0.0.1:5432/postgres";
        assert_eq!(address_of_reader(database), "postgres://reader@127.0.0.1:5432/postgres");
        assert_eq!(address_of_another(database), "postgres://krl@127.0.0.1:5432/template1");
    }

    #[test]
    fn what_begins_before_or_ends_after_is_not_within() {
        let closed = [3..9, 20..30];
        assert!(is_within(&closed, 4, 8) && is_within(&closed, 21, 29));
        for (from, to) in [(3, 8), (4, 9), (1, 2), (8, 21), (10, 19)] {
            assert!(!is_within(&closed, from, to), "{from} {to}");
        }
    }
}
