//! A connection to the database.
use crate::error::ReadError;
use crate::key::Stripe;
use crate::row::{Column, Row};
use crate::sql::{
    AS_THE_ROLE, FULL_NAME, MAY_CONNECT, QUIET, SETTINGS, Selection, TableSql, Values,
};
use futures_util::future::{join, select};
use krl_postgres::{Carrier, Connector};
use std::cell::Cell;
use std::collections::{BTreeSet, HashMap};
use std::convert::Infallible;
use std::pin::pin;
use std::sync::Arc;
use std::time::{Duration, Instant};
use tokio::runtime::{Builder, Runtime};
use tokio::time::{sleep, timeout_at};
use tokio_postgres::error::Severity;
use tokio_postgres::types::ToSql;
use tokio_postgres::{CancelToken, Client, Error, Statement};

/// This many statements are kept: a table has a few, and new ones when its columns change.
const MOST_STATEMENTS: usize = 256;

/// A question is repeated after this many changes of columns.
const MOST_CHANGES: usize = 3;

/// The pause before a statement is canceled once again. Of two that were sent together a cancel ends
/// only the one at which the database works.
const CANCEL_AGAIN: Duration = Duration::from_millis(100);

/// A connection that is silent for so long after its statement was canceled has been lost.
const LOST: Duration = Duration::from_secs(10);

/// A connection. One thread at a time uses it.
pub(crate) struct Session {
    runtime: Runtime,
    client: Client,
    prepared: HashMap<String, Prepared>,
    carrier: Carrier,
    /// Until when the database may answer.
    end: Instant,
    fate: Cell<Fate>,
}

/// What becomes of a connection after the last question.
#[derive(Clone, Copy, Debug, PartialEq, Eq)]
pub(crate) enum Fate {
    /// The database has answered, or refused. Another connection would get the same.
    Usable,
    /// It has ended, and has answered nothing.
    Ended,
    /// No answer came in time: the database may still be at work.
    Late,
}

/// A connection that nobody waits for any more, and whose statement the database is to end.
pub(crate) struct Ending {
    runtime: Runtime,
    token: CancelToken,
    carrier: Carrier,
    /// From when on it counts as lost.
    pub lost: Instant,
}

/// A statement, and its columns without the first one.
#[derive(Clone)]
struct Prepared {
    statement: Statement,
    columns: Arc<[Column]>,
}

/// Stripes of a table of which a reader wants to keep rows.
pub(crate) struct Quiet<'s> {
    /// The value of krl's mark of all tables.
    pub nonce: i64,
    /// The key of krl of the table's mark.
    pub mark: u32,
    pub stripes: &'s BTreeSet<Stripe>,
}

/// The stripes that are quiet, or why the extension has not answered; and rows that were selected
/// after that.
type Selected = (Result<BTreeSet<Stripe>, ReadError>, Vec<(i64, Row)>);

impl Session {
    /// Connects, unless that takes longer.
    pub fn connect(connector: &Connector, end: Instant) -> Result<Session, ReadError> {
        let runtime = Builder::new_current_thread().enable_all().build()?;
        let connecting = async {
            let (client, carrier) = connector.connect().await?;
            client.batch_execute(SETTINGS).await?;
            Ok((client, carrier))
        };
        let fate = Cell::new(Fate::Usable);
        let connected = run(&runtime, end, &fate, connecting);
        let (client, carrier) = connected.map_err(|error| error.of_connect(connector.address()))?;
        Ok(Session { runtime, client, prepared: HashMap::new(), carrier, end, fate })
    }

    /// The next questions are to be answered until then.
    pub fn set_end(&mut self, end: Instant) {
        self.end = end;
    }

    /// What becomes of the connection after the last question.
    pub fn fate(&self) -> Fate {
        if self.client.is_closed() { Fate::Ended } else { self.fate.get() }
    }

    /// Gives the connection up. It ends by itself when the database has answered what was asked.
    pub fn give_up(self) -> Ending {
        let token = self.client.cancel_token();
        let Session { runtime, carrier, .. } = self;
        Ending { runtime, token, carrier, lost: Instant::now() + LOST }
    }

    /// Asks over this connection, and again if a statement was prepared for other columns than the
    /// table has now.
    pub fn ask<T>(
        &mut self,
        ask: impl Fn(&mut Session) -> Result<T, ReadError>,
    ) -> Result<T, ReadError> {
        for _ in 0..MOST_CHANGES {
            match ask(self) {
                Err(error) if error.is_of_statement() => self.prepared.clear(),
                answer => return answer,
            }
        }
        ask(self)
    }

    /// The full name of a table that the role's own search path finds by this one.
    pub fn full_name(&self, name: &str) -> Result<String, ReadError> {
        self.run(async {
            self.client.batch_execute(AS_THE_ROLE).await?;
            let found = self.client.query_one(FULL_NAME, &[&name]).await;
            self.client.batch_execute("ROLLBACK").await?;
            found?.try_get(0)
        })
    }

    /// Whether the role may log in and connect to the database now. One that is gone may not.
    pub fn may_connect(&self) -> Result<bool, ReadError> {
        let found = self.query(MAY_CONNECT, &[])?;
        Ok(found.first().is_some_and(|row| row.try_get(0).unwrap_or(false)))
    }

    /// The rows of an answer.
    pub fn query(
        &self,
        sql: &str,
        values: &[&(dyn ToSql + Sync)],
    ) -> Result<Vec<tokio_postgres::Row>, ReadError> {
        self.run(self.client.query(sql, values))
    }

    /// The rows of an answer of the extension.
    pub fn ask_extension(
        &self,
        sql: &str,
        values: &[&(dyn ToSql + Sync)],
    ) -> Result<Vec<tokio_postgres::Row>, ReadError> {
        self.query(sql, values).map_err(ReadError::of_extension)
    }

    /// Selects rows.
    pub fn select(
        &mut self,
        sql: &TableSql,
        selection: &Selection<'_>,
    ) -> Result<Vec<(i64, Row)>, ReadError> {
        let (text, values) = selection.statement(sql);
        let Prepared { statement, columns } = self.prepare(text)?;
        let values = borrowed(&values);
        rows_of(&columns, &self.run(self.client.query(&statement, &values))?)
    }

    /// Asks which of these stripes are quiet, and selects rows after that.
    pub fn select_if_quiet(
        &mut self,
        sql: &TableSql,
        quiet: &Quiet<'_>,
        selection: &Selection<'_>,
    ) -> Result<Selected, ReadError> {
        if quiet.stripes.is_empty() {
            return Ok((Ok(BTreeSet::new()), self.select(sql, selection)?));
        }
        let asking = match self.prepare(QUIET) {
            Ok(asking) => asking,
            Err(error) => return Ok((Err(error.of_extension()), self.select(sql, selection)?)),
        };
        let (text, values) = selection.statement(sql);
        let Prepared { statement, columns } = self.prepare(text)?;
        let stripes: Vec<i32> = quiet.stripes.iter().map(|it| it.0.cast_signed()).collect();
        let mark = quiet.mark.cast_signed();
        let of_quiet: [&(dyn ToSql + Sync); 4] = [&quiet.nonce, &sql.table, &mark, &stripes];
        let of_selection = borrowed(&values);
        // The first one is polled, and so sent, first. Each is a transaction of its own, so the
        // snapshot of the rows is taken when all stripes have been looked at.
        let both = async {
            let asking = self.client.query(&asking.statement, &of_quiet);
            let selecting = self.client.query(&statement, &of_selection);
            let (quiet, rows) = join(asking, selecting).await;
            Ok((quiet.and_then(|answer| stripes_of(&answer)), rows?))
        };
        let (quiet, rows) = self.run(both)?;
        let quiet = quiet.map_err(|error| ReadError::of_database(&error).of_extension());
        Ok((quiet, rows_of(&columns, &rows)?))
    }

    fn prepare(&mut self, sql: &str) -> Result<Prepared, ReadError> {
        if let Some(prepared) = self.prepared.get(sql) {
            return Ok(prepared.clone());
        }
        let statement = self.run(self.client.prepare(sql))?;
        let columns = statement.columns().iter().skip(1);
        let columns = columns.map(|column| Column::new(column.name(), column.type_().clone()));
        let prepared = Prepared { columns: columns.collect(), statement };
        if self.prepared.len() >= MOST_STATEMENTS {
            self.prepared.clear();
        }
        self.prepared.insert(sql.to_string(), prepared.clone());
        Ok(prepared)
    }

    fn run<T>(&self, asking: impl Future<Output = Result<T, Error>>) -> Result<T, ReadError> {
        run(&self.runtime, self.end, &self.fate, asking)
    }
}

impl Ending {
    /// Cancels the statement again and again until it has ended in the database, and with it the
    /// connection, or until this moment. Returns whether it has ended.
    pub fn has_ended(&mut self, connector: &Connector, by: Instant) -> bool {
        let Ending { runtime, token, carrier, .. } = self;
        runtime.block_on(async {
            let (canceling, ended) = (pin!(cancel_again(connector, token)), pin!(carrier.ended()));
            timeout_at(by.into(), select(canceling, ended)).await.is_ok()
        })
    }
}

async fn cancel_again(connector: &Connector, token: &CancelToken) -> Infallible {
    loop {
        // What is not canceled now is later.
        let _ = connector.cancel(token).await;
        sleep(CANCEL_AGAIN).await;
    }
}

/// Waits for an answer until this moment, and notes what becomes of the connection.
fn run<T>(
    runtime: &Runtime,
    end: Instant,
    fate: &Cell<Fate>,
    asking: impl Future<Output = Result<T, Error>>,
) -> Result<T, ReadError> {
    let answer = runtime.block_on(async { timeout_at(end.into(), asking).await });
    let (fate_now, answer) = match answer {
        Ok(Ok(answer)) => (Fate::Usable, Ok(answer)),
        Ok(Err(error)) => (fate_after(&error), Err(ReadError::of_database(&error))),
        Err(_) => (Fate::Late, Err(ReadError::late())),
    };
    fate.set(fate_now);
    answer
}

/// What becomes of a connection whose question has failed so.
fn fate_after(error: &Error) -> Fate {
    let Some(reported) = error.as_db_error() else { return Fate::Ended };
    match reported.parsed_severity() {
        Some(Severity::Fatal | Severity::Panic) => Fate::Ended,
        _ => Fate::Usable,
    }
}

fn borrowed<'v>(values: &'v Values<'_>) -> Vec<&'v (dyn ToSql + Sync)> {
    values.iter().map(|value| &**value as &(dyn ToSql + Sync)).collect()
}

/// The stripes of an answer.
fn stripes_of(answer: &[tokio_postgres::Row]) -> Result<BTreeSet<Stripe>, Error> {
    let stripes: Vec<i32> = answer.first().map_or(Ok(Vec::new()), |row| row.try_get(0))?;
    Ok(stripes.into_iter().map(|stripe| Stripe(stripe.cast_unsigned())).collect())
}

/// The number and the row of each row of an answer.
fn rows_of(
    columns: &Arc<[Column]>,
    sent: &[tokio_postgres::Row],
) -> Result<Vec<(i64, Row)>, ReadError> {
    let row = |sent: &tokio_postgres::Row| Ok((sent.try_get(0)?, Row::of(columns, sent)?));
    let rows: Result<_, Error> = sent.iter().map(row).collect();
    rows.map_err(|error| ReadError::of_database(&error))
}
