//! A connection to the database, which is made again when it ends.
use crate::asker::{self, Asker};
use crate::batch::{self, Batch};
use crate::connector::{Carrier, Connector};
use crate::head::{fence_of, owner_text};
use crate::sql;
use krl::store::fence::{Failure, Fence};
use std::thread;
use std::time::{Duration, Instant};
use tokio_postgres::error::SqlState;
use tokio_postgres::types::ToSql;
use tokio_postgres::{Client, Error, IsolationLevel, Row, Statement};

/// The pause before another attempt.
const PAUSE_BETWEEN_TRIES: Duration = Duration::from_millis(50);

/// This many attempts are made if each one's connection is silent: a connection that the database,
/// or the network, has lost without notice is left for a new one.
const ATTEMPTS: u32 = 3;

/// What an error of TLS contains after which another attempt fails too.
const REFUSED_BY_TLS: [&str; 2] = ["certificate verify failed", "server does not support TLS"];

/// What a load finds.
pub(crate) struct Loaded {
    /// Whether the database writes to the disk what it reports as written.
    pub is_safe: bool,
    /// `None` if there is no store: the first commit makes one.
    pub stored: Option<Stored>,
}

/// All that is stored, as it was at one moment.
pub(crate) struct Stored {
    pub head: Row,
    pub starts: Vec<Row>,
    pub entries: Vec<Row>,
    pub clients: Vec<Row>,
    pub leases: Row,
    /// The greatest room of a server, if one is kept.
    pub room: Option<Row>,
    /// Which shard the store is of, if it keeps one.
    pub shard: Option<Row>,
}

pub(crate) struct Link(Asker<Session>);

/// A connection, with what is asked often.
struct Session {
    client: Client,
    /// `None` until the connection has seen that all tables are there.
    statements: Option<Statements>,
    _carrier: Carrier,
}

/// What is asked often.
#[derive(Clone)]
struct Statements {
    commit: Statement,
    confirm: Statement,
}

impl Link {
    pub fn new(connector: Connector) -> std::io::Result<Link> {
        Ok(Link(Asker::new(connector)?))
    }

    /// Connects, if it has no connection.
    pub fn connect(&mut self, end: Instant) -> Result<(), Failure> {
        self.ask(end, async |_: &mut Session| Ok(()))
    }

    /// Loads all.
    pub fn load(&mut self, end: Instant) -> Result<Loaded, Failure> {
        self.again(end, |link, end| {
            link.ask(end, async |session: &mut Session| load(session).await)
        })
    }

    /// Commits what the batch sets, and `next` as the head, if the head is `last`. Returns the
    /// head as it stands then.
    pub fn commit(
        &mut self,
        last: &Fence,
        next: &Fence,
        batch: &Batch,
        end: Instant,
    ) -> Result<Option<Fence>, Failure> {
        self.again(end, |link, end| {
            link.ask(end, async |session: &mut Session| commit(session, last, next, batch).await)
        })
    }

    /// Removes all, if the head is `last`. Returns the head as it stands then: that of no store.
    pub fn remove(&mut self, last: &Fence, end: Instant) -> Result<Option<Fence>, Failure> {
        self.again(end, |link, end| {
            link.ask(end, async |session: &mut Session| remove(session, last).await)
        })
    }

    /// The head as it stands, on every machine that a commit comes to.
    pub fn confirm(&mut self, head: &Fence, end: Instant) -> Result<Option<Fence>, Failure> {
        self.again(end, |link, end| {
            link.ask(end, async |session: &mut Session| confirm(session, head).await)
        })
    }

    /// The value of a setting of the session.
    #[cfg(test)]
    pub fn setting(&mut self, name: &str, end: Instant) -> Result<String, Failure> {
        self.ask(end, async |session: &mut Session| {
            session.client.query_one("SELECT current_setting($1)", &[&name]).await?.try_get(0)
        })
    }

    /// Does something that may be done more than once, until it is answered or the time is over.
    /// Each attempt has a part of the time.
    fn again<T>(
        &mut self,
        end: Instant,
        mut what: impl FnMut(&mut Link, Instant) -> Result<T, Failure>,
    ) -> Result<T, Failure> {
        let attempt = end.saturating_duration_since(Instant::now()) / ATTEMPTS;
        loop {
            match what(self, end.min(Instant::now() + attempt)) {
                Err(Failure::Unknown(_)) if Instant::now() + PAUSE_BETWEEN_TRIES < end => {
                    thread::sleep(PAUSE_BETWEEN_TRIES);
                }
                ended => return ended,
            }
        }
    }

    fn ask<T>(
        &mut self,
        end: Instant,
        what: impl AsyncFnOnce(&mut Session) -> Result<T, Error>,
    ) -> Result<T, Failure> {
        self.0.ask(end.saturating_duration_since(Instant::now()), what)
    }
}

impl asker::Session for Session {
    async fn open(connector: &Connector) -> Result<Session, Error> {
        let (client, carrier) = connector.connect().await?;
        client.batch_execute(sql::SESSION).await?;
        Ok(Session { client, statements: None, _carrier: carrier })
    }

    fn client(&self) -> &Client {
        &self.client
    }
}

impl Session {
    /// What is asked often. It makes the tables, unless they are there.
    async fn statements(&mut self) -> Result<Statements, Error> {
        if let Some(statements) = &self.statements {
            return Ok(statements.clone());
        }
        if !is_so(&self.client, sql::HAS_TABLES).await? {
            self.client.batch_execute(sql::TABLES).await?;
        }
        let commit = self.client.prepare(sql::COMMIT).await?;
        let confirm = self.client.prepare(sql::CONFIRM).await?;
        Ok(self.statements.insert(Statements { commit, confirm }).clone())
    }
}

async fn is_so(client: &Client, question: &str) -> Result<bool, Error> {
    client.query_one(question, &[]).await?.try_get(0)
}

/// Loads what is there, and makes nothing where there is no store: whether one may be made is for
/// the server to judge. A store that an older version made gets the tables that it lacks.
async fn load(session: &mut Session) -> Result<Loaded, Error> {
    let is_safe = is_so(&session.client, sql::IS_SAFE).await?;
    if !is_so(&session.client, sql::HAS_STORE).await? {
        return Ok(Loaded { is_safe, stored: None });
    }
    session.statements().await?;
    let all = session.client.build_transaction().isolation_level(IsolationLevel::RepeatableRead);
    let all = all.read_only(true).start().await?;
    let stored = Stored {
        head: all.query_one(sql::HEAD, &[]).await?,
        starts: all.query(sql::STARTS, &[]).await?,
        entries: all.query(sql::ENTRIES, &[]).await?,
        clients: all.query(sql::CLIENTS, &[]).await?,
        leases: all.query_one(sql::LEASES, &[]).await?,
        room: all.query_opt(sql::ROOM, &[]).await?,
        shard: all.query_opt(sql::SHARD, &[]).await?,
    };
    all.commit().await?;
    Ok(Loaded { is_safe, stored: Some(stored) })
}

async fn commit(
    session: &mut Session,
    last: &Fence,
    next: &Fence,
    batch: &Batch,
) -> Result<Option<Fence>, Error> {
    let ([epoch, transaction, commits], owner) = columns(next);
    let ([last_epoch, last_transaction, last_commits], last_owner) = columns(last);
    let keeps_last = batch.starts && last.owner != 0;
    let [clients, places, incarnations, lasts, outcomes, have_left] = &batch.clients;
    let leases = batch.leases.unwrap_or_default();
    let (longest, unleased) = (leases.longest.cast_signed(), leases.unleased.bits().cast_signed());
    let room = batch.room.and_then(|room| i64::try_from(room.rows()).ok());
    let first_start = batch.first_start.map(owner_text);
    let shard = batch.shard.map(batch::numbers_of_shard);
    let [first_key, last_key, version] = [0, 1, 2].map(|at| shard.map(|numbers| numbers[at]));
    let is_sealed = batch.shard.map(|shard| shard.is_sealed);
    let values: [&(dyn ToSql + Sync); 27] = [
        &epoch,
        &owner,
        &transaction,
        &commits,
        &last_epoch,
        &last_owner,
        &last_transaction,
        &last_commits,
        &keeps_last,
        &batch.put_keys,
        &batch.put_values,
        &batch.deleted_keys,
        clients,
        places,
        incarnations,
        lasts,
        outcomes,
        have_left,
        &batch.leases.is_some(),
        &longest,
        &unleased,
        &room,
        &first_start,
        &first_key,
        &last_key,
        &version,
        &is_sealed,
    ];
    let Statements { commit, .. } = session.statements().await?;
    let count: i64 = session.client.query_one(&commit, &values).await?.try_get(0)?;
    // An attempt whose answer was lost may have set it. Then the replicas may still lack it.
    if count == 1 { Ok(Some(*next)) } else { confirm(session, next).await }
}

async fn remove(session: &mut Session, last: &Fence) -> Result<Option<Fence>, Error> {
    let ([epoch, transaction, commits], owner) = columns(last);
    let values: [&(dyn ToSql + Sync); 4] = [&epoch, &owner, &transaction, &commits];
    session.client.query_one(sql::REMOVE, &values).await?;
    // An attempt whose answer was lost may have removed it.
    confirm(session, &Fence::default()).await
}

/// The head as it stands. If it is the one that is expected, the replicas have it too.
async fn confirm(session: &mut Session, expected: &Fence) -> Result<Option<Fence>, Error> {
    let ([epoch, transaction, commits], owner) = columns(expected);
    let values: [&(dyn ToSql + Sync); 4] = [&epoch, &owner, &transaction, &commits];
    let Statements { confirm, .. } = session.statements().await?;
    let count: i64 = session.client.query_one(&confirm, &values).await?.try_get(0)?;
    if count == 1 { Ok(Some(*expected)) } else { head(&session.client).await }
}

async fn head(client: &Client) -> Result<Option<Fence>, Error> {
    Ok(fence_of(&client.query_one(sql::HEAD, &[]).await?))
}

/// `epoch, transaction, commits`, and the owner.
fn columns(head: &Fence) -> ([i64; 3], String) {
    let numbers = [head.epoch, head.transaction, head.commits].map(u64::cast_signed);
    (numbers, owner_text(head.owner))
}

pub(crate) fn failure_of(error: &Error) -> Failure {
    let Some(reported) = error.as_db_error() else {
        let why = error.to_string();
        let is_refused = REFUSED_BY_TLS.iter().any(|sign| why.contains(sign));
        return if is_refused { Failure::Refused(why) } else { Failure::Unknown(why) };
    };
    let why = format!("{}: {}", reported.severity(), reported.message());
    if leaves_it_open(reported.code()) { Failure::Unknown(why) } else { Failure::Refused(why) }
}

/// Whether an error of the database leaves open what became of the request, or passes by itself:
/// the server ends or starts, is a replica, has no connection left, or two transactions met.
fn leaves_it_open(code: &SqlState) -> bool {
    let code = code.code();
    ["08", "40", "53", "57P", "25006"].iter().any(|class| code.starts_with(class))
}

#[cfg(test)]
mod tests {
    use super::*;

    #[test]
    fn each_attempt_has_a_part_of_the_time() {
        const TIME: Duration = Duration::from_secs(3600);
        let mut link = Link::new(Connector::to_nothing()).unwrap();
        let mut attempts = Vec::new();
        let done = link.again(Instant::now() + TIME, |_, end| {
            attempts.push(end.saturating_duration_since(Instant::now()));
            if attempts.len() > 1 { Ok(()) } else { Err(Failure::Unknown("it is silent".into())) }
        });
        assert!(done.is_ok() && attempts.len() == 2);
        assert!(attempts.iter().all(|time| *time <= TIME / ATTEMPTS), "{attempts:?}");
    }

    #[test]
    fn some_errors_leave_open_what_was_done() {
        let open = ["08006", "40001", "53300", "57P01", "57P03", "25006"];
        assert!(open.iter().all(|code| leaves_it_open(&SqlState::from_code(code))));
        let sure = ["28P01", "3D000", "42501", "22P02", "57014"];
        assert!(!sure.iter().any(|code| leaves_it_open(&SqlState::from_code(code))));
    }
}
