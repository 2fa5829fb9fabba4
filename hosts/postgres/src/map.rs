//! A map of shards in a row of PostgreSQL.
use crate::address::PostgresAddress;
use crate::asker::{self, Asker};
use crate::connector::{Carrier, Connector};
use crate::sql;
use krl::store::{MapHome, StoreError};
use std::fmt;
use std::sync::Arc;
use std::time::Duration;
use tokio::sync::Notify;
use tokio::time::{sleep, timeout};
use tokio_postgres::{Client, Error};

/// How long the database is asked.
const TIMEOUT: Duration = Duration::from_secs(60);

/// The pause if there is no connection on which a change could be waited for.
const PAUSE_WITHOUT_CONNECTION: Duration = Duration::from_millis(200);

/// A map of shards in a row of PostgreSQL, as text, which others replace and wait for: the one row of
/// `krl.map`. The database may have a store of krl too.
///
/// It waits by its own runtime, as [`PostgresStore`](crate::PostgresStore) does. A client continues by
/// each map that comes there:
///
/// ```no_run
/// # fn join() -> Result<(), Box<dyn std::error::Error>> {
/// use krl::store::MapHome;
/// use krl::{Client, ShardMap};
/// use krl_postgres::PostgresMap;
///
/// let address = "postgres://krl@localhost/orders".parse()?;
/// let mut map = PostgresMap::open(&address, None)?;
/// let first = map.read()?.ok_or("there is no map")?;
/// let client = Client::join(ShardMap::from_toml(&first)?, 0, "locks")?;
/// client.follow_at(map)?;
/// # Ok(())
/// # }
/// ```
pub struct PostgresMap(Asker<Session>);

/// A connection that listens.
struct Session {
    client: Client,
    /// It is notified of each change, and of the end of the connection.
    notify: Arc<Notify>,
    _carrier: Carrier,
}

impl asker::Session for Session {
    async fn open(connector: &Connector) -> Result<Session, Error> {
        let notify = Arc::new(Notify::new());
        let (client, carrier) = connector.connect_and_notify(Arc::clone(&notify)).await?;
        client.batch_execute(sql::SESSION).await?;
        client.batch_execute(sql::LISTEN).await?;
        Ok(Session { client, notify, _carrier: carrier })
    }

    fn client(&self) -> &Client {
        &self.client
    }
}

impl PostgresMap {
    /// The row of the database at this address, as this user by this password, or as the address
    /// states. Nothing is asked yet.
    ///
    /// # Errors
    ///
    /// If a file of the address can't be used, or this process can open no sockets.
    pub fn open(
        address: &PostgresAddress,
        user: Option<&(String, String)>,
    ) -> Result<PostgresMap, StoreError> {
        let connector = Connector::new(address, user).map_err(StoreError::failed)?;
        Ok(PostgresMap(Asker::new(connector).map_err(StoreError::failed)?))
    }
}

impl MapHome for PostgresMap {
    fn read(&mut self) -> Result<Option<String>, StoreError> {
        Ok(self.0.ask(TIMEOUT, async |session: &mut Session| read(&session.client).await)?)
    }

    fn replace(&mut self, before: Option<&str>, next: &str) -> Result<bool, StoreError> {
        let replacing =
            async |session: &mut Session| replace(&mut session.client, before, next).await;
        Ok(self.0.ask(TIMEOUT, replacing)?)
    }

    fn wait(&mut self, most: Duration) {
        let notify = self.0.session.as_ref().map(|session| Arc::clone(&session.notify));
        self.0.runtime.block_on(async {
            match notify {
                // That nothing came in time is no error.
                Some(notify) => drop(timeout(most, notify.notified()).await),
                None => sleep(PAUSE_WITHOUT_CONNECTION.min(most)).await,
            }
        });
    }
}

async fn has_table(client: &Client) -> Result<bool, Error> {
    client.query_one(sql::HAS_MAP, &[]).await?.try_get(0)
}

async fn read(client: &Client) -> Result<Option<String>, Error> {
    if !has_table(client).await? {
        return Ok(None);
    }
    client.query_opt(sql::MAP, &[]).await?.map(|row| row.try_get(0)).transpose()
}

async fn replace(client: &mut Client, before: Option<&str>, next: &str) -> Result<bool, Error> {
    if !has_table(client).await? {
        client.batch_execute(sql::MAP_TABLE).await?;
    }
    let change = client.transaction().await?;
    let changed = match before {
        Some(before) => change.execute(sql::REPLACE_MAP, &[&before, &next]).await?,
        None => change.execute(sql::FIRST_MAP, &[&next]).await?,
    };
    if changed > 0 {
        change.batch_execute(sql::NOTIFY).await?;
    }
    change.commit().await?;
    // A call whose answer was lost may have put it there.
    Ok(changed > 0 || read(client).await?.as_deref() == Some(next))
}

impl fmt::Debug for PostgresMap {
    fn fmt(&self, f: &mut fmt::Formatter<'_>) -> fmt::Result {
        f.debug_struct("PostgresMap").field("connector", &self.0.connector).finish_non_exhaustive()
    }
}

#[cfg(test)]
mod tests {
    use super::*;
    use krl::store::store_tests;
    use krl_testing::database::Database;
    use std::time::Instant;

    #[test]
    fn a_map_is_replaced_only_by_one_who_knows_the_one_before() {
        let Some(database) = Database::start() else { return };
        let open = || PostgresMap::open(&database.address(), None).unwrap();
        store_tests::replaces_only_a_known_map(open);
    }

    #[test]
    fn a_change_is_waited_for_and_so_is_the_end_of_the_connection() {
        let Some(mut database) = Database::start() else { return };
        let (begun, most) = (Instant::now(), Duration::from_secs(60));
        let open = || PostgresMap::open(&database.address(), None).unwrap();
        let mut map = store_tests::waits_for_a_map(open);
        database.stop();
        map.wait(most);
        assert!(map.read().is_err());
        assert!(begun.elapsed() < most, "it was notified of each change");
    }
}
