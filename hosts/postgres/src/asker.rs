//! A connection to the database, which is made when something is asked, and again once it has ended.
use crate::connector::Connector;
use crate::link::failure_of;
use krl::store::fence::Failure;
use std::time::Duration;
use tokio::runtime::{Builder, Runtime};
use tokio::time::timeout;
use tokio_postgres::{Client, Error};

/// A connection, and what belongs to it.
pub(crate) trait Session: Sized {
    async fn open(connector: &Connector) -> Result<Self, Error>;

    fn client(&self) -> &Client;
}

/// What asks by sessions, one after the other.
pub(crate) struct Asker<S> {
    pub runtime: Runtime,
    pub connector: Connector,
    pub session: Option<S>,
}

impl<S: Session> Asker<S> {
    pub fn new(connector: Connector) -> std::io::Result<Asker<S>> {
        let runtime = Builder::new_current_thread().enable_all().build()?;
        Ok(Asker { runtime, connector, session: None })
    }

    /// Asks by the session, or by a new one if it has ended. One that was not answered in this time is
    /// given up.
    pub fn ask<T>(
        &mut self,
        most: Duration,
        what: impl AsyncFnOnce(&mut S) -> Result<T, Error>,
    ) -> Result<T, Failure> {
        let session = self.session.take().filter(|session| !session.client().is_closed());
        let asked = self.runtime.block_on(async {
            let asking = async {
                let mut session = match session {
                    Some(session) => session,
                    None => S::open(&self.connector).await?,
                };
                let answer = what(&mut session).await?;
                Ok::<_, Error>((session, answer))
            };
            timeout(most, asking).await
        });
        let unknown = |_| Failure::Unknown("no answer came in time".to_string());
        let (session, answer) = asked.map_err(unknown)?.map_err(|error| failure_of(&error))?;
        self.session = Some(session);
        Ok(answer)
    }
}
