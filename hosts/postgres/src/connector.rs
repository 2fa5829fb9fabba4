//! How a connection to the database is made.
use crate::address::PostgresAddress;
use crate::security::Tls;
use std::fmt;
use std::future::poll_fn;
use std::sync::Arc;
use tokio::io::{AsyncRead, AsyncWrite};
use tokio::sync::Notify;
use tokio::task::JoinHandle;
use tokio_postgres::{AsyncMessage, CancelToken, Client, Config, Connection, Error, NoTls};

/// Connects to the database of an address, by TLS if the address asks for it.
#[derive(Clone)]
pub struct Connector {
    /// The address as it may be shown.
    address: String,
    config: Config,
    tls: Option<Tls>,
}

/// The task that carries a connection. It ends with this, also if the connection is silent.
#[derive(Debug)]
pub struct Carrier(JoinHandle<()>);

impl Carrier {
    /// Waits until the connection has ended. If nobody has its client any more, that is when the
    /// database has answered all that was asked.
    pub async fn ended(&mut self) {
        // A task that has panicked has ended too.
        let _ = (&mut self.0).await;
    }
}

impl Drop for Carrier {
    fn drop(&mut self) {
        self.0.abort();
    }
}

impl Connector {
    /// Connects as this user by this password, or as the address states.
    ///
    /// # Errors
    ///
    /// If a file of the address cannot be used: a sentence.
    pub fn new(
        address: &PostgresAddress,
        user: Option<&(String, String)>,
    ) -> Result<Connector, String> {
        let (config, tls) = (address.config(user), address.security().tls()?);
        Ok(Connector { address: address.to_string(), config, tls })
    }

    /// Where the database is.
    #[must_use]
    pub fn address(&self) -> &str {
        &self.address
    }

    /// One that connects to nothing.
    #[cfg(test)]
    pub(crate) fn to_nothing() -> Connector {
        Connector { address: String::new(), config: Config::new(), tls: None }
    }

    /// Connects. The connection belongs to the runtime of tokio that runs this.
    ///
    /// # Errors
    ///
    /// If the database does not answer, or refuses the user; if TLS fails.
    pub async fn connect(&self) -> Result<(Client, Carrier), Error> {
        self.connect_and_notify(Arc::default()).await
    }

    /// The same. `notify` is signaled at each notification, and at the end of the connection.
    pub(crate) async fn connect_and_notify(
        &self,
        notify: Arc<Notify>,
    ) -> Result<(Client, Carrier), Error> {
        if let Some(tls) = &self.tls {
            let (client, connection) = self.config.connect(tls.clone()).await?;
            Ok((client, Carrier(tokio::spawn(carry(connection, notify)))))
        } else {
            let (client, connection) = self.config.connect(NoTls).await?;
            Ok((client, Carrier(tokio::spawn(carry(connection, notify)))))
        }
    }

    /// Asks the database, over a connection of its own, to cancel the statement of the connection of
    /// this token. Whether it has is not reported.
    ///
    /// # Errors
    ///
    /// If the database does not answer; if TLS fails.
    pub async fn cancel(&self, token: &CancelToken) -> Result<(), Error> {
        match &self.tls {
            Some(tls) => token.cancel_query(tls.clone()).await,
            None => token.cancel_query(NoTls).await,
        }
    }
}

/// Carries a connection until it ends. How it ended is reported to the caller whose query fails.
async fn carry<S, T>(mut connection: Connection<S, T>, notify: Arc<Notify>)
where
    S: AsyncRead + AsyncWrite + Unpin,
    T: AsyncRead + AsyncWrite + Unpin,
{
    while let Some(Ok(message)) = poll_fn(|context| connection.poll_message(context)).await {
        if matches!(message, AsyncMessage::Notification(_)) {
            notify.notify_one();
        }
    }
    notify.notify_one();
}

impl fmt::Debug for Connector {
    fn fmt(&self, f: &mut fmt::Formatter<'_>) -> fmt::Result {
        let has_tls = self.tls.is_some();
        f.debug_struct("Connector").field("has_tls", &has_tls).finish_non_exhaustive()
    }
}
