//! What a client is given before it joins.
use crate::call::error::{JoinError, JoinErrorKind};
use crate::client::Client;
use crate::client::joining::{self, JoinPurpose, Waits};
use crate::client::joining_shards::{JoiningShards, Lock};
use crate::client::lock_folder::lock_folder;
use crate::client::numbers;
use crate::client::place::Place;
use crate::client::table::Table;
use crate::model::client_number::ClientNumber;
use crate::model::row::END;
use crate::net::servers::Servers;
use crate::net::tls::TlsConfig;
use crate::shards::map::ShardMap;
use std::ops::Range;
use std::path::{Path, PathBuf};
use std::time::Duration;

/// What a client is given before it joins: where its table is, its number and its lock file, and
/// how long its calls wait. [`Client::builder`] and [`Client::builder_with_numbers`] make one.
#[derive(Clone, Debug)]
#[must_use = "a builder does nothing before `join`"]
pub struct ClientBuilder {
    place: Place,
    numbers: Vec<u8>,
    lock: Lock,
    keys: Range<u64>,
    waits: Waits,
    #[cfg(feature = "tls")]
    tls: Option<TlsConfig>,
}

impl ClientBuilder {
    fn new(place: Place, numbers: Vec<u8>, lock: Lock) -> ClientBuilder {
        ClientBuilder {
            place,
            numbers,
            lock,
            keys: 0..END + 1,
            waits: Waits::by_default(),
            #[cfg(feature = "tls")]
            tls: None,
        }
    }

    /// What the client shows to its servers if they listen over TLS, and whom it trusts. It is
    /// read again at each connect: after [`TlsConfig::reload`], the next connection shows what the
    /// files have then.
    ///
    /// A builder for several numbers takes one for which the certificate may speak, if there is one.
    ///
    /// [`TlsConfig::reload`]: crate::TlsConfig::reload
    #[cfg(feature = "tls")]
    pub fn tls(mut self, config: TlsConfig) -> ClientBuilder {
        self.place = self.place.with_tls(config.clone());
        self.tls = Some(config);
        self
    }

    /// The keys that a client of a map uses: all of them by default. It joins only the shards that
    /// have some of these keys, so that a server of another shard may be down. A call with keys of
    /// a shard that it has not joined is refused by `BadRange` or `BadKey`. A client of one server
    /// has all keys.
    pub fn keys(mut self, keys: Range<u64>) -> ClientBuilder {
        self.keys = keys;
        self
    }

    /// How long `join` and each later call wait for an answer: fifteen seconds by default, and a
    /// year at most.
    pub fn timeout(mut self, timeout: Duration) -> ClientBuilder {
        self.waits.timeout = timeout;
        self
    }

    /// How long `join` waits for its number if a server reports that another process has it:
    /// until the timeout by default. Then it ends with `Unserved`. A builder for several numbers
    /// tries the next one after a second.
    pub fn wait_if_in_use(mut self, wait: Duration) -> ClientBuilder {
        self.waits.if_in_use = wait;
        self
    }

    /// Joins the server, or all shards of the client's keys at once. If one of them does not
    /// answer, the others are left again.
    ///
    /// A map with a version may change meanwhile. So a server that is of another shard, or that is
    /// not there, is waited for until the timeout. If the map was read by `ShardMap::from_file` and
    /// the file has a next one, the client leaves what it has joined, and joins by that. A map that
    /// was made otherwise can't be read again.
    ///
    /// # Errors
    ///
    /// Those of [`Client::join`], with the first shard that was not joined. Of a builder for
    /// several numbers, `LockFile` if other processes have the files of all of them. `Incomplete`
    /// if there are no numbers, or no shard has any of the keys.
    pub fn join(mut self) -> Result<Client, JoinError> {
        self.keep_certified_numbers();
        let join = |number, waits| match &self.place {
            Place::Server(servers) => self.join_server(servers.clone(), number, waits),
            Place::Map(map) => self.join_shards(map, number, waits),
        };
        match self.numbers[..] {
            [number] => join(number, self.waits),
            ref numbers => {
                let joined = numbers::join_first(numbers, self.waits, join);
                joined.unwrap_or(Err(JoinErrorKind::Incomplete("a number").into()))
            }
        }
    }

    /// Leaves out the numbers for which the certificate may not speak, unless it may for none.
    fn keep_certified_numbers(&mut self) {
        let Some(own) = self.place.tls().and_then(TlsConfig::identity) else { return };
        if self.numbers.iter().any(|number| own.is_client(*number)) {
            self.numbers.retain(|number| own.is_client(*number));
        }
    }

    /// Joins the server as the client of this number.
    fn join_server(&self, servers: Servers, number: u8, waits: Waits) -> Result<Client, JoinError> {
        let lock_file = self.lock.of_number(number);
        let joined = joining::join(servers, number, &lock_file, waits, JoinPurpose::Work);
        let client = joined.map_err(JoinError::of(number, None))?;
        Ok(Client::of(Table::of_one(client, waits.timeout)))
    }

    /// Joins the shards of the client's keys as the client of this number.
    fn join_shards(&self, map: &ShardMap, number: u8, waits: Waits) -> Result<Client, JoinError> {
        let joining = self.joining(number);
        let joined = joining.join(map, waits)?;
        Ok(Client::of(Table::of_shards(joined, joining, waits.timeout)))
    }

    fn joining(&self, number: u8) -> JoiningShards {
        JoiningShards {
            number,
            lock: self.lock.clone(),
            keys: self.keys.clone(),
            #[cfg(feature = "tls")]
            tls: self.tls.clone(),
        }
    }
}

impl Client {
    /// Joins one server, or all shards of a map, as the client of the first number that is free:
    /// [`Client::number`] returns which. The lock files are in the user's [`lock_folder`], so that
    /// two processes of a user never take one number on one machine. The server knows the clients
    /// of other users and machines by their leases: a number that it reports as in use is skipped.
    /// **A server without leases can't distinguish a silent client from one that is gone**: there,
    /// join by a number that no other process has.
    ///
    /// ```no_run
    /// # use krl::{Client, Servers};
    /// let servers: Servers = "127.0.0.1:7400".parse()?;
    /// let client = Client::connect(servers)?;
    /// println!("client {}", client.number());
    /// # Ok::<(), Box<dyn std::error::Error>>(())
    /// ```
    ///
    /// # Errors
    ///
    /// `NoLockFolder` if there is no such folder, and those of [`Client::join`]. If no number is
    /// free, the error is that of the first number that the server reports as in use.
    pub fn connect(place: impl Into<Place>) -> Result<Client, JoinError> {
        Client::builder_with_any_number(place)?.join()
    }

    /// A builder for a client that joins as [`Client::connect`] does.
    ///
    /// # Errors
    ///
    /// `NoLockFolder` if there is no such folder.
    pub fn builder_with_any_number(place: impl Into<Place>) -> Result<ClientBuilder, JoinError> {
        let folder = lock_folder().map_err(JoinErrorKind::NoLockFolder)?;
        let builder = Client::builder_with_numbers(place, 0..ClientNumber::COUNT, folder);
        Ok(builder.wait_if_in_use(Duration::ZERO))
    }

    /// Joins as the client of this number: one server, or all shards of a map. `lock_file` is the
    /// file of this number on this machine: it keeps a second process off the number. Of a map it
    /// is the folder of the lock files, which has to be there; it has one for each shard and
    /// number. Two machines have to have different numbers. It waits fifteen seconds for an answer,
    /// and one second if nothing listens at the only address, unless that is of a map with a version:
    /// [`ClientBuilder::join`].
    ///
    /// ```
    /// # let folder = std::env::temp_dir().join(format!("krl-doc-map-{}", std::process::id()));
    /// # std::fs::create_dir_all(&folder)?;
    /// use krl::{Client, MemoryStore, Outcome, Server, Shard, ShardMap, Value};
    /// use std::net::TcpListener;
    ///
    /// let first = Server::start(TcpListener::bind("127.0.0.1:0")?, MemoryStore::default())?;
    /// let second = Server::start(TcpListener::bind("127.0.0.1:0")?, MemoryStore::default())?;
    /// let map = ShardMap::new(vec![
    ///     Shard::new(0, first.address()),
    ///     Shard::new(1000, second.address()),
    /// ])?;
    /// let client = Client::join(map, 0, &folder)?;
    /// assert_eq!(client.insert(999, Value::from(1))?, Outcome::Applied);
    /// assert_eq!(client.insert(1000, Value::from(2))?, Outcome::Applied);
    /// assert_eq!(client.read(990..1010)?.len(), 2); // both tables at one moment
    /// client.leave()?;
    /// # std::fs::remove_dir_all(&folder)?;
    /// # Ok::<(), Box<dyn std::error::Error>>(())
    /// ```
    ///
    /// # Errors
    ///
    /// `BadNumber` above 63; `LockFile` if another process has the file, or it can't be used;
    /// `NoThread`; `NoAnswer`, with the reason if the connection failed; `NothingListens`, if the
    /// only address has refused connections for a second; `NoServer`, if what answers is not a krl
    /// server; `Unserved`, if the server reports why it does not serve the client; `TurnedAway`, if
    /// this side has no right to the client; `OtherShard`, if the server serves another shard than
    /// the client takes it for; `Refused` if memory is refused. Of a map it is that of the first
    /// shard that was not joined. Then none is joined.
    pub fn join(
        place: impl Into<Place>,
        number: u8,
        lock_file: impl AsRef<Path>,
    ) -> Result<Client, JoinError> {
        Client::builder(place, number, lock_file.as_ref()).join()
    }

    /// A builder for a client of this number with this lock file, as [`Client::join`] takes them:
    /// it configures the client before it joins, such as how long its calls wait.
    ///
    /// ```no_run
    /// # use krl::{Address, Client};
    /// # use std::time::Duration;
    /// let address: Address = "127.0.0.1:7400".parse()?;
    /// let builder = Client::builder(address, 3, "client-3.lock");
    /// let client = builder.timeout(Duration::from_secs(2)).join()?;
    /// # Ok::<(), Box<dyn std::error::Error>>(())
    /// ```
    pub fn builder(
        place: impl Into<Place>,
        number: u8,
        lock_file: impl Into<PathBuf>,
    ) -> ClientBuilder {
        ClientBuilder::new(place.into(), vec![number], Lock::Given(lock_file.into()))
    }

    /// A builder for a client that takes the first of these numbers that is free at each of its
    /// servers: [`Client::number`] returns which. The lock files are in the folder, which has to be
    /// there: that of number 3 is `client-3.lock`, and of a map `shard-FIRST-client-3.lock` by the
    /// first key of the shard. A number whose lock file another process has is left for the next
    /// one at once, and one of which a server reports that another process has it after a second.
    ///
    /// ```no_run
    /// # use krl::{Address, Client};
    /// let address: Address = "127.0.0.1:7400".parse()?;
    /// let client = Client::builder_with_numbers(address, 0..=9, "/var/lib/app").join()?;
    /// # Ok::<(), Box<dyn std::error::Error>>(())
    /// ```
    pub fn builder_with_numbers(
        place: impl Into<Place>,
        numbers: impl IntoIterator<Item = u8>,
        lock_folder: impl Into<PathBuf>,
    ) -> ClientBuilder {
        let numbers = numbers.into_iter().collect();
        ClientBuilder::new(place.into(), numbers, Lock::In(lock_folder.into()))
    }
}
