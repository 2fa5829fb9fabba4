//! How a server is configured, and starts.
use crate::access::Access;
use crate::lease::clocks::Now;
use crate::lease::terms::Leases;
use crate::model::reach::Reach;
use crate::model::room::Room;
use crate::model::shard_bounds::ShardBounds;
use crate::net::stream::Listener;
use crate::server::Server;
use crate::server::connections::MAX_CONNECTIONS;
use crate::server::error::ServeError;
use crate::server::event_loop::thread::ServerThread;
use crate::server::opening::{Decided, Opened};
use crate::server::questions::Questions;
use crate::server::shown::liveness::TimedStore;
use crate::server::shown::status::Status;
use crate::server::shown::timings::Timings;
use crate::server::sockets::Sockets;
use crate::store::Store;
use std::convert::Infallible;
use std::fmt;
use std::sync::{Arc, Mutex};
use std::thread;

/// A server that has not started: its listener, its store, whom it lets in, how many connections it
/// takes, for how many rows it has room, how many slots a grant takes, and the leases that it
/// grants.
#[must_use = "a builder does nothing before `start`"]
pub struct ServerBuilder<S> {
    listener: Listener,
    store: S,
    options: Options,
}

/// What a server is given before it starts.
#[derive(Debug)]
pub(crate) struct Options {
    pub access: Access,
    pub leases: Option<Leases>,
    pub shard: Option<ShardBounds>,
    pub room: Option<Room>,
    pub reach: Reach,
    pub max_connections: usize,
}

impl<S: Store + 'static> ServerBuilder<S> {
    pub(crate) fn new(listener: Listener, store: S) -> ServerBuilder<S> {
        let options = Options {
            access: Access::new(),
            leases: None,
            shard: None,
            room: None,
            reach: Reach::default(),
            max_connections: MAX_CONNECTIONS,
        };
        ServerBuilder { listener, store, options }
    }

    /// Whom the server lets in: by default everybody who can connect, over plain TCP on the
    /// loopback only, and its own user over a Unix socket.
    pub fn access(mut self, access: Access) -> ServerBuilder<S> {
        self.options.access = access;
        self
    }

    /// The most connections that have identified themselves: 256 by default. Each client takes one.
    /// One more gets [`Refusal::Full`](crate::error::Refusal::Full), and is closed. Besides, at most 128
    /// are open that have not identified themselves.
    pub fn max_connections(mut self, count: usize) -> ServerBuilder<S> {
        self.options.max_connections = count;
        self
    }

    /// The leases that the server grants its clients: it evicts each client that is silent for
    /// longer, once no cache of that client can answer any more. By default it grants none, and
    /// only an operator evicts a client.
    pub fn leases(mut self, leases: Leases) -> ServerBuilder<S> {
        self.options.leases = Some(leases);
        self
    }

    /// The shard that the server serves, by a map of this version: it serves clients that take it
    /// for this one, and no others. The store keeps the shard, which only a split, a merge or a
    /// move changes. By default the server serves the shard that its store keeps, and without one
    /// all keys, and no client of a shard.
    pub fn shard(mut self, shard: ShardBounds) -> ServerBuilder<S> {
        self.options.shard = Some(shard);
        self
    }

    /// For how many rows the server has room. An insert into a table that has that many is judged
    /// `Full`. The memory for them is reserved at the start, and used as rows come.
    ///
    /// By default it is the greatest room that a server had over this store, and 65,536 over a new
    /// one. With less than that the server has the room that is given here, the store keeps the
    /// greatest, and the log reports both.
    pub fn room(mut self, room: Room) -> ServerBuilder<S> {
        self.options.room = Some(room);
        self
    }

    /// How many slots one grant takes at most: 128 by default. A client that reads many rows for
    /// the first time asks for that many slots at a time. A grant of more slots keeps the server
    /// longer from the requests of others.
    ///
    /// Each start may give another reach: the store keeps none.
    pub fn reach(mut self, reach: Reach) -> ServerBuilder<S> {
        self.options.reach = reach;
        self
    }

    /// Starts the server.
    ///
    /// # Errors
    ///
    /// Those of [`Server::start`]; `OtherStoreShard` if the store is of another shard; `OtherKey` if it
    /// has a key that the shard does not have;
    /// `MoreRows` if it has more rows than there is room for.
    pub fn start(self) -> Result<Server, ServeError> {
        Server::start_with(self.listener, self.store, self.options)
    }
}

impl Server {
    /// Serves what the store has. It blocks, and returns only with an error.
    ///
    /// # Errors
    ///
    /// Those of [`Server::start`]; `Store` if a change could not be committed: nothing that rests
    /// on it was sent; `OlderStore` if a client that has shown who it is has seen what the store
    /// lacks; `Panicked`.
    pub fn serve(
        listener: impl Into<Listener>,
        store: impl Store + 'static,
    ) -> Result<Infallible, ServeError> {
        Server::start(listener, store)?.wait()
    }

    /// Starts a server in a thread of its own. When this returns, the new epoch is kept and
    /// connections are taken.
    ///
    /// # Errors
    ///
    /// `Store` if the store fails; `Sealed` if no server may start on it; `Refused` if what it gives
    /// is not what a server committed, or memory is refused; `Network` if the listener fails, may not
    /// be listened at, or there is no thread.
    pub fn start(
        listener: impl Into<Listener>,
        store: impl Store + 'static,
    ) -> Result<Server, ServeError> {
        Server::builder(listener, store).start()
    }

    /// Configures a server before it starts: whom it lets in, how many connections it takes, and
    /// the leases that it grants.
    ///
    /// # Examples
    ///
    /// ```
    /// use krl::{Leases, Listener, MemoryStore, Server};
    /// use krl::operate::Room;
    /// use std::time::Duration;
    ///
    /// let listener = Listener::bind(&"127.0.0.1:0".parse()?)?;
    /// let server = Server::builder(listener, MemoryStore::default())
    ///     .leases(Leases::of(Duration::from_secs(10))?)
    ///     .room(Room::of(100_000)?)
    ///     .max_connections(80)
    ///     .start()?;
    /// println!("{}", server.monitor().status());
    /// server.stop()?;
    /// # Ok::<(), Box<dyn std::error::Error>>(())
    /// ```
    pub fn builder<S: Store + 'static>(
        listener: impl Into<Listener>,
        store: S,
    ) -> ServerBuilder<S> {
        ServerBuilder::new(listener.into(), store)
    }

    pub(crate) fn start_with(
        listener: Listener,
        mut store: impl Store + 'static,
        options: Options,
    ) -> Result<Server, ServeError> {
        let Options { access, leases, shard, room, reach, max_connections } = options;
        let address = listener.address()?;
        access.check(&address)?;
        if access.has_users() {
            listener.let_users_connect()?;
        }
        let timings = Arc::new(Timings::new());
        let decided = Decided { leases, shard, room, reach, max_connections };
        let opened = decided.open(&mut store, &address, Arc::clone(&timings), Now::read)?;
        let Opened { events, epoch, room, shard } = opened;
        let (sockets, waker) = Sockets::new(listener, access)?;
        let (questions, asked) = Questions::new(Arc::clone(&waker));
        let status =
            Arc::new(Mutex::new(Status { epoch, room, reach, shard, ..Status::default() }));
        let shown = Arc::clone(&status);
        let longest_store_wait = store.longest_wait();
        let store = TimedStore::new(store, Arc::clone(&timings));
        let serving = ServerThread::new(events, store, sockets, asked);
        let thread = thread::Builder::new().name("krl-server".into());
        let thread = thread.spawn(move || serving.run_to_the_end(&shown))?;
        let thread = Some(thread);
        Ok(Server { address, room, reach, questions, status, timings, longest_store_wait, thread })
    }
}

impl<S> fmt::Debug for ServerBuilder<S> {
    fn fmt(&self, f: &mut fmt::Formatter<'_>) -> fmt::Result {
        let mut shown = f.debug_struct("ServerBuilder");
        shown.field("listener", &self.listener).field("options", &self.options);
        shown.finish_non_exhaustive()
    }
}
