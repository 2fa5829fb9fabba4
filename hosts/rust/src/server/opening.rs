//! How a server begins over what its store has.
use crate::lease::clocks::Now;
use crate::lease::of_server::LeaseTable;
use crate::lease::terms::Leases;
use crate::log::event_log::EventLog;
use crate::model::change::Change;
use crate::model::reach::Reach;
use crate::model::room::Room;
use crate::model::shard_bounds::ShardBounds;
use crate::net::address::Address;
use crate::proved::server_handle::ServerHandle;
use crate::server::connections::Connections;
use crate::server::error::ServeError;
use crate::server::event_loop::{EventLoop, Started};
use crate::server::room_at_start::RoomAtStart;
use crate::server::shard_at_start::{shard_at_start, shard_change};
use crate::server::shown::timings::Timings;
use crate::store::Store;
use std::sync::Arc;

/// The decisions that a server is given.
#[derive(Clone, Copy, Debug)]
pub(crate) struct Decided {
    pub leases: Option<Leases>,
    pub shard: Option<ShardBounds>,
    pub room: Option<Room>,
    pub reach: Reach,
    pub max_connections: usize,
}

/// A server whose epoch is committed, and that has no connections yet.
pub(crate) struct Opened {
    pub events: EventLoop,
    pub epoch: u64,
    pub room: Room,
    pub shard: Option<ShardBounds>,
}

impl Decided {
    /// Begins over what the store has. The server will listen at this address.
    pub fn open(
        self,
        store: &mut impl Store,
        address: &Address,
        timings: Arc<Timings>,
        clocks: impl FnOnce() -> Now,
    ) -> Result<Opened, ServeError> {
        let Decided { leases, shard, room, reach, max_connections } = self;
        let snapshot = store.load()?;
        let shard = shard_at_start(&snapshot, shard)?;
        let at_start = RoomAtStart::of(&snapshot, room)?;
        let room = at_start.room;
        let (mut server, epoch) =
            ServerHandle::open(&snapshot, room, reach).map_err(ServeError::Refused)?;
        let mut leases = LeaseTable::over(snapshot.leases, &snapshot.records, leases)
            .map_err(ServeError::Refused)?;
        let record = leases.record();
        let revised = (record != snapshot.leases).then_some(Change::Leased(record));
        let first = leases.commit().map_err(ServeError::Refused)?;
        // The epoch, what is known of leases, the room and the shard are kept before anything is sent.
        let changes = [Change::Started { epoch }].into_iter().chain(revised);
        let changes = changes.chain(at_start.change(&snapshot));
        let changes: Vec<Change> = changes.chain(shard_change(&snapshot, shard)).collect();
        store.commit(&changes)?;
        server.confirm(&changes).map_err(ServeError::Refused)?;
        // No older server grants anything after that commit, and the clock is read after it.
        let now = clocks();
        let boot = now.boot().map_err(ServeError::Clock)?;
        leases.committed(first).map_err(ServeError::Refused)?;
        leases.open(boot).map_err(ServeError::Refused)?;
        let history = store.history()?;
        let connections = Connections::new(max_connections, room, now);
        let (rows, records) = (snapshot.rows.len(), &snapshot.records);
        let log = EventLog::started(epoch, address, rows, records);
        EventLog::has_room(rows, room, at_start.greatest);
        let started = Started { server, epoch, history, leases, connections, timings, log };
        let events = EventLoop::new(started);
        let events = events.of_shard(shard).of_table(rows, room, reach);
        Ok(Opened { events, epoch, room, shard })
    }
}
