//! What a server and a client write to a log: by `tracing`, if the feature of this name is on.
#![cfg_attr(
    not(feature = "tracing"),
    allow(
        unused_variables,
        clippy::if_same_then_else,
        clippy::match_same_arms,
        clippy::single_match,
        reason = "without the feature nothing is logged"
    )
)]
use crate::identity::Identity;
use crate::log::rate_limit::RateLimit;
use crate::model::change::{Change, Record};
use crate::model::history::Mark;
use crate::model::room::Room;
use crate::model::shard_fence::OtherShard;
use crate::net::address::Address;
use crate::net::stream::PeerAddress;
use std::collections::BTreeMap;
use std::fmt::Display;
use std::time::Instant;

macro_rules! report {
    ($level:ident, $($event:tt)*) => {{
        #[cfg(feature = "tracing")]
        tracing::$level!($($event)*);
    }};
}

/// The same of an event of a connection that may come often: see [`RateLimit`].
macro_rules! report_seldom {
    ($limit:expr, $level:ident $at:ident [$($field:tt)*] $text:literal) => {
        if let Some(passed_over) = $limit.admits(Instant::now()) {
            let At { connection, peer } = $at;
            report!($level, connection, %peer, $($field)* passed_over, $text);
        }
    };
}

/// A connection, as the log names it.
#[cfg_attr(not(feature = "tracing"), allow(dead_code, reason = "only the log reads it"))]
#[derive(Clone, Copy, Debug)]
pub(crate) struct At {
    pub connection: u64,
    pub peer: PeerAddress,
}

/// What of a client has ended, so that the server evicts it.
#[derive(Clone, Copy, Debug, PartialEq, Eq)]
pub(crate) enum Ended {
    Lease,
    Process,
}

/// What a server has reported, so that nothing is reported twice.
#[derive(Debug, Default)]
pub(crate) struct EventLog {
    /// The clients that ever registered: the incarnation, and whether it has left.
    clients: BTreeMap<u8, (u64, bool)>,
    /// The clients that are being evicted, each with the incarnation that takes its place.
    evicting: BTreeMap<u8, (u64, Ended)>,
    is_serving: Option<bool>,
    missing: Vec<u8>,
    bad_messages: RateLimit,
    other_shards: RateLimit,
    other_stores: RateLimit,
    other_versions: RateLimit,
    strangers: RateLimit,
    denials: RateLimit,
    far_ahead: RateLimit,
    alarms: RateLimit,
    store_alarms: RateLimit,
}

impl EventLog {
    /// A server has started on these records.
    pub fn started(epoch: u64, address: &Address, rows: usize, records: &[Record]) -> EventLog {
        report!(info, epoch, %address, rows, clients = records.len(), "the server has started");
        let clients = records.iter().map(|it| (it.client, (it.incarnation, it.left))).collect();
        EventLog { clients, ..EventLog::default() }
    }

    /// A server with this room has started over this many rows. Less room than one had before may
    /// be intended, or a mistake.
    pub fn has_room(rows: usize, room: Room, greatest: Room) {
        if room < greatest {
            report!(warn, %room, %greatest, "the server has less room than one had before it");
        }
        if rows >= room.rows() {
            report!(
                warn, %room,
                "the table is full, so every insert fails: give the server more room"
            );
        }
    }

    /// The phase of the server, and the clients whose reports are missing. It reports when they
    /// change.
    pub fn phase(&mut self, is_serving: bool, missing: &[u8]) {
        if self.is_serving == Some(is_serving) && self.missing == missing {
            return;
        }
        if is_serving {
            report!(info, "the server serves");
        } else {
            report!(info, ?missing, "the server recovers: reports are missing");
        }
        self.is_serving = Some(is_serving);
        missing.clone_into(&mut self.missing);
    }

    /// These changes are committed.
    pub fn committed(&mut self, changes: &[Change], at_of: impl Fn(u8) -> Option<At>) {
        for change in changes {
            match *change {
                Change::Registered { client, incarnation } => {
                    self.joined(client, incarnation, at_of(client));
                }
                Change::Left { client } => self.left(client),
                Change::Started { .. }
                | Change::Judged { .. }
                | Change::Leased(_)
                | Change::Room(_)
                | Change::Shard(_) => {}
            }
        }
    }

    /// The server evicts a client by a successor. It reports this once, when that is committed.
    pub fn evicts(&mut self, client: u8, successor: u64, ended: Ended) {
        self.evicting.insert(client, (successor, ended));
    }

    fn joined(&mut self, client: u8, incarnation: u64, at: Option<At>) {
        let peer = at.map_or(PeerAddress::Gone, |at| at.peer);
        let evicting = self.evicting.get(&client).filter(|(it, _)| *it == incarnation);
        if let Some((_, ended)) = evicting {
            let before = self.clients.insert(client, (incarnation, false));
            let evicted = before.map(|(incarnation, _)| incarnation);
            match ended {
                Ended::Lease => report!(
                    warn,
                    client,
                    incarnation = evicted,
                    "a client is evicted: its lease has ended, and no sign of it came"
                ),
                Ended::Process => report!(
                    warn,
                    client,
                    incarnation = evicted,
                    "a client is evicted: its process has ended, and it had not left"
                ),
            }
            return;
        }
        match self.clients.insert(client, (incarnation, false)) {
            Some((before, false)) => {
                report!(
                    warn,
                    client,
                    incarnation,
                    before,
                    %peer,
                    "a client is replaced that had not left: it was started again, or is evicted"
                );
            }
            Some((_, true)) | None => {
                report!(info, client, incarnation, %peer, "a client has joined");
            }
        }
    }

    fn left(&mut self, client: u8) {
        if let Some((incarnation, has_left)) = self.clients.get_mut(&client) {
            *has_left = true;
            if self.evicting.remove(&client).is_some_and(|(it, _)| it == *incarnation) {
                return;
            }
            report!(info, client, incarnation = *incarnation, "a client has left");
        }
    }

    /// The client of a connection takes the server for another shard's, and is closed.
    pub fn other_shard(&mut self, at: &At, other: &OtherShard) {
        report_seldom!(self.other_shards, warn at [] "a connection is closed: {other}");
    }

    /// A connection sent what is not a message, and is closed.
    pub fn bad_message(&mut self, at: &At, length: usize) {
        report_seldom!(self.bad_messages, warn at [length,]
            "a connection is closed: it sent something that is not a message");
    }

    /// A message names an incarnation that is not the client's.
    pub fn stranger(&mut self, at: &At, client: u8, incarnation: u64) {
        let registered = self.clients.get(&client).map(|(incarnation, _)| *incarnation);
        report_seldom!(self.strangers, warn at [client, incarnation, registered,]
            "a message is ignored: it is of another incarnation than the client's");
    }

    /// A client is not registered: its incarnation is too far ahead of this machine's clock.
    pub fn far_ahead(&mut self, at: &At, client: u8, incarnation: u64) {
        report_seldom!(self.far_ahead, warn at [client, incarnation,]
            "a client is not registered: its clock is more than a day ahead of this one");
    }

    /// A client has seen another store, and is refused.
    pub fn other_store(&mut self, at: &At) {
        report_seldom!(self.other_stores, warn at []
            "a client is refused: it has seen another store than this one");
    }

    /// A client's host is of another version of the stream, and is refused.
    pub fn other_version(&mut self, at: &At) {
        report_seldom!(self.other_versions, warn at []
            "a client is refused: its release is of another version of the protocol");
    }

    /// A connection sent what its identity may not send, and is closed.
    pub fn denied(&mut self, at: &At, identity: &Identity, client: Option<u8>) {
        report_seldom!(self.denials, warn at [%identity, client,]
            "a connection is closed: it sent what its certificate or its user may not send");
    }

    /// The store lacks what a client's host has seen of it.
    pub fn store_alarm(&mut self, at: &At, seen: Mark) {
        report_seldom!(self.store_alarms, error at [?seen,]
            "ALARM: the store lacks what a client has seen: it is an older copy, or another one");
    }

    /// A report contradicts what the server knows.
    pub fn alarm(&mut self, client: Option<u8>) {
        if let Some(passed_over) = self.alarms.admits(Instant::now()) {
            report!(
                error,
                client,
                passed_over,
                "ALARM: a report contradicts what the server knows: two processes are one client, \
                 or the store is an older one"
            );
        }
    }
}

/// A client has learned that its server's store went back.
pub(crate) fn store_went_back(server: &Address) {
    report!(
        error,
        %server,
        "ALARM: the server's store lacks what this client has seen of it: the client drops its \
         cache and joins again"
    );
}

/// A client has learned that its server serves another store.
pub(crate) fn store_is_another_one(server: &Address) {
    report!(
        error,
        %server,
        "the server serves another store than the one that this client has seen: the client drops \
         its cache, and is not served"
    );
}

/// A client continues under a greater incarnation.
pub(crate) fn began_again(client: u8, incarnation: u64) {
    report!(
        info,
        client,
        incarnation,
        "a client starts over: its lease has ended, or the server's store went back"
    );
}

/// A client continues by the map of this version.
#[cfg(feature = "map-file")]
pub(crate) fn follows_map(version: u64) {
    report!(info, version, "a client continues by the next map");
}

/// A client that follows its map does not continue by what it has found.
#[cfg(feature = "map-file")]
pub(crate) fn cannot_follow(limit: &mut RateLimit, error: &dyn Display) {
    if let Some(passed_over) = limit.admits(Instant::now()) {
        report!(warn, %error, passed_over, "a client can't continue by the map that it follows");
    }
}

/// The server has ended by an error.
pub(crate) fn failed(error: &dyn Display) {
    report!(error, %error, "the server has failed");
}

/// A connection is taken.
pub(crate) fn opened(at: &At) {
    report!(debug, connection = at.connection, peer = %at.peer, "a connection is open");
}

/// A connection is closed.
pub(crate) fn closed(at: &At, reason: &str) {
    report!(debug, connection = at.connection, peer = %at.peer, reason, "a connection is closed");
}

/// A connection is closed by the server for a reason about which an operator may have to do
/// something.
pub(crate) fn closed_by_server(at: &At, reason: &str, why: &dyn Display, passed_over: u64) {
    let why = why.to_string();
    report!(
        warn,
        connection = at.connection,
        peer = %at.peer,
        why = (!why.is_empty()).then_some(&*why),
        passed_over,
        "a connection is closed: {reason}"
    );
}

/// The system gives no connection just now.
pub(crate) fn not_accepted(limit: &mut RateLimit, error: &dyn Display) {
    if let Some(passed_over) = limit.admits(Instant::now()) {
        report!(warn, %error, passed_over, "the system accepts no connection");
    }
}

/// A client has a connection.
pub(crate) fn connected(server: &Address) {
    report!(debug, %server, "a client is connected");
}

/// A client has no connection, or has lost it.
pub(crate) fn disconnected(server: &Address, error: &dyn Display) {
    report!(debug, %server, %error, "a client is not connected");
}
