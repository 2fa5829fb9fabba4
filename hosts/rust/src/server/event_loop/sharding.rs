//! Which clients a server of a shard takes: those that take it for what it serves.
use super::EventLoop;
use crate::model::refusal::Refusal;
use crate::model::shard_bounds::ShardBounds;
use crate::model::shard_fence::{self, OtherShard};
use crate::server::close_reason::CloseReason;
use crate::wire::host_frame::{FromClient, FromServer};
use crate::wire::incoming::Incoming;

impl EventLoop {
    /// The same server, of this shard.
    pub fn of_shard(mut self, shard: Option<ShardBounds>) -> EventLoop {
        self.shard = shard;
        self.status.shard = shard;
        self
    }

    /// From now on no lease is renewed, since the next map has another shard in place of this one; or
    /// leases are renewed again.
    pub fn give_way(&mut self, next: Option<ShardBounds>) {
        self.next_shard = next;
    }

    /// Whether a frame is judged further. A message, a sign and a question are judged after the
    /// client's host has stated that it takes the server for what it serves, or at a server of all
    /// keys.
    pub(super) fn lets_in(&mut self, connection: u64, frame: &Incoming<'_>) -> bool {
        match *frame {
            Incoming::Host(Some(FromClient::Shard(expected))) => {
                if self.compare(connection, Some(expected)) {
                    self.connections
                        .send_after_commit(connection, &FromServer::Shard(expected).frame());
                }
                false
            }
            Incoming::Host(Some(FromClient::NoShard)) => {
                self.refuse(connection, OtherShard { expected: None, served: self.shard });
                false
            }
            Incoming::Host(_) => true,
            // So the client learns what its map lacks, and is evicted when its lease ends.
            Incoming::Sign(_) if self.next_shard.is_some() => {
                let next = OtherShard { expected: self.shard, served: self.next_shard };
                self.refuse(connection, next);
                false
            }
            Incoming::Message(_) | Incoming::Sign(_) | Incoming::Read(_) => {
                self.connections.is_let_in(connection) || self.compare(connection, None)
            }
        }
    }

    /// Lets the connection in if its client takes the server for what it serves, and otherwise ends
    /// it. Returns which.
    fn compare(&mut self, connection: u64, expected: Option<ShardBounds>) -> bool {
        match shard_fence::compare(expected, self.shard) {
            Ok(()) => {
                self.connections.let_in(connection);
                true
            }
            Err(other) => {
                self.refuse(connection, other);
                false
            }
        }
    }

    fn refuse(&mut self, connection: u64, other: OtherShard) {
        self.log.other_shard(&self.connections.at(connection), &other);
        self.connections.refuse(connection, Refusal::OtherShard(other.served));
        self.connections.end(connection, CloseReason::OtherShard);
    }
}
