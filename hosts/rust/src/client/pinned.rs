//! What is pinned at the servers of a client.
use crate::client::joined::Joined;
use crate::client::table::Table;
use std::fmt;
use std::sync::Arc;

/// What the clones of a pin share. The range is free again when the last of them is dropped.
pub(crate) struct Pinned {
    /// It keeps the client.
    table: Arc<Table>,
    /// The servers by the map by which it was taken. At a shard that a later map changes the pin no
    /// longer holds.
    joined: Arc<Joined>,
    /// The shards that have a part of the range, each with the pin there.
    parts: Vec<(usize, u64)>,
}

impl Pinned {
    /// A pin of nothing.
    pub fn new(table: &Arc<Table>, joined: &Arc<Joined>) -> Pinned {
        Pinned { table: Arc::clone(table), joined: Arc::clone(joined), parts: Vec::new() }
    }

    /// Adds what this pin has of a shard.
    pub fn add(&mut self, shard: usize, pin: u64) {
        self.parts.push((shard, pin));
    }

    pub fn table(&self) -> &Arc<Table> {
        &self.table
    }

    pub fn joined(&self) -> &Arc<Joined> {
        &self.joined
    }

    /// The shards that have a part of the range, each with the pin there.
    pub fn parts(&self) -> impl Iterator<Item = (usize, u64)> {
        self.parts.iter().copied()
    }

    /// All of the range is there: from now on it gives way to nobody. Returns whether it holds.
    pub fn keep(&self) -> bool {
        let keep = |(shard, pin)| self.joined.link(shard).with_state(|state| state.keep_pin(pin));
        self.parts().all(keep)
    }

    /// Whether no other client has taken what was held of the range, at any shard.
    pub fn holds(&self) -> bool {
        let holds = |(shard, pin)| self.joined.link(shard).with_state(|state| state.holds_pin(pin));
        self.parts().all(holds)
    }

    /// The pin at this shard, if it has a part of the range.
    pub fn at(&self, shard: usize) -> Option<u64> {
        self.parts().find(|part| part.0 == shard).map(|part| part.1)
    }
}

impl Drop for Pinned {
    fn drop(&mut self) {
        for (shard, pin) in self.parts() {
            let link = self.joined.link(shard);
            link.with_state(|state| state.unpin(pin));
            link.flush();
        }
    }
}

impl fmt::Debug for Pinned {
    fn fmt(&self, f: &mut fmt::Formatter<'_>) -> fmt::Result {
        f.debug_struct("Pinned").field("parts", &self.parts).finish_non_exhaustive()
    }
}
