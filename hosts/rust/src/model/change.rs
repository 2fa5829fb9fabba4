//! What survives a restart of a server, and how it changes.
use crate::model::kept_shard::{KeptShard, NotLater};
use crate::model::lease_record::LeaseRecord;
use crate::model::room::Room;
use crate::model::row::Row;
use std::fmt;

/// A change that a client asks for.
#[derive(Clone, Copy, Debug, PartialEq, Eq)]
pub enum Write {
    /// A new row.
    Insert(Row),
    /// Another value for the row of that key.
    Put(Row),
    /// The row of that key is deleted.
    Delete(u64),
}

/// How a write was judged. Only `Applied` has changed the table.
#[derive(Clone, Copy, Debug, PartialEq, Eq)]
#[must_use = "the write may have changed nothing: only `Applied` has"]
pub enum Outcome {
    /// The table has changed as the write asks.
    Applied,
    /// An insert of a key that has a row already.
    Exists,
    /// A put or a delete of a key that has no row.
    Absent,
    /// The client did not hold what the write needs.
    NotHeld,
    /// An insert into a table that has all the rows that its server has room for.
    Full,
}

/// What is kept of a client that ever registered.
#[derive(Clone, Copy, Debug, PartialEq, Eq)]
pub struct Record {
    /// Its number, from 0 to 63.
    pub client: u8,
    /// Its last registered incarnation.
    pub incarnation: u64,
    /// Its last judged write, by number, and how it was judged.
    pub last: Option<(u64, Outcome)>,
    /// That incarnation has left.
    pub left: bool,
}

/// One change of what survives.
#[derive(Clone, Copy, Debug, PartialEq, Eq)]
pub enum Change {
    /// The server started in this epoch.
    Started {
        /// The epoch.
        epoch: u64,
    },
    /// A client registered: its record is new, in the place of its older one or after all others.
    Registered {
        /// The client.
        client: u8,
        /// The incarnation.
        incarnation: u64,
    },
    /// A client left.
    Left {
        /// The client.
        client: u8,
    },
    /// A write was judged. It changes the rows if the outcome is `Applied`, and its client's
    /// record in any case.
    Judged {
        /// The client.
        client: u8,
        /// The write's number.
        number: u64,
        /// The write.
        write: Write,
        /// How it was judged.
        outcome: Outcome,
    },
    /// What is known of leases changed.
    Leased(LeaseRecord),
    /// A server has started with more room than any before it on this store.
    Room(Room),
    /// The store is of this shard from now on, and loses the rows of all other keys. No client may be
    /// registered that has not left, unless the rows are all there.
    Shard(KeptShard),
}

impl Change {
    /// Whether the library reported it, as a note that has to be confirmed. The others are the
    /// host's own.
    pub(crate) fn is_note(&self) -> bool {
        match self {
            Change::Started { .. }
            | Change::Registered { .. }
            | Change::Left { .. }
            | Change::Judged { .. } => true,
            Change::Leased(_) | Change::Room(_) | Change::Shard(_) => false,
        }
    }
}

impl Write {
    /// The key that the write is about.
    #[must_use]
    pub fn key(&self) -> u64 {
        match self {
            Write::Insert(row) | Write::Put(row) => row.key,
            Write::Delete(key) => *key,
        }
    }
}

impl Change {
    /// Whether a store that is of this shard, or of none, may become what the changes make of it.
    ///
    /// # Errors
    ///
    /// `NotLater` for the first change by which it may not.
    pub fn judge_shards(kept: Option<KeptShard>, changes: &[Change]) -> Result<(), NotLater> {
        let mut kept = kept;
        for change in changes {
            if let Change::Shard(next) = *change {
                kept.map_or(Ok(()), |kept| kept.judge_next(next))?;
                kept = Some(next);
            }
        }
        Ok(())
    }

    /// How many rows a table has after the change that had this many before.
    pub(crate) fn rows_after(&self, before: u64) -> u64 {
        let Change::Judged { write, outcome: Outcome::Applied, .. } = self else { return before };
        match write {
            Write::Insert(_) => before + 1,
            Write::Put(_) => before,
            Write::Delete(_) => before.saturating_sub(1),
        }
    }
}

impl Outcome {
    /// Each outcome, in the order of their numbers from 1.
    pub(crate) const ALL: [Outcome; 5] =
        [Outcome::Applied, Outcome::Exists, Outcome::Absent, Outcome::NotHeld, Outcome::Full];

    /// The number of an outcome in `krl.h` and in a store.
    pub(crate) fn tag(self) -> u32 {
        match self {
            Outcome::Applied => 1,
            Outcome::Exists => 2,
            Outcome::Absent => 3,
            Outcome::NotHeld => 4,
            Outcome::Full => 5,
        }
    }

    /// The outcome of a number, if it is one.
    pub(crate) fn of_tag(tag: u64) -> Option<Outcome> {
        Outcome::ALL.into_iter().find(|outcome| u64::from(outcome.tag()) == tag)
    }
}

impl fmt::Display for Outcome {
    fn fmt(&self, f: &mut fmt::Formatter<'_>) -> fmt::Result {
        fmt::Debug::fmt(self, f)
    }
}
