//! Rows that the client writes and other clients read.
//!
//! A client that has written a row holds it in X, so the next client that reads it waits until the
//! server has called the writer back. Where other clients want the row, the writer gives back all
//! but RangeS-U as soon as its write is judged, which is what the callback would leave it. It
//! continues to read the row, and the others read it without a callback. The release leaves
//! together with the acknowledgement of the answer.
//!
//! A client whose row nobody else wants keeps its X, and so writes again without asking for a lock.
//! The client knows that others want a row if the row was called back while it had it in X. It does
//! not know when they lose interest: so one callback counts for this many writes, and then the next
//! callback has to come.
use super::entry_of;
use crate::client::state::State;
use std::collections::HashMap;
use std::collections::hash_map::Entry;
use std::ops::Range;

/// How many writes of a row one callback counts for.
const WRITES: u8 = 8;

/// This many rows are remembered. If one is forgotten, its next reader costs a callback.
const MAX_ROWS: usize = 4096;

/// The rows that other clients want, and how many of the next writes of each are to share it.
#[derive(Debug, Default)]
pub struct SharedRows(HashMap<u64, u8>);

impl SharedRows {
    /// Another client wanted the row of this key.
    fn note(&mut self, key: u64) {
        if self.0.len() == MAX_ROWS && !self.0.contains_key(&key) {
            self.0.clear();
        }
        self.0.insert(key, WRITES);
    }

    /// The row of this key was written. Returns whether the client shares it now.
    fn count(&mut self, key: u64) -> bool {
        let Entry::Occupied(mut left) = self.0.entry(key) else { return false };
        *left.get_mut() -= 1;
        if *left.get() == 0 {
            left.remove();
        }
        true
    }
}

impl State {
    /// This slot is called back. The client still holds what it held of it.
    pub(in crate::client::state) fn note_shared(&mut self, slot: &Range<u64>) {
        let entry = entry_of(slot);
        if self.client.may_change(entry) {
            self.shared.note(entry);
        }
    }

    /// Whether the client shares the row that it has just written in this slot.
    pub(in crate::client::state) fn shares_after_write(&mut self, slot: &Range<u64>) -> bool {
        self.shared.count(entry_of(slot))
    }
}

#[cfg(test)]
mod tests;
