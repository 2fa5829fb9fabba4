//! Rows that the client does not keep, since others write them more often than it reads them again.
//!
//! Each write of another client takes its row out of this one's cache: the server calls the client
//! back, and it releases the row. That takes two messages, makes the writer wait, and pays only if
//! the cache has saved a trip to the server meanwhile. Where it has saved fewer trips than it has
//! lost rows, the client gives back what it has there, and asks for no lock to read: it has the
//! server's host send the rows, as `unkept.rs` describes. What it has written it gives back at once.
//! So the next writer has to call nobody back.
//!
//! The client no longer sees then how often others write there. So after many reads it keeps what
//! it reads, and counts again: after more reads each time that it did not pay. A few clients that
//! keep a row hinder its writers as much as many do, so this is rare, and short.
//!
//! The client counts by regions of the table, since one region may be written and another one not.
//! Few counts decide if it has lost more than it saved there before, or everywhere just now: one
//! that reads a little everywhere would take long to find that keeping does not pay.
//!
//! Only how long calls take depends on this. What is given back while another call needs it is
//! asked for again, and if the server ignores a release, it calls the client back later. But a
//! caller that waits for changes of a range does so by what the client knows of it, and would read
//! it again and again. So what was watched once is kept.
use super::entry_of;
use crate::client::state::State;
use crate::proved::client_handle::Shown;
use crate::proved::hits::{Hits, REGIONS, region_around, region_of, regions_of};
use crate::wire::read_frame::PAGE;
use std::mem;
use std::ops::Range;

/// After this many rows were lost or scans answered it is decided; and after so few if it did not
/// pay there before, or does not pay elsewhere.
const ENOUGH: u32 = 16;
const ENOUGH_IN_DOUBT: u32 = 3;

/// This many reads of the server are not kept, before the client counts again.
const FEWEST_READS: u16 = 256;
const MOST_READS: u16 = 4096;

/// What of the rows that it reads the client keeps.
pub struct Keeping {
    regions: Box<[Region]>,
    everywhere: Count,
    /// As was counted last, it has lost more everywhere than it saved.
    loses: bool,
    keeps_all: bool,
    /// What is given back by the next call of [`State::give_back_unkept`].
    given_up: Vec<Range<u64>>,
}

/// What was lost and saved since the count began.
#[derive(Clone, Copy, Debug, Default)]
struct Count {
    /// The rows that were called back while the client had them.
    lost: u32,
    /// How many scans had been answered before.
    hits: u32,
}

#[derive(Clone, Copy, Debug, Default)]
struct Region {
    count: Count,
    /// This many more reads of the server are not kept.
    unkept: u16,
    /// How many were not the last time: none if it paid to keep them.
    were_unkept: u16,
    /// A caller has waited for changes here.
    is_watched: bool,
}

impl Count {
    fn begin(&mut self, hits: u32) {
        *self = Count { lost: 0, hits };
    }

    /// Whether as much was saved as was lost, if enough was by now. Then it begins again.
    fn pays(&mut self, hits: u32, enough: u32) -> Option<bool> {
        let (saved, lost) = (hits.wrapping_sub(self.hits), self.lost);
        let is_enough = saved.saturating_add(lost) >= enough;
        is_enough.then(|| {
            self.begin(hits);
            saved >= lost
        })
    }
}

impl Region {
    /// The client has asked the server for what it has read here, and does not keep it. `hits` is
    /// how many scans that begin here the cache has answered.
    fn note_unkept(&mut self, hits: impl FnOnce() -> u32) {
        self.unkept -= 1;
        if self.unkept == 0 {
            self.count.begin(hits());
        }
    }

    /// The client has asked the server for what it has read here, and keeps it. `loses` is whether
    /// it loses more than it saves everywhere. Returns whether it no longer keeps what it has here.
    fn note_kept(&mut self, hits: u32, loses: bool) -> bool {
        let enough = if loses || self.were_unkept > 0 { ENOUGH_IN_DOUBT } else { ENOUGH };
        let pays = self.count.pays(hits, enough);
        match pays {
            None => {}
            Some(true) => self.were_unkept = 0,
            Some(false) => {
                self.were_unkept = (self.were_unkept * 2).clamp(FEWEST_READS, MOST_READS);
                self.unkept = self.were_unkept;
            }
        }
        pays == Some(false)
    }
}

impl Default for Keeping {
    fn default() -> Keeping {
        let (regions, everywhere) = (vec![Region::default(); REGIONS].into(), Count::default());
        let (loses, keeps_all, given_up) = (false, false, Vec::new());
        Keeping { regions, everywhere, loses, keeps_all, given_up }
    }
}

impl Keeping {
    /// The client has lost the row of this key, or the gap below it, to a callback.
    fn note_lost(&mut self, key: u64) {
        for count in [&mut self.everywhere, &mut self.regions[region_of(key)].count] {
            count.lost = count.lost.saturating_add(1);
        }
    }

    /// A caller waits for changes of these keys.
    pub fn note_watched(&mut self, keys: &Range<u64>) {
        regions_of(keys).for_each(|region| self.regions[region].is_watched = true);
    }

    fn keeps_always(&self, span: &Range<u64>) -> bool {
        self.keeps_all || regions_of(span).any(|region| self.regions[region].is_watched)
    }

    /// A read of these keys has asked the server.
    fn note_read(&mut self, keys: &Range<u64>, hits: &Hits) {
        if self.keeps_always(keys) {
            return;
        }
        let place = region_of(keys.start);
        let region = &mut self.regions[place];
        if region.unkept > 0 {
            region.note_unkept(|| hits.in_region(place));
            return;
        }
        if let Some(pays) = self.everywhere.pays(hits.all(), ENOUGH) {
            self.loses = !pays;
        }
        if region.note_kept(hits.in_region(place), self.loses) {
            self.given_up.push(region_around(keys.start));
        }
    }

    /// Whether the client keeps what it reads or writes of these keys.
    pub fn keeps(&self, keys: &Range<u64>) -> bool {
        self.regions[region_of(keys.start)].unkept == 0 || self.keeps_always(keys)
    }
}

impl State {
    /// From now on the client keeps what it reads, however often others write it.
    pub fn keep_all(&mut self) {
        self.keeping.keeps_all = true;
    }

    /// Whether the client reads the entry of this slot, and the gap below it.
    pub(in crate::client::state) fn reads_of(&self, slot: &Range<u64>) -> [bool; 2] {
        let entry = entry_of(slot);
        [self.client.reads_entry(entry), self.client.reads_gap(entry)]
    }

    /// This slot was called back, of which the client read this before. What is pinned it still
    /// reads.
    pub(in crate::client::state) fn note_lost(&mut self, slot: &Range<u64>, read: [bool; 2]) {
        if read.into_iter().zip(self.reads_of(slot)).any(|(before, after)| before && !after) {
            self.keeping.note_lost(entry_of(slot));
        }
    }

    /// A job has read these keys, of which it has asked the server.
    pub(in crate::client::state) fn note_read(&mut self, keys: &Range<u64>) {
        self.keeping.note_read(keys, self.client.hits());
    }

    /// A job has read this many rows of these keys with a lock. What is not kept, and was locked
    /// since another client excluded readers, is given back.
    pub(in crate::client::state) fn note_locked_read(&mut self, keys: &Range<u64>, rows: usize) {
        if rows <= PAGE && !self.keeping.keeps(keys) {
            self.keeping.given_up.push(keys.clone());
        }
        self.note_read(keys);
    }

    /// Gives back what the client no longer keeps, when all jobs have continued. What is pinned stays
    /// until it is called back.
    pub(in crate::client::state) fn give_back_unkept(&mut self) {
        for keys in mem::take(&mut self.keeping.given_up) {
            // The server passes over a release that leaves while a push is on its way.
            if !self.shows(Shown::awaits_a_push) {
                let _ = self.try_forget(&keys);
            }
        }
    }

    /// Whether the client gives back what it has just written in this slot: it does not keep it.
    pub(in crate::client::state) fn gives_back_after_write(&self, slot: &Range<u64>) -> bool {
        let entry = entry_of(slot);
        !self.keeping.keeps(&(entry..entry + 1))
    }
}

#[cfg(test)]
mod tests;
