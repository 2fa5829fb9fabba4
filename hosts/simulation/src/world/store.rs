//! What the store does with the commits of servers.
use super::{Event, World};
use crate::record::Happened;
use krl::Outcome;
use krl::store::Change;
use std::time::Duration;

/// A server's clock may be behind an incarnation by this much.
const FAR_AHEAD: Duration = Duration::from_secs(24 * 3600);

/// What the store does with a commit.
#[derive(Clone, Copy, Debug, PartialEq, Eq)]
pub(super) enum Does {
    All,
    /// It keeps this many of the changes, and then fails.
    Only(usize),
    /// It keeps all, and its answer is lost.
    AllUnanswered,
}

/// What a server learns of its commit.
#[derive(Clone, Copy, Debug, PartialEq, Eq)]
pub(super) enum Stored {
    Kept,
    Failed,
    /// A later server has the store.
    Deposed,
}

impl World {
    /// Draws what the store does with a commit, and when.
    pub(super) fn ask_store(&mut self, start: u64, changes: &[Change]) {
        let (fails, hangs) = (self.weather.store_fails, self.weather.store_hangs);
        let dice = &mut self.dice;
        let does = match dice.among(0..10_000) < fails {
            true if dice.happens(300) => Does::AllUnanswered,
            true => Does::Only(dice.below(changes.len() + 1)),
            false => Does::All,
        };
        let hangs = dice.among(0..10_000) < hangs;
        let time = if hangs { dice.time(10_000..3_000_000) } else { dice.time(20..500) };
        self.asked.push((start, changes.to_vec(), does));
        self.after(time, Event::Store { start });
    }

    /// The server of this start has ended. What it has asked for may have been lost, or a part of it
    /// is kept, or it comes to the store all the same.
    pub(super) fn forget_asked(&mut self, start: u64) {
        let Some(place) = self.asked.iter().position(|asked| asked.0 == start) else { return };
        match self.dice.among(0..3) {
            0 => drop(self.asked.remove(place)),
            1 => {
                let kept = self.dice.below(self.asked[place].1.len() + 1);
                self.asked[place].2 = Does::Only(kept);
            }
            _ => {}
        }
    }

    /// The store takes what the server of this start commits, if no later one has the store.
    pub(super) fn store(&mut self, start: u64) {
        let Some(place) = self.asked.iter().position(|asked| asked.0 == start) else { return };
        let (_, changes, does) = self.asked.remove(place);
        let stored =
            if self.disk.owner() == start { self.keep(&changes, does) } else { Stored::Deposed };
        let answers = self.draw_answer();
        let is_here = |serving: &super::Serving| serving.start == start;
        let site = self.sites.iter().position(|site| site.serving.as_ref().is_some_and(is_here));
        if let Some(site) = site {
            self.after(answers, Event::Stored { site, start, stored });
        }
    }

    /// How long the store's answer is on its way. A server may learn of a commit when another
    /// server has had the store for a long time.
    fn draw_answer(&mut self) -> Duration {
        let is_late = self.dice.among(0..10_000) < self.weather.store_hangs;
        self.dice.time(if is_late { 10_000..3_000_000 } else { 10..300 })
    }

    fn keep(&mut self, changes: &[Change], does: Does) -> Stored {
        let kept = match does {
            Does::All | Does::AllUnanswered => changes,
            Does::Only(count) => &changes[..count],
        };
        self.disk.keep(kept);
        self.judge_kept(kept);
        if does == Does::All { Stored::Kept } else { Stored::Failed }
    }

    /// Judges changes that are kept.
    pub(super) fn judge_kept(&mut self, changes: &[Change]) {
        self.judge.kept(changes);
        for change in changes {
            self.record.note(self.now, &spelled(change), || {
                Happened::World(format!("the store keeps {change:?}"))
            });
        }
    }

    /// No server registers an incarnation that is more than a day ahead of its clock.
    pub(super) fn judge_incarnations(&mut self, site: usize, changes: &[Change]) {
        let time = self.sites[site].clock.at(self.now);
        for change in changes {
            if let Change::Registered { client, incarnation } = change
                && *incarnation > super::client::incarnation_at(time + FAR_AHEAD)
            {
                self.judge.find(format!("client {client} is registered a day ahead: {change:?}"));
            }
        }
    }
}

/// Numbers that stand for a change.
fn spelled(change: &Change) -> [u64; 4] {
    match *change {
        Change::Started { epoch } => [1, epoch, 0, 0],
        Change::Registered { client, incarnation } => [2, client.into(), incarnation, 0],
        Change::Left { client } => [3, client.into(), 0, 0],
        Change::Judged { client, number, write, outcome } => {
            let outcome = u64::from(outcome == Outcome::Applied);
            [4, u64::from(client) << 1 | outcome, number, write.key()]
        }
        Change::Leased(record) => [5, record.longest, record.unleased.bits(), 0],
        Change::Room(room) => [6, room.rows() as u64, 0, 0],
        Change::Shard(shard) => [7, shard.bounds.keys().start, shard.bounds.keys().end, 0],
    }
}
