//! The store of the simulated servers: what it keeps survives them.
use crate::dice::Dice;
use krl::store::{Change, History, Mark, Snapshot, Store, StoreError};

/// What is on the disk. A server commits in two steps, between which it may be killed: so
/// [`Disk::keep`] is all that changes it while a server runs.
#[derive(Debug)]
pub struct Disk {
    snapshot: Snapshot,
    /// Each start of a server over it, if it keeps its history.
    starts: Option<Vec<Mark>>,
    /// The start that may commit: the last one.
    owner: u64,
    dice: Dice,
    copy: Option<Box<(Snapshot, Vec<Mark>)>>,
}

impl Disk {
    /// An empty disk.
    #[must_use]
    pub fn new(dice: Dice, has_history: bool) -> Disk {
        let starts = has_history.then(Vec::new);
        Disk { snapshot: Snapshot::default(), starts, owner: 0, dice, copy: None }
    }

    /// The start that may commit.
    #[must_use]
    pub fn owner(&self) -> u64 {
        self.owner
    }

    /// What is kept.
    #[must_use]
    pub fn snapshot(&self) -> &Snapshot {
        &self.snapshot
    }

    /// The next start takes the disk. No earlier one commits any more.
    pub fn take(&mut self, start: u64) {
        self.owner = start;
        let drawn = u128::from(self.dice.draw()) << 64 | u128::from(self.dice.draw());
        if let Some(starts) = &mut self.starts {
            starts.push(Mark { start: drawn, commits: 0 });
        }
    }

    /// Keeps the changes, in their order.
    pub fn keep(&mut self, changes: &[Change]) {
        for change in changes {
            self.snapshot.apply(change);
        }
        let last = self.starts.as_mut().and_then(|starts| starts.last_mut());
        if let Some(last) = last.filter(|_| !changes.is_empty()) {
            last.commits += 1;
        }
    }

    /// Somebody copies it, if it keeps its history, by which a copy is recognized.
    pub fn copy(&mut self) -> bool {
        let copied = self.starts.clone().map(|starts| (self.snapshot.clone(), starts));
        self.copy = copied.map(Box::new);
        self.copy.is_some()
    }

    /// Puts the copy in its place, if there is one.
    pub fn put_back(&mut self) -> bool {
        let Some(copy) = &self.copy else { return false };
        let (snapshot, starts) = (**copy).clone();
        self.snapshot = snapshot;
        self.starts = Some(starts);
        true
    }
}

impl Store for Disk {
    fn load(&mut self) -> Result<Snapshot, StoreError> {
        Ok(self.snapshot.clone())
    }

    fn commit(&mut self, changes: &[Change]) -> Result<(), StoreError> {
        self.keep(changes);
        Ok(())
    }

    fn snapshot(&mut self) -> Result<Snapshot, StoreError> {
        Ok(self.snapshot.clone())
    }

    fn history(&mut self) -> Result<Option<History>, StoreError> {
        Ok(self.starts.clone().and_then(History::new))
    }
}
