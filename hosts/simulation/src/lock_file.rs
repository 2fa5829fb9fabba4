//! The lock file of a client's number, on the disk of its machine.
use krl::sans_io::{Incarnations, Older};
use std::io;

/// A lock file, as the process that has it knows it.
#[derive(Clone, Copy, Debug)]
pub struct LockFile {
    number: u8,
    current: u64,
    older: Older,
    /// The last incarnation that is on the disk, or 0.
    kept: u64,
    /// What the clock shows that operators set.
    clock: u64,
}

impl LockFile {
    /// That of this number, taken by a process that finds this incarnation in it, or 0.
    #[must_use]
    pub fn taken(number: u8, kept: u64, clock: u64) -> LockFile {
        let mut taken = LockFile { number, current: kept, older: Older::Unknown, kept, clock };
        taken.renew();
        taken
    }

    /// A new one of an operator, who vouches that no incarnation before this one answers any more.
    #[must_use]
    pub fn of_operator(number: u8, incarnation: u64) -> LockFile {
        LockFile { number, current: incarnation, older: Older::Vouched, kept: 0, clock: 0 }
    }

    /// The last incarnation that is on the disk, or 0.
    #[must_use]
    pub fn kept(&self) -> u64 {
        self.kept
    }

    /// The clock shows this now.
    pub fn set_clock(&mut self, clock: u64) {
        self.clock = clock;
    }
}

impl Incarnations for LockFile {
    fn number(&self) -> u8 {
        self.number
    }

    fn current(&self) -> u64 {
        self.current
    }

    fn renew(&mut self) {
        self.current = self.clock.max(self.current + 1);
        self.older = if self.kept > 0 { Older::IsOver(self.kept) } else { Older::Unknown };
    }

    fn older(&self) -> Older {
        self.older
    }

    fn keep(&mut self) -> io::Result<()> {
        self.kept = self.current;
        Ok(())
    }
}
