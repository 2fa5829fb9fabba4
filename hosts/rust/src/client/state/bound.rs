//! Writes that are bound to a pin.
use super::batch::Report;
use super::life::Stage;
use super::writing::Kept;
use super::{Asked, Job, State};
use crate::call::error::ErrorKind;
use crate::model::change::{Outcome, Write};

/// What has to hold for a write to be made.
#[derive(Clone, Copy, Debug, PartialEq, Eq)]
pub(super) enum Bond {
    /// Nothing: any incarnation of the client makes it.
    Free,
    /// This pin. Another client may have written since the pin became void, and the caller decided
    /// by what the pin kept.
    Pin(u64),
}

/// A write that was asked for.
#[derive(Debug)]
pub(super) struct Wanted {
    pub write: Write,
    pub bond: Bond,
    /// What a delete keeps until it is sent.
    pub kept: Option<Kept>,
}

impl Wanted {
    pub fn new(write: Write, bond: Bond) -> Wanted {
        Wanted { write, bond, kept: None }
    }

    pub fn free(write: Write) -> Wanted {
        Wanted::new(write, Bond::Free)
    }

    /// The same write of a client that has dropped all, its pins too.
    pub fn begun_again(self) -> Wanted {
        Wanted { kept: None, ..self }
    }
}

impl State {
    /// A write that is made while the pin holds, or never.
    ///
    /// Only the incarnation that has the pin sends it. A server takes a write from the registered
    /// incarnation only, and as long as that is this one, no other client has anything of the pin.
    pub fn write_under(&mut self, pin: u64, write: Write) -> Asked<Outcome> {
        self.end_lease_if_over();
        let bond = Bond::Pin(pin);
        if !self.may_ask_to_write(bond) {
            return self.answer_at_once(Err(ErrorKind::PinIsVoid));
        }
        let wanted = Wanted::new(write, bond);
        self.add(|reply| Job::Write(wanted, Report::Once(reply)))
    }

    /// Whether a write of this bond is added to the jobs. A write by a pin of a
    /// client that has left is: it ends with `Left`.
    pub(super) fn may_ask_to_write(&mut self, bond: Bond) -> bool {
        self.may_write(bond) || self.life.stage == Stage::Gone
    }

    /// Whether the client may send the write just now. It is asked each time before one is sent.
    pub(super) fn may_write(&self, bond: Bond) -> bool {
        match bond {
            Bond::Free => true,
            Bond::Pin(pin) => self.holds_pin(pin),
        }
    }

    /// A write was sent.
    pub(super) fn note_bond(&mut self, bond: Bond, number: u64) {
        if let Bond::Pin(pin) = bond {
            self.held.pins.bind(pin, number);
        }
    }

    /// Ends the writes that wait, and are bound to a pin that no longer holds.
    pub(super) fn end_unbound_writes(&mut self) {
        for (id, job) in std::mem::take(&mut self.open) {
            match job {
                Job::Write(Wanted { bond, .. }, report) if !self.may_write(bond) => {
                    report.refuse(ErrorKind::PinIsVoid);
                }
                job => self.open.push((id, job)),
            }
        }
    }
}
