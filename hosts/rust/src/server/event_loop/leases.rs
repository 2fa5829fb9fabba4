//! The leases of a server's clients, as its loop learns of them, stores them and evicts by them.
use super::EventLoop;
use crate::lease::boot_clock::Moment;
use crate::lease::clocks::Now;
use crate::lease::of_server::LeaseTable;
use crate::lease::terms::{Answer, Sign};
use crate::log::event_log::Ended;
use crate::model::change::Change;
use crate::model::client_number::ClientNumber;
use crate::model::code::Code;
use crate::model::refusal::Refusal;
use crate::server::ahead;
use crate::server::error::ServeError;
use crate::wire::message::{self, Head, Kind};

impl EventLoop {
    /// Takes a sign, which has come by now. Its terms leave after the commit that begins next, by
    /// which the store has answered that it is still this server's. The host of an incarnation that
    /// has ended learns why.
    pub(super) fn receive_sign(
        &mut self,
        connection: u64,
        sign: Sign,
        now: Now,
    ) -> Result<(), ServeError> {
        self.status.signs += 1;
        let (client, incarnation) = (sign.client, sign.incarnation);
        match self.leases.sign(connection, sign, boot(now)?) {
            Ok(()) | Err(Code::BadClient) => Ok(()),
            Err(Code::Gone) => {
                let registered = self.leases.registered(client);
                if registered > incarnation {
                    let refusal = Refusal::Incarnation { client, registered };
                    self.connections.refuse(connection, refusal);
                }
                let ended = Answer::Ended { incarnation };
                self.connections.send_after_commit(connection, &ended.frame());
                Ok(())
            }
            Err(code) => Err(ServeError::Refused(code)),
        }
    }

    /// Sends the terms that may leave since a commit has been made.
    pub(super) fn send_terms(&mut self) {
        for (connection, grant) in self.leases.take_terms() {
            self.connections.send_after_commit(connection, &Answer::Granted(grant).frame());
        }
    }

    /// Whether the library may have the message. A Hello that has to wait for an older incarnation, or
    /// is too far ahead of the server's clock, counts as lost, and the client's host learns why.
    pub(super) fn accepts_hello(
        &mut self,
        connection: u64,
        head: Option<Head>,
        now: Now,
    ) -> Result<bool, ServeError> {
        let hello = head.filter(|head| head.kind == Kind::Hello);
        let hello = hello.and_then(|head| Some((head.client()?, head.incarnation)));
        let Some((client, incarnation)) = hello else { return Ok(true) };
        let registered = self.leases.registered(client);
        let latest = ahead::latest(registered, now.wall());
        if incarnation > latest {
            self.log.far_ahead(&self.connections.at(connection), client, incarnation);
            self.connections.refuse(connection, Refusal::FarAhead { client, latest });
            return Ok(false);
        }
        // The table comes last: once it has admitted one, the older one answers nothing.
        let is_accepted = !self.replaces_active_one(connection, client, incarnation)
            && self.admits(client, incarnation, now)?;
        if !is_accepted {
            self.connections.refuse(connection, Refusal::LeaseRuns { client, registered });
        }
        Ok(is_accepted)
    }

    fn admits(&mut self, client: u8, incarnation: u64, now: Now) -> Result<bool, ServeError> {
        self.leases.admit(client, incarnation, boot(now)?).map_err(ServeError::Refused)
    }

    /// Whether this incarnation, of which no sign has come, would replace one that still sends.
    ///
    /// Starting a client vouches that the one before is over. Two processes with two lock files of
    /// one number show that it is not: the older one would answer from its cache until it learns of
    /// the newer one.
    fn replaces_active_one(&self, connection: u64, client: u8, incarnation: u64) -> bool {
        self.leases.replaces_unsigned(client, incarnation)
            && self.connections.is_active_elsewhere(client, connection)
    }

    /// Takes a change into those of the next commit.
    ///
    /// What is stored of leases comes before the registration that rests on it: after an error a
    /// first part of the changes may be kept.
    pub(super) fn keep(&mut self, change: Change, now: Now) -> Result<(), ServeError> {
        match change {
            Change::Registered { client, incarnation } => {
                let now = boot(now)?;
                self.change_leases(|leases| leases.register(client, incarnation, now))?;
            }
            Change::Left { client } => self.leases.leave(client).map_err(ServeError::Refused)?,
            _ => {}
        }
        self.gathered.changes.push(change);
        Ok(())
    }

    /// Changes the table, and stores what it has to have stored, if that is something else then.
    fn change_leases(
        &mut self,
        change: impl FnOnce(&mut LeaseTable) -> Result<(), Code>,
    ) -> Result<(), ServeError> {
        let before = self.leases.record();
        change(&mut self.leases).map_err(ServeError::Refused)?;
        let record = self.leases.record();
        if record != before {
            self.gathered.changes.push(Change::Leased(record));
        }
        Ok(())
    }

    /// Evicts each client whose lease or process has ended, and stores less of leases if less is
    /// enough now.
    pub(super) fn evict_ended(&mut self, now: Now) -> Result<(), ServeError> {
        for client in ClientNumber::all() {
            let registered = self.leases.registered(client);
            let mut ended = Ended::Lease;
            if self.processes.is_dead(client, registered) {
                self.leases.is_over(client, boot(now)?).map_err(ServeError::Refused)?;
                ended = Ended::Process;
            }
            let successor = self.leases.evict(client, boot(now)?).map_err(ServeError::Refused)?;
            successor.map_or(Ok(()), |successor| self.evict(client, successor, ended))?;
        }
        let now = boot(now)?;
        self.change_leases(|leases| leases.revise(now))
    }

    /// Gives the library what an operator would send: a Hello of the next incarnation, and its Bye.
    fn evict(&mut self, client: u8, successor: u64, ended: Ended) -> Result<(), ServeError> {
        self.log.evicts(client, successor, ended);
        for message in message::eviction(client, successor) {
            match self.server.step(&message) {
                Ok(None) => {}
                Ok(Some(change)) => self.keep_eviction(change)?,
                // A later nudge comes back to it. There is none greater than the greatest
                // incarnation, which a stranger may take: it can't be evicted.
                Err(Code::OutOfMemory | Code::BadMessage) => return Ok(()),
                Err(code) => return Err(ServeError::Refused(code)),
            }
        }
        Ok(())
    }

    /// Takes a change that an eviction has made into those of the next commit. The incarnation that
    /// registers is this host's, and not a client's.
    fn keep_eviction(&mut self, change: Change) -> Result<(), ServeError> {
        match change {
            Change::Registered { client, incarnation } => {
                self.change_leases(|leases| leases.succeed(client, incarnation))?;
            }
            Change::Left { client } => {
                self.leases.leave(client).map_err(ServeError::Refused)?;
                self.status.evicted += 1;
            }
            _ => {}
        }
        self.gathered.changes.push(change);
        Ok(())
    }
}

/// The clock by which leases run.
fn boot(now: Now) -> Result<Moment, ServeError> {
    now.boot().map_err(ServeError::Clock)
}
