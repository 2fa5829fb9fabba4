//! The leases of a server's clients. The library's table decides; what is here is what the store has
//! of it, and on which connection each sign came.
use crate::ffi::{self, code, done};
use crate::lease::boot_clock::Moment;
use crate::lease::terms::{FOR_EVER, Grant, LeaseLeft, Leases, Older, Sign};
use crate::model::change::Record;
use crate::model::client_number::ClientNumber;
use crate::model::client_set::ClientSet;
use crate::model::code::Code;
use crate::model::lease_record::LeaseRecord;
use std::mem;
use std::time::Duration;

/// The leases of a server's clients.
#[derive(Debug)]
pub(crate) struct LeaseTable {
    table: ffi::LeaseTable,
    /// The signs that are to be answered, in their order, each with its connection.
    asked: Vec<(u64, Sign)>,
}

impl LeaseTable {
    /// That of a server that is about to start over a store that has this.
    pub fn over(
        kept: LeaseRecord,
        clients: &[Record],
        leases: Option<Leases>,
    ) -> Result<LeaseTable, Code> {
        let mut table = ffi::krl_lease_table_new(&Leases::terms(leases), kept.longest);
        for client in ClientNumber::all() {
            let record = clients.iter().find(|record| record.client == client);
            let stored = ffi::StoredLease {
                incarnation: record.map_or(0, |record| record.incarnation),
                has_left: record.is_none_or(|record| record.left).into(),
                is_unleased: kept.unleased.has(client).into(),
            };
            done(ffi::krl_lease_table_store_has(&mut table, client.into(), &stored))?;
        }
        Ok(LeaseTable { table, asked: Vec::new() })
    }

    /// A commit begins. Before anything rests on it, the store has what [`LeaseTable::record`]
    /// returns now. Returns the commit's number.
    pub fn commit(&mut self) -> Result<u64, Code> {
        done(ffi::krl_lease_table_commit(&mut self.table))
    }

    /// The store has made this commit: it was still this server's after that had begun.
    pub fn committed(&mut self, commit: u64) -> Result<(), Code> {
        done(ffi::krl_lease_table_committed(&mut self.table, commit)).map(drop)
    }

    /// The server begins. Its first commit is made, and the clock is read after that.
    pub fn open(&mut self, now: Moment) -> Result<(), Code> {
        done(ffi::krl_lease_table_open(&mut self.table, now.nanoseconds())).map(drop)
    }

    /// The same with its first commit made and the server begun.
    #[cfg(test)]
    pub fn opened(
        kept: LeaseRecord,
        clients: &[Record],
        leases: Option<Leases>,
        now: Moment,
    ) -> LeaseTable {
        let mut table = LeaseTable::over(kept, clients, leases).unwrap();
        let first = table.commit().unwrap();
        table.committed(first).unwrap();
        table.open(now).unwrap();
        table
    }

    /// The record that is stored, or is about to be.
    pub fn record(&self) -> LeaseRecord {
        let unleased = ClientNumber::all().filter(|client| self.shown(*client).is_unleased != 0);
        LeaseRecord { longest: self.shown(0).longest, unleased: unleased.collect() }
    }

    /// The incarnation of the client that was registered last, or 0.
    pub fn registered(&self, client: u8) -> u64 {
        self.shown(client).registered
    }

    fn shown(&self, client: u8) -> ffi::LeaseShown {
        ffi::krl_lease_table_shows(&self.table, client.into())
    }

    /// Takes a sign, which came on this connection. The clock is read after it. Its terms leave
    /// after the commit that begins next.
    ///
    /// # Errors
    ///
    /// `Gone` if its incarnation answers nothing any more, and `BadClient`.
    pub fn sign(&mut self, connection: u64, sign: Sign, now: Moment) -> Result<(), Code> {
        let (over, is_vouched) = word_of(sign.older);
        let raw = ffi::RawSign {
            incarnation: sign.incarnation,
            stamp: sign.stamp.nanoseconds(),
            length: sign.length,
            over,
            is_vouched: is_vouched.into(),
        };
        let table = &mut self.table;
        done(ffi::krl_lease_table_sign(table, sign.client.into(), &raw, now.nanoseconds()))?;
        self.asked.push((connection, sign));
        Ok(())
    }

    /// Whether signs wait for their terms.
    pub fn owes_terms(&self) -> bool {
        !self.asked.is_empty()
    }

    /// The terms that may leave now, each with the connection on which its sign came: another one
    /// would bring them to a process that did not ask. Signs that get none now count as lost.
    pub fn take_terms(&mut self) -> Vec<(u64, Grant)> {
        let asked = mem::take(&mut self.asked);
        let clients: ClientSet = asked.iter().map(|(_, sign)| sign.client).collect();
        let granted = clients.iter().filter_map(|client| self.grant(client));
        granted.filter_map(|(client, grant)| Some((asker(&asked, client, grant)?, grant))).collect()
    }

    fn grant(&mut self, client: u8) -> Option<(u8, Grant)> {
        let raw = ffi::krl_lease_table_take_terms(&mut self.table, client.into());
        let ffi::RawGrant { incarnation, stamp, length, is_there, .. } = raw;
        let grant = Grant { incarnation, stamp: Moment::of_nanoseconds(stamp), length };
        (is_there != 0).then_some((client, grant))
    }

    /// Whether a Hello of this incarnation may be handed to the library. If so, an older one
    /// answers nothing from now on. One that has to wait is dropped: it is sent again.
    pub fn admit(&mut self, client: u8, incarnation: u64, now: Moment) -> Result<bool, Code> {
        let (table, now) = (&mut self.table, now.nanoseconds());
        match code(ffi::krl_lease_table_admit(table, client.into(), incarnation, now)) {
            // The library takes no such number.
            Code::Done | Code::BadClient => Ok(true),
            Code::StillAnswers => Ok(false),
            refused => Err(refused),
        }
    }

    /// Whether this incarnation would replace another one, of which nothing but its start shows
    /// that it is over: no sign of this one has come.
    pub fn replaces_unsigned(&self, client: u8, incarnation: u64) -> bool {
        let ffi::LeaseShown { registered, signer, is_present, .. } = self.shown(client);
        is_present != 0 && registered < incarnation && signer != incarnation
    }

    /// A client has registered. What [`LeaseTable::record`] returns then has to be stored with that,
    /// before the client is answered.
    ///
    /// A client of which no sign came has a host that knows nothing of leases: it answers forever,
    /// and only an operator evicts it.
    pub fn register(&mut self, client: u8, incarnation: u64, now: Moment) -> Result<(), Code> {
        let (table, now) = (&mut self.table, now.nanoseconds());
        done(ffi::krl_lease_table_register(table, client.into(), incarnation, now)).map(drop)
    }

    /// No process of the registered incarnation is left, as this server's host knows: it answers
    /// nothing from now on, and [`LeaseTable::evict`] evicts it. Nothing changes if it has left, or
    /// if it has a lease for whose end a greater incarnation waits: that one's sign counts.
    ///
    /// The table learns it as from a lock file: by a sign of the incarnation that is to evict it,
    /// whose host is this server's.
    pub fn is_over(&mut self, client: u8, now: Moment) -> Result<(), Code> {
        let ffi::LeaseShown { registered, is_present, signer, .. } = self.shown(client);
        let Some(successor) = registered.checked_add(1).filter(|_| is_present != 0) else {
            return Ok(());
        };
        if signer <= successor {
            let (incarnation, over, stamp) = (successor, registered, now.nanoseconds());
            let sign = ffi::RawSign { incarnation, stamp, length: 0, over, is_vouched: 0 };
            done(ffi::krl_lease_table_sign(&mut self.table, client.into(), &sign, stamp))?;
        }
        self.admit(client, successor, now).map(drop)
    }

    /// The incarnation by whose Hello and Bye the client is to be evicted, if it is. It answers
    /// nothing from then on.
    pub fn evict(&mut self, client: u8, now: Moment) -> Result<Option<u64>, Code> {
        let (table, now) = (&mut self.table, now.nanoseconds());
        let successor = done(ffi::krl_lease_table_evict(table, client.into(), now))?;
        Ok((successor != 0).then_some(successor))
    }

    /// The server has registered the incarnation that evicts a client: it answers nothing.
    pub fn succeed(&mut self, client: u8, successor: u64) -> Result<(), Code> {
        let table = &mut self.table;
        done(ffi::krl_lease_table_succeed(table, client.into(), successor)).map(drop)
    }

    /// A client has left, or was evicted.
    pub fn leave(&mut self, client: u8) -> Result<(), Code> {
        done(ffi::krl_lease_table_leave(&mut self.table, client.into())).map(drop)
    }

    /// The store may have to keep less from now on. The record need not be stored at once.
    pub fn revise(&mut self, now: Moment) -> Result<(), Code> {
        done(ffi::krl_lease_table_revise(&mut self.table, now.nanoseconds())).map(drop)
    }

    /// The clients that are registered and may answer, each with the end of its lease.
    fn present(&self) -> impl Iterator<Item = (u8, u64)> {
        let shown = ClientNumber::all().map(|client| (client, self.shown(client)));
        shown.filter(|(_, it)| it.is_present != 0).map(|(client, it)| (client, it.end))
    }

    /// The clients that are registered and may answer, by number, each with what is left of its
    /// lease.
    pub fn left(&self, now: Moment) -> Vec<(u8, LeaseLeft)> {
        self.present().map(|(client, end)| (client, left_until(end, now))).collect()
    }

    /// The clients that may answer forever, and that only an operator evicts.
    pub fn unleased(&self) -> Vec<u8> {
        self.present().filter(|(_, end)| *end == FOR_EVER).map(|(client, _)| client).collect()
    }
}

/// The connection on which the sign came that these terms answer.
fn asker(asked: &[(u64, Sign)], client: u8, grant: Grant) -> Option<u64> {
    let is_it = |sign: &Sign| {
        (sign.client, sign.incarnation, sign.stamp) == (client, grant.incarnation, grant.stamp)
    };
    asked.iter().rev().find(|(_, sign)| is_it(sign)).map(|(connection, _)| *connection)
}

/// Which older incarnation is known to be over, or 0, and whether an operator vouches for all.
fn word_of(older: Older) -> (u64, bool) {
    match older {
        Older::Unknown => (0, false),
        Older::IsOver(incarnation) => (incarnation, false),
        Older::Vouched => (0, true),
    }
}

fn left_until(end: u64, now: Moment) -> LeaseLeft {
    match end {
        FOR_EVER => LeaseLeft::Unending,
        _ => LeaseLeft::Ends(Duration::from_nanos(end.saturating_sub(now.nanoseconds()))),
    }
}

#[cfg(test)]
mod tests;
#[cfg(test)]
mod world;
