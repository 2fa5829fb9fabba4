//! A server of the library.
use crate::ffi::{self, code, done};
use crate::model::change::{Change, Outcome, Record, Write};
use crate::model::client_number::{ClientNumber, PerClient};
use crate::model::code::Code;
use crate::model::lock::{HeldSlot, Mode, Waiting};
use crate::model::reach::Reach;
use crate::model::room::Room;
use crate::model::row::{END, Row};
use crate::model::snapshot::Snapshot;
use crate::proved::handle::Handle;
use std::ops::Range;

/// A server of the library.
pub(crate) struct ServerHandle {
    handle: Handle,
    /// This many of the notes that it has reported are on the disk.
    confirmed: u64,
}

impl ServerHandle {
    /// Starts a server of this room and this reach on what was kept, and returns its epoch: it has
    /// to be kept before anything is sent.
    pub fn open(
        snapshot: &Snapshot,
        room: Room,
        reach: Reach,
    ) -> Result<(ServerHandle, u64), Code> {
        let rows: Vec<Row> =
            snapshot.rows.iter().map(|(key, value)| Row { key: *key, value: *value }).collect();
        let records: Vec<_> = snapshot.records.iter().map(raw_record).collect();
        let mut handle = Handle::closed();
        // SAFETY: as for any handle, and that many rows and records are there to be read.
        let reply = unsafe {
            ffi::krl_server_open(
                handle.raw(),
                room.rows(),
                reach.slots(),
                snapshot.epoch,
                rows.as_ptr(),
                rows.len(),
                records.as_ptr(),
                records.len(),
            )
        };
        let epoch = done(reply)?;
        Ok((ServerHandle { handle, confirmed: 0 }, epoch))
    }

    /// Gives the server a message, and returns what has to be kept before anything more is sent.
    pub fn step(&mut self, message: &[u8]) -> Result<Option<Change>, Code> {
        // SAFETY: as for any handle, and that many bytes of the message are there to be read.
        let stepped =
            unsafe { ffi::krl_server_step(self.handle.raw(), message.as_ptr(), message.len()) };
        done(stepped.reply)?;
        change_of(&stepped.change)
    }

    /// Confirms that these changes are on the disk, after all earlier ones: what rests on them may
    /// be sent. They have to be all that the server has reported since.
    ///
    /// # Errors
    ///
    /// [`Code::Unkept`] if one is missing, and [`Code::NotReported`] if there are more.
    pub fn confirm(&mut self, kept: &[Change]) -> Result<(), Code> {
        self.confirmed += notes(kept);
        let reported = self.handle.confirm(self.confirmed)?;
        if reported == self.confirmed { Ok(()) } else { Err(Code::Unkept) }
    }

    pub fn nudge(&mut self, client: u8) -> Result<(), Code> {
        // SAFETY: the handle stays in its place, and `&mut` gives it to this call only.
        done(unsafe { ffi::krl_server_nudge(self.handle.raw(), client.into()) }).map(drop)
    }

    pub fn is_serving(&mut self) -> bool {
        const SERVING: u64 = 1;
        // SAFETY: the handle stays in its place, and `&mut` gives it to this call only.
        unsafe { ffi::krl_server_status(self.handle.raw()) }.phase == SERVING
    }

    /// The clients whose reports are missing.
    pub fn missing(&mut self) -> Result<Vec<u8>, Code> {
        let mut clients: PerClient<u64> = [0; ClientNumber::COUNT as usize];
        let room = clients.len();
        // SAFETY: as for any handle, and there is this much room to be written to.
        let reply =
            unsafe { ffi::krl_server_missing(self.handle.raw(), clients.as_mut_ptr(), room) };
        listed(reply, &clients)
    }

    /// What is kept of the client, if it ever registered.
    pub fn record(&mut self, client: u8) -> Result<Option<Record>, Code> {
        // SAFETY: the handle stays in its place, and `&mut` gives it to this call only.
        let raw = unsafe { ffi::krl_server_record(self.handle.raw(), client.into()) };
        match code(raw.reply) {
            Code::BadClient => Ok(None),
            _ => done(raw.reply).map(|_| record_of(&raw.record)),
        }
    }

    /// The clients that wait for a lock, by number, each with those that it waits for.
    pub fn waiting(&mut self) -> Result<Vec<Waiting>, Code> {
        ClientNumber::all().filter_map(|client| self.waiting_of(client).transpose()).collect()
    }

    fn waiting_of(&mut self, client: u8) -> Result<Option<Waiting>, Code> {
        // SAFETY: the handle stays in its place, and `&mut` gives it to this call only.
        let raw = unsafe { ffi::krl_server_waiter(self.handle.raw(), client.into()) };
        done(raw.reply)?;
        if raw.waits == 0 {
            return Ok(None);
        }
        let ffi::RawWaiting { request, point, hi, mode, .. } = raw;
        let mode = Mode::of(mode).ok_or(Code::BadMode)?;
        let waits_for = self.waited_for(client)?;
        Ok(Some(Waiting { client, request, point, hi, mode, waits_for }))
    }

    fn waited_for(&mut self, client: u8) -> Result<Vec<u8>, Code> {
        let mut clients: PerClient<u64> = [0; ClientNumber::COUNT as usize];
        let (at, room) = (clients.as_mut_ptr(), clients.len());
        // SAFETY: as for any handle, and there is this much room to be written to.
        let reply =
            unsafe { ffi::krl_server_waited_for(self.handle.raw(), client.into(), at, room) };
        listed(reply, &clients)
    }

    /// At how many slots the client holds something.
    pub fn held(&mut self, client: u8) -> Result<u64, Code> {
        // SAFETY: the handle stays in its place, and `&mut` gives it to this call only.
        done(unsafe { ffi::krl_server_held(self.handle.raw(), client.into()) })
    }

    /// The first slot that ends after this point and of which the client holds something.
    pub fn next_held(&mut self, client: u8, from: u64) -> Option<HeldSlot> {
        // SAFETY: the handle stays in its place, and `&mut` gives it to this call only.
        let raw = unsafe { ffi::krl_server_next_held(self.handle.raw(), client.into(), from) };
        let ffi::RawHeldSlot { lo, hi, mode, holds, .. } = raw;
        let mode = Mode::of(mode).filter(|_| holds != 0)?;
        Some(HeldSlot { lo, hi, client, mode })
    }

    /// Whether the client would get all slots that meet these keys at once to read them: the server
    /// serves, no other client holds there what excludes a reader, and nobody waits there.
    pub fn may_read(&mut self, client: u8, keys: &Range<u64>) -> Result<bool, Code> {
        const MAY: u64 = 1;
        let (lo, hi) = (keys.start, keys.end.min(END));
        // SAFETY: the handle stays in its place, and `&mut` gives it to this call only.
        let reply = unsafe { ffi::krl_server_may_read(self.handle.raw(), client.into(), lo, hi) };
        Ok(done(reply)? == MAY)
    }

    /// The rows of the index whose keys are in this range, in ascending order, as many as there is
    /// room for, and the key at which the others begin, or the end of the range if there are none.
    ///
    /// # Errors
    ///
    /// [`Code::Unkept`] if they rest on a change that is not confirmed.
    pub fn rows<'r>(
        &mut self,
        keys: Range<u64>,
        room: &'r mut [Row],
    ) -> Result<(&'r [Row], u64), Code> {
        let (at, length) = (room.as_mut_ptr(), room.len());
        // SAFETY: as for any handle, and there is this much room to be written to.
        let page =
            unsafe { ffi::krl_server_rows(self.handle.raw(), keys.start, keys.end, at, length) };
        let count = usize::try_from(done(page.reply)?).map_err(|_| Code::OutOfMemory)?;
        if page.after > self.confirmed {
            return Err(Code::Unkept);
        }
        Ok((room.get(..count).ok_or(Code::OutOfMemory)?, page.next))
    }

    /// Takes what waits to be sent, as frames, into the front of `room`, and returns how many bytes
    /// they have. The room grows as it has to, and is used again.
    pub fn take(&mut self, room: &mut Vec<u8>) -> Result<usize, Code> {
        self.handle.append_taken(0, room)
    }
}

impl Snapshot {
    /// Judges it as a server does that starts on it. Nothing is kept, and no server runs after it.
    ///
    /// # Errors
    ///
    /// The code by which the library refuses it: it is not what a server kept, or memory was
    /// refused.
    pub fn judge(&self) -> Result<(), Code> {
        ServerHandle::open(self, Room::MAX, Reach::default()).map(drop)
    }
}

/// How many of the changes are notes of the library.
fn notes(changes: &[Change]) -> u64 {
    changes.iter().filter(|change| change.is_note()).count() as u64
}

/// The numbers of clients that a call wrote, if it wrote any.
fn listed(reply: ffi::Reply, clients: &[u64]) -> Result<Vec<u8>, Code> {
    let count = usize::try_from(done(reply)?).map_err(|_| Code::OutOfMemory)?;
    Ok(clients.iter().take(count).filter_map(|client| u8::try_from(*client).ok()).collect())
}

fn raw_record(record: &Record) -> ffi::RawRecord {
    let (last, outcome) = record.last.map_or((0, 0), |(number, outcome)| (number, outcome.tag()));
    ffi::RawRecord {
        client: record.client.into(),
        incarnation: record.incarnation,
        last,
        outcome,
        left: record.left.into(),
    }
}

fn record_of(raw: &ffi::RawRecord) -> Option<Record> {
    let ffi::RawRecord { incarnation, last, outcome, left, .. } = *raw;
    let client = u8::try_from(raw.client).ok()?;
    let last = Outcome::of_tag(outcome.into()).map(|outcome| (last, outcome));
    Some(Record { client, incarnation, last, left: left != 0 })
}

fn change_of(raw: &ffi::RawChange) -> Result<Option<Change>, Code> {
    let unknown = Code::Other(raw.kind);
    let client = u8::try_from(raw.client).map_err(|_| unknown)?;
    Ok(match raw.kind {
        0 => None,
        1 => Some(Change::Registered { client, incarnation: raw.number }),
        2 => Some(Change::Left { client }),
        3 => {
            let outcome = Outcome::of_tag(raw.outcome.into()).ok_or(unknown)?;
            let write = match raw.write {
                0 => Write::Insert(raw.row),
                1 => Write::Put(raw.row),
                2 => Write::Delete(raw.row.key),
                _ => return Err(unknown),
            };
            Some(Change::Judged { client, number: raw.number, write, outcome })
        }
        _ => return Err(unknown),
    })
}

#[cfg(test)]
mod tests;
