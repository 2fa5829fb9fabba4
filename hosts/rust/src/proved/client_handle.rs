//! A safe owner of a client's handle, and those that scan its cache at the same time.
use crate::ffi::{self, code, done};
use crate::lease::boot_clock::Moment;
use crate::lease::clocks::Now;
use crate::lease::of_client::{End, Lease};
use crate::lease::terms::Older;
use crate::model::change::{Outcome, Write};
use crate::model::code::Code;
use crate::model::lock::Mode;
use crate::model::row::Row;
use crate::proved::gate::{Owner, ReadGuard, Reader};
use crate::proved::handle::Handle;
use crate::proved::hits::Hits;
use crate::proved::losses::{Losses, Tenure};
use crate::wire::message::Message;
use std::io;
use std::mem::{self, MaybeUninit};
use std::ops::Range;
use std::sync::Arc;

/// A call of the library that sends a row: its key, and the bytes of its value.
type SendRow = unsafe extern "C" fn(*mut ffi::Handle, u64, *const u8, usize) -> ffi::Reply;

/// What a scan of the cache found.
#[derive(Clone, Copy, Debug, PartialEq, Eq)]
pub(crate) enum Scan {
    /// The rows.
    Rows,
    /// The least point that the client does not know.
    Miss(u64),
    /// A write of the client to a key of the range is not answered yet.
    Pending,
    /// The client's lease has ended: what is there is no longer valid.
    Ended,
}

/// What a client shows of itself.
#[derive(Clone, Copy, Debug)]
pub(crate) struct Shown {
    /// The epoch that it has joined, or 0.
    pub epoch: u64,
    /// The last lock that it asked for is not answered.
    pub is_waiting: bool,
    /// The last lock that it asked for was granted.
    pub is_granted: bool,
    /// There was no entry to lock.
    pub is_absent: bool,
    /// The number of its last write.
    pub number: u64,
    /// How that write was judged, if it was.
    pub outcome: Option<Outcome>,
}

/// A client of the library. Each call that takes its handle runs when no [`Cache`] scans it: so a
/// message that gives something up comes out by `take` when every scan has ended that could still
/// see it.
pub(crate) struct ClientHandle {
    handle: Owner<Incarnation>,
    lease: Lease,
    /// A call was made since the last `take`, and may have sent something.
    may_have_output: bool,
    /// Its incarnation is on the disk. Until then nothing of it may be sent.
    is_kept: bool,
}

/// What an incarnation knows, and the end of its lease; and what all of them have lost, and how many
/// scans they have answered.
struct Incarnation {
    handle: Handle,
    end: Arc<End>,
    losses: Losses,
    hits: Hits,
}

/// What a client knows, for threads that only read it.
pub(crate) struct Cache(Reader<Incarnation>);

/// A cache that stays what it is.
pub(crate) struct CacheGuard<'c>(ReadGuard<'c, Incarnation>);

impl Cache {
    /// Scans the cache into `rows`, in place of what they are. Nothing is sent. It waits for one
    /// call of the client at most, which takes microseconds. The clock of leases is read after the
    /// rows.
    pub fn scan(
        &self,
        keys: &Range<u64>,
        rows: &mut Vec<Row>,
        clock: impl Fn() -> io::Result<Moment>,
    ) -> Result<Scan, Code> {
        self.0.read(|incarnation| incarnation.scan_and_count(keys, rows, clock))
    }

    /// The tenure of a range that is not empty, if the client holds it: both at one moment. It uses
    /// the room for rows.
    pub fn tenure(
        &self,
        keys: &Range<u64>,
        room: &mut Vec<Row>,
        clock: impl Fn() -> io::Result<Moment>,
    ) -> Result<Option<Tenure>, Code> {
        self.0.read(|incarnation| {
            let is_held = incarnation.scan_and_count(keys, room, clock)? == Scan::Rows;
            Ok(is_held.then(|| incarnation.losses.tenure(keys)))
        })
    }

    /// Whether the client has held each of these ranges without a break since it had this tenure,
    /// all at one moment. What takes a part of what it held has noted a loss there. The clock of
    /// leases is read after that.
    pub fn held_since(
        &self,
        since: &[(Range<u64>, Tenure)],
        clock: impl FnOnce() -> io::Result<Moment>,
    ) -> Vec<bool> {
        self.0.read(|incarnation| {
            let is_unbroken = |(keys, since): &_| incarnation.losses.tenure(keys) == *since;
            let unbroken: Vec<bool> = since.iter().map(is_unbroken).collect();
            if incarnation.end.allows(clock) { unbroken } else { vec![false; since.len()] }
        })
    }

    /// How many losses the client has had: no tenure of it is greater.
    pub fn losses(&self) -> u64 {
        self.0.read(|incarnation| incarnation.losses.count())
    }

    /// Keeps the cache as it is, as long as the answer lives: the client takes no message and no
    /// call meanwhile. A thread that holds several has to take them in the order of their shards.
    pub fn hold(&self) -> CacheGuard<'_> {
        CacheGuard(self.0.enter())
    }
}

#[cfg(test)]
impl Cache {
    /// Whether a call of the client waits until somebody no longer holds the cache.
    pub fn keeps_a_call_waiting(&self) -> bool {
        self.0.keeps_a_change_waiting()
    }
}

impl CacheGuard<'_> {
    /// Scans the cache, and puts the rows after those that are there. The clock of leases is read
    /// after them.
    pub fn scan_after(
        &self,
        keys: &Range<u64>,
        rows: &mut Vec<Row>,
        clock: impl Fn() -> io::Result<Moment>,
    ) -> Result<Scan, Code> {
        self.0.scan_after(keys, rows, clock)
    }
}

impl Shown {
    /// A lock or a write is not answered: a push may be on its way.
    pub fn awaits_a_push(&self) -> bool {
        self.is_waiting || (self.number > 0 && self.outcome.is_none())
    }
}

impl ClientHandle {
    /// One that does nothing: its calls answer `Closed`.
    pub fn closed() -> ClientHandle {
        ClientHandle::of(Handle::closed(), Lease::new(0, 0, Older::Unknown))
    }

    /// One whose host knows nothing of older incarnations, and has kept this one.
    #[cfg(test)]
    pub fn open(number: u8, incarnation: u64) -> Result<ClientHandle, Code> {
        let mut client = ClientHandle::open_after(number, incarnation, Older::Unknown)?;
        client.confirm()?;
        Ok(client)
    }

    /// One whose host knows this much of older incarnations. It sends nothing before
    /// [`ClientHandle::confirm`].
    pub fn open_after(number: u8, incarnation: u64, older: Older) -> Result<ClientHandle, Code> {
        let mut handle = Handle::closed();
        // SAFETY: the handle stays in its place, and `&mut` gives it to this call only.
        done(unsafe { ffi::krl_client_open(handle.raw(), number.into(), incarnation) })?;
        Ok(ClientHandle::of(handle, Lease::new(number, incarnation, older)))
    }

    /// Whether the incarnation is on the disk.
    pub fn is_kept(&self) -> bool {
        self.is_kept
    }

    /// Confirms that the incarnation is on the disk: from now on it may be sent.
    pub fn confirm(&mut self) -> Result<(), Code> {
        if !self.is_kept {
            self.handle.change(|it| it.handle.confirm(1))?;
            self.is_kept = true;
        }
        Ok(())
    }

    fn of(handle: Handle, lease: Lease) -> ClientHandle {
        let (losses, hits) = (Losses::default(), Hits::default());
        let incarnation = Incarnation { handle, end: lease.end(), losses, hits };
        ClientHandle {
            handle: Owner::new(incarnation),
            lease,
            may_have_output: true,
            is_kept: false,
        }
    }

    /// Becomes another client, and has lost all. What was cached from this one is cached from the
    /// other one.
    pub fn replace(&mut self, mut other: ClientHandle) {
        other.handle.change(|other| self.handle.change(|this| this.become_other(other)));
        self.lease = other.lease;
        self.is_kept = other.is_kept;
        self.may_have_output = true;
    }

    pub fn lease(&self) -> &Lease {
        &self.lease
    }

    pub fn lease_mut(&mut self) -> &mut Lease {
        &mut self.lease
    }

    pub fn cache(&self) -> Cache {
        Cache(self.handle.reader())
    }

    /// The scans that its caches have answered.
    pub fn hits(&self) -> &Hits {
        &self.handle.get().hits
    }

    /// Makes a call that takes the handle, when nobody scans the cache.
    fn call(&mut self, call: impl FnOnce(*mut ffi::Handle) -> ffi::Reply) -> Result<u64, Code> {
        self.may_have_output = true;
        done(self.handle.change(|it| call(it.handle.raw())))
    }

    /// Makes a call that takes what the client holds of these keys, or a part of it, or shows a write
    /// of its own there. Readers learn of it at the moment at which they no longer find what it was.
    fn call_and_lose(
        &mut self,
        keys: &Range<u64>,
        call: impl FnOnce(*mut ffi::Handle) -> ffi::Reply,
    ) -> Result<(), Code> {
        self.may_have_output = true;
        let reply = self.handle.change(|it| {
            it.losses.note(keys);
            call(it.handle.raw())
        });
        done(reply).map(drop)
    }

    /// Nothing but a callback takes anything from a client: a push has at least what the client
    /// holds, and a new epoch leaves it all. The answer to a write shows the written row.
    pub fn step(&mut self, message: &[u8]) -> Result<(), Code> {
        let (at, length) = (message.as_ptr(), message.len());
        // SAFETY: as for any handle, and that many bytes of the message are there to be read.
        let step = |handle| unsafe { ffi::krl_client_step(handle, at, length) };
        let message = Message::read(message);
        match message.called_back().or_else(|| message.answered_slot()) {
            Some(keys) => self.call_and_lose(&keys, step),
            None => self.call(step).map(drop),
        }
    }

    pub fn tick(&mut self) -> Result<(), Code> {
        // SAFETY: `call` gives the handle to this call only.
        self.call(|handle| unsafe { ffi::krl_client_tick(handle) }).map(drop)
    }

    pub fn lock(&mut self, points: Range<u64>, mode: Mode) -> Result<(), Code> {
        let Range { start, end } = points;
        // SAFETY: `call` gives the handle to this call only.
        self.call(|handle| unsafe { ffi::krl_client_lock(handle, start, end, mode as u32) })
            .map(drop)
    }

    /// Sends the write, and returns its number. Until it is answered, what the client knows of its
    /// key may be older than the server's row.
    pub fn write(&mut self, write: &Write) -> Result<u64, Code> {
        self.send_write(write, ffi::krl_client_insert, ffi::krl_client_put)
    }

    /// Sends the write, which takes the lock that it needs if that is free, and returns its number.
    /// A delete takes nothing: it is sent as by [`ClientHandle::write`].
    pub fn write_with_lock(&mut self, write: &Write) -> Result<u64, Code> {
        self.send_write(write, ffi::krl_client_take_insert, ffi::krl_client_take_put)
    }

    /// Sends the write by one of these calls, and returns its number.
    fn send_write(&mut self, write: &Write, insert: SendRow, put: SendRow) -> Result<u64, Code> {
        let send = |handle, by: SendRow, Row { key, value }: &Row| {
            let bytes = value.as_bytes();
            // SAFETY: as for any handle, and that many bytes of the value are there to be read.
            unsafe { by(handle, *key, bytes.as_ptr(), bytes.len()) }
        };
        self.call_and_lose(&keys_of(write), |handle| match write {
            Write::Insert(row) => send(handle, insert, row),
            Write::Put(row) => send(handle, put, row),
            // SAFETY: `call` gives the handle to this call only.
            Write::Delete(key) => unsafe { ffi::krl_client_delete(handle, *key) },
        })?;
        Ok(self.status()?.number)
    }

    /// Scans the cache as it is at this moment into `rows`, in place of what they are. Nothing is
    /// sent, and nothing waits. No call of the client was made since that moment.
    pub fn scan(&self, keys: &Range<u64>, rows: &mut Vec<Row>, now: Now) -> Result<Scan, Code> {
        self.handle.get().scan(keys, rows, || now.boot())
    }

    /// What the client knows of these keys, by now and for its own use: the end of its lease is not
    /// looked at. The rows take the place of those that are there, and are `TooShort` if they are
    /// more than the room that there is.
    pub fn known(&self, keys: &Range<u64>, rows: &mut Vec<Row>) -> Result<Scan, Code> {
        rows.clear();
        let no_clock = || Err(io::ErrorKind::Unsupported.into());
        found(self.handle.get().handle.scan_once(keys, rows, &End::of_no_lease(), no_clock)?)
    }

    pub fn forget(&mut self, keys: &Range<u64>) -> Result<(), Code> {
        let Range { start, end } = *keys;
        // SAFETY: `call_and_lose` gives the handle to this call only.
        self.call_and_lose(keys, |handle| unsafe { ffi::krl_client_forget(handle, start, end) })
    }

    /// Gives back what the client holds of the keys above this mode.
    pub fn lower(&mut self, keys: &Range<u64>, keep: Mode) -> Result<(), Code> {
        let Range { start, end } = *keys;
        // SAFETY: `call_and_lose` gives the handle to this call only.
        self.call_and_lose(keys, |handle| unsafe {
            ffi::krl_client_lower(handle, start, end, keep as u32)
        })
    }

    pub fn pin(&mut self, keys: &Range<u64>) -> Result<u64, Code> {
        // SAFETY: `call` gives the handle to this call only.
        self.call(|handle| unsafe { ffi::krl_client_pin(handle, keys.start, keys.end) })
    }

    pub fn unpin(&mut self, pin: u64) -> Result<(), Code> {
        // SAFETY: `call` gives the handle to this call only.
        self.call(|handle| unsafe { ffi::krl_client_unpin(handle, pin) }).map(drop)
    }

    /// Whether the client holds anything at this point.
    pub fn holds(&self, point: u64) -> bool {
        let held = self.handle.get().handle.held(point);
        held.range > 0 || held.key > 0
    }

    /// Whether no other client may read or change the gap at this point, nor the entry there.
    pub fn has_all(&self, point: u64) -> bool {
        const X: u32 = 3;
        let held = self.handle.get().handle.held(point);
        held.range == X && held.key == X
    }

    /// Whether the client holds the entry of this key so that it may change it, and no other client
    /// may read it.
    pub fn may_change(&self, key: u64) -> bool {
        const X: u32 = 3;
        self.handle.get().handle.held(key).key == X
    }

    /// Whether the client holds the entry of this key so that only it may change it next.
    pub fn may_update(&self, key: u64) -> bool {
        const U: u32 = 2;
        let held = self.handle.get().handle.held(key);
        code(held.reply) == Code::Done && held.key >= U
    }

    /// Whether the client reads the gap at this point.
    pub fn reads_gap(&self, point: u64) -> bool {
        const S: u32 = 1;
        const X: u32 = 3;
        matches!(self.handle.get().handle.held(point).range, S | X)
    }

    /// Whether the client reads the entry of this key, and another client may have it for an
    /// update.
    pub fn reads_entry(&self, key: u64) -> bool {
        const S: u32 = 1;
        self.handle.get().handle.held(key).key == S
    }

    /// Whether the client reads the entry of this slot, and not the gap below it.
    pub fn reads_only_entry(&self, slot: &Range<u64>) -> bool {
        // No slot is empty, and a message may still say so.
        let entry = slot.end.saturating_sub(1);
        self.reads_entry(entry) && !self.reads_gap(entry)
    }

    pub fn status(&self) -> Result<Shown, Code> {
        const LOCK_WAITING: u32 = 1;
        const LOCK_GRANTED: u32 = 2;
        const LOCK_ABSENT: u32 = 3;
        let state = self.handle.get().handle.client_state();
        done(state.reply)?;
        Ok(Shown {
            epoch: state.epoch,
            is_waiting: state.lock == LOCK_WAITING,
            is_granted: state.lock == LOCK_GRANTED,
            is_absent: state.lock == LOCK_ABSENT,
            number: state.number,
            outcome: Outcome::of_tag(state.outcome),
        })
    }

    /// Sends Bye. After that only this call, which sends it again, and `take` do anything.
    pub fn leave(&mut self) -> Result<(), Code> {
        // SAFETY: `call_and_lose` gives the handle to this call only.
        self.call_and_lose(&(0..u64::MAX), |handle| unsafe { ffi::krl_client_leave(handle) })
    }

    /// Appends what waits to be sent, as frames. If nothing can wait, nobody's scan is held up.
    /// Nothing leaves before the incarnation is kept.
    pub fn take(&mut self, frames: &mut Vec<u8>) -> Result<(), Code> {
        if self.may_have_output && self.is_kept {
            self.handle.change(|it| it.handle.take(frames))?;
            self.may_have_output = false;
        }
        Ok(())
    }
}

impl Incarnation {
    /// The losses and the hits stay with this one: their numbers are compared over all incarnations.
    fn become_other(&mut self, other: &mut Incarnation) {
        mem::swap(self, other);
        mem::swap(&mut self.losses, &mut other.losses);
        mem::swap(&mut self.hits, &mut other.hits);
        self.losses.note_all();
    }

    /// The scan of a reader: that the cache answers it is what it is there for.
    fn scan_and_count(
        &self,
        keys: &Range<u64>,
        rows: &mut Vec<Row>,
        clock: impl Fn() -> io::Result<Moment>,
    ) -> Result<Scan, Code> {
        let found = self.scan(keys, rows, clock)?;
        if found == Scan::Rows {
            self.hits.count(keys);
        }
        Ok(found)
    }

    fn scan(
        &self,
        keys: &Range<u64>,
        rows: &mut Vec<Row>,
        clock: impl Fn() -> io::Result<Moment>,
    ) -> Result<Scan, Code> {
        rows.clear();
        self.scan_after(keys, rows, clock)
    }

    /// The rows come after those that are there. The clock is read after them all: rows are handed
    /// over only if the lease holds then.
    fn scan_after(
        &self,
        keys: &Range<u64>,
        rows: &mut Vec<Row>,
        clock: impl Fn() -> io::Result<Moment>,
    ) -> Result<Scan, Code> {
        self.handle.scan_after(keys, rows, &self.end, clock)
    }
}

/// The key that a write changes, as a range.
fn keys_of(write: &Write) -> Range<u64> {
    let (Write::Insert(Row { key, .. }) | Write::Put(Row { key, .. }) | Write::Delete(key)) = write;
    *key..key.saturating_add(1)
}

/// What the library found by a scan.
fn found(reply: ffi::Reply) -> Result<Scan, Code> {
    match code(reply) {
        Code::Done => Ok(Scan::Rows),
        Code::Miss => Ok(Scan::Miss(reply.detail)),
        Code::Pending => Ok(Scan::Pending),
        Code::LeaseEnded => Ok(Scan::Ended),
        refused => Err(refused),
    }
}

/// What the scan found, if the lease holds after it.
fn by_lease(
    scan: impl FnOnce() -> ffi::LeasedScan,
    end: &End,
    clock: impl FnOnce() -> io::Result<Moment>,
) -> ffi::Reply {
    let scan = scan();
    end.answer(scan, clock)
}

/// What a client's handle answers by a reader.
impl Handle {
    /// The rows come after those that are there.
    fn scan_after(
        &self,
        keys: &Range<u64>,
        rows: &mut Vec<Row>,
        end: &End,
        clock: impl Fn() -> io::Result<Moment>,
    ) -> Result<Scan, Code> {
        let mut reply = self.scan_once(keys, rows, end, &clock)?;
        if code(reply) == Code::TooShort {
            rows.try_reserve_exact(count(reply)?).map_err(|_| Code::OutOfMemory)?;
            reply = self.scan_once(keys, rows, end, &clock)?;
        }
        found(reply)
    }

    /// Scans into the room that there is after the rows.
    fn scan_once(
        &self,
        keys: &Range<u64>,
        rows: &mut Vec<Row>,
        end: &End,
        clock: impl FnOnce() -> io::Result<Moment>,
    ) -> Result<ffi::Reply, Code> {
        let room = rows.spare_capacity_mut();
        let length = room.len();
        let reply = by_lease(|| self.scan_into(keys, room), end, clock);
        if code(reply) == Code::Done {
            let count = count(reply)?;
            debug_assert!(count <= length, "{count} rows in a room of {length}");
            // SAFETY: the library has written that many rows after the others, for which there was
            // room.
            unsafe { rows.set_len(rows.len() + count) };
        }
        Ok(reply)
    }

    fn scan_into(&self, keys: &Range<u64>, room: &mut [MaybeUninit<Row>]) -> ffi::LeasedScan {
        let mut reader = self.reader();
        let (at, length) = (room.as_mut_ptr().cast(), room.len());
        // SAFETY: the reader is this call's own, `&` keeps away each call that takes the handle,
        // and there is so much room to be written to. The library reads nothing of the room.
        unsafe { ffi::krl_reader_scan_leased(&raw mut reader, keys.start, keys.end, at, length) }
    }

    fn held(&self, point: u64) -> ffi::Held {
        let mut reader = self.reader();
        // SAFETY: the reader is this call's own, and `&` keeps away each call that takes the
        // handle.
        unsafe { ffi::krl_reader_held(&raw mut reader, point) }
    }

    fn client_state(&self) -> ffi::ClientState {
        let mut reader = self.reader();
        // SAFETY: the reader is this call's own, and `&` keeps away each call that takes the
        // handle.
        unsafe { ffi::krl_reader_status(&raw mut reader) }
    }
}

fn count(reply: ffi::Reply) -> Result<usize, Code> {
    usize::try_from(reply.detail).map_err(|_| Code::OutOfMemory)
}

#[cfg(test)]
mod figures;
#[cfg(test)]
mod tenures;
#[cfg(test)]
mod tests;
#[cfg(test)]
mod world;
