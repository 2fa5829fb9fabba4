//! A server and two clients of the library in one process, whose messages are handed over at once.
use super::{ClientHandle, Scan};
use crate::lease::clocks::Now;
use crate::model::change::Change;
use crate::model::lock::Mode;
use crate::model::reach::Reach;
use crate::model::room::Room;
use crate::model::row::{Row, Value};
use crate::model::snapshot::Snapshot;
use crate::proved::server_handle::ServerHandle;
use crate::wire::frames::split;
use crate::wire::message::Message;
use std::ops::Range;
use std::sync::{Arc, Mutex};

pub(super) const STEP: u64 = 10;
pub(super) const ROWS: u64 = 1000;

/// The row that one client takes from the other.
pub(super) const LAST: Range<u64> = (ROWS - 1) * STEP..(ROWS - 1) * STEP + 1;

/// All rows.
pub(super) const ALL: Range<u64> = 0..LAST.end;

/// The client that is scanned, as the thread that changes it has it.
pub(super) trait Scanned {
    fn change<T>(&mut self, change: impl FnOnce(&mut ClientHandle) -> T) -> T;
}

impl Scanned for ClientHandle {
    fn change<T>(&mut self, change: impl FnOnce(&mut ClientHandle) -> T) -> T {
        change(self)
    }
}

impl Scanned for Arc<Mutex<ClientHandle>> {
    fn change<T>(&mut self, change: impl FnOnce(&mut ClientHandle) -> T) -> T {
        change(&mut self.lock().unwrap())
    }
}

pub(super) struct World<S> {
    server: ServerHandle,
    /// Client 0.
    pub scanned: S,
    /// Client 1.
    other: ClientHandle,
    frames: Vec<u8>,
}

impl<S: Scanned> World<S> {
    /// A world in which the scanned client knows all rows.
    pub fn new(scanned: impl FnOnce(ClientHandle) -> S) -> World<S> {
        let rows = (0..ROWS).map(|place| (STEP * place, Value::from(place))).collect();
        let snapshot = Snapshot { rows, ..Snapshot::default() };
        let (mut server, epoch) =
            ServerHandle::open(&snapshot, Room::default(), Reach::default()).unwrap();
        server.confirm(&[Change::Started { epoch }]).unwrap();
        let [first, other] = [0, 1].map(|number| ClientHandle::open(number, 1).unwrap());
        let mut world = World { server, scanned: scanned(first), other, frames: Vec::new() };
        world.settle();
        world.read_all();
        world
    }

    /// The scanned client reads all rows that it does not know.
    pub fn read_all(&mut self) {
        let mut rows = Vec::new();
        while let Scan::Miss(point) =
            self.scanned.change(|client| client.scan(&ALL, &mut rows, Now::read())).unwrap()
        {
            self.scanned.change(|client| client.lock(point..ALL.end, Mode::RangeSS)).unwrap();
            self.settle();
        }
        assert_eq!(rows.len() as u64, ROWS);
    }

    /// Hands messages over until nobody sends anything.
    pub fn settle(&mut self) {
        loop {
            self.deliver_to_server();
            self.take_from_server();
            if self.frames.is_empty() {
                return;
            }
            for (message, _) in split(&self.frames) {
                match Message::read(message).client() {
                    Some(0) => self.scanned.change(|client| client.step(message)).unwrap(),
                    _ => self.other.step(message).unwrap(),
                }
            }
        }
    }

    /// The server receives what the clients send.
    fn deliver_to_server(&mut self) {
        self.frames.clear();
        self.scanned.change(|client| client.take(&mut self.frames)).unwrap();
        self.other.take(&mut self.frames).unwrap();
        for (message, _) in split(&self.frames) {
            if let Some(change) = self.server.step(message).unwrap() {
                self.server.confirm(&[change]).unwrap();
            }
        }
    }

    /// What the server sends.
    fn take_from_server(&mut self) {
        let length = self.server.take(&mut self.frames).unwrap();
        self.frames.truncate(length);
    }

    /// The other client takes the last row. The scanned one has given it up when this is done.
    pub fn take_last(&mut self) {
        self.ask_for_last();
        self.settle();
    }

    fn ask_for_last(&mut self) {
        self.other.lock(LAST, Mode::X).unwrap();
    }

    /// The callback that is for the scanned client, as soon as the other one asks for the last row.
    pub fn call_back(&mut self) -> Vec<u8> {
        self.ask_for_last();
        self.deliver_to_server();
        self.take_from_server();
        let (callback, _) = split(&self.frames).next().expect("a callback");
        assert_eq!(Message::read(callback).client(), Some(0));
        callback.to_vec()
    }

    /// The other client gives the last row back, and the scanned one reads it again.
    pub fn give_last_back(&mut self) {
        self.other.forget(&LAST).unwrap();
        self.settle();
        self.lock_last(Mode::RangeSS);
    }

    /// The scanned client is granted the last row in this mode.
    pub fn lock_last(&mut self, mode: Mode) {
        self.scanned.change(|client| client.lock(LAST, mode)).unwrap();
        self.settle();
    }
}

/// Whether a scan has just these rows.
pub(super) fn are_rows(rows: &[Row], keys: &Range<u64>) -> bool {
    let count = (keys.end - keys.start).div_ceil(STEP);
    rows.len() as u64 == count && rows.first().is_some_and(|row| row.key == keys.start)
}
