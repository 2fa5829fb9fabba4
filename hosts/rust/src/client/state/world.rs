//! A server and clients of the library, whose messages are handed over one by one.
use super::{Asking, State};
use crate::lease::clocks::Now;
use crate::model::change::{Change, Outcome, Write};
use crate::model::reach::Reach;
use crate::model::room::Room;
use crate::model::row::{Row, Value};
use crate::model::snapshot::Snapshot;
use crate::proved::client_handle::{ClientHandle, Scan};
use crate::proved::server_handle::ServerHandle;
use crate::wire::frames::split;
use crate::wire::message::Message;
use crate::wire::read_frame::{PAGE, ReadRequest, RowPage};
use std::ops::Range;
use std::time::Duration;

/// A server and clients of it.
pub(crate) struct World {
    pub server: ServerHandle,
    pub clients: Vec<State>,
    /// Questions for rows that are not answered.
    pub asked: Vec<ReadRequest>,
}

pub(crate) fn messages(take: impl FnOnce(&mut Vec<u8>)) -> Vec<Vec<u8>> {
    let mut frames = Vec::new();
    take(&mut frames);
    split(&frames).map(|(message, _)| message.to_vec()).collect()
}

impl World {
    /// Two clients that have joined.
    pub fn new() -> World {
        World::of(2)
    }

    /// This many clients that have joined.
    pub fn of(clients: u8) -> World {
        let (mut server, epoch) =
            ServerHandle::open(&Snapshot::default(), Room::default(), Reach::default()).unwrap();
        server.confirm(&[Change::Started { epoch }]).unwrap();
        let open = |number| State::new(ClientHandle::open(number, 1).unwrap(), Now::read());
        let clients = (0..clients).map(open).collect();
        let mut world = World { server, clients, asked: Vec::new() };
        let joined: Vec<_> = world.clients.iter_mut().map(State::join).collect();
        assert!(joined.iter().all(|joined| joined.answer.try_recv().is_err()), "too early");
        world.settle();
        assert!(joined.iter().all(|joined| joined.answer.try_recv() == Ok(Ok(()))));
        world
    }

    /// What the client sends.
    pub fn messages_of(&mut self, client: usize) -> Vec<Vec<u8>> {
        messages(|frames| self.clients[client].take(frames))
    }

    /// Hands messages over to the server, and questions for rows to its host, which answers them
    /// at [`World::deliver_to_clients`].
    pub fn deliver_to_server(&mut self, sent: &[Vec<u8>]) {
        for message in sent {
            if let Some(question) = ReadRequest::read(message) {
                self.asked.push(question);
                continue;
            }
            // A message that is refused is one that is lost.
            if let Ok(Some(change)) = self.server.step(message) {
                self.server.confirm(&[change]).unwrap();
            }
        }
    }

    /// What the server sends.
    pub fn messages_of_server(&mut self) -> Vec<Vec<u8>> {
        messages(|frames| {
            let length = self.server.take(frames).unwrap();
            frames.truncate(length);
        })
    }

    /// Hands over what the server sends.
    pub fn deliver_to_clients(&mut self) -> usize {
        let sent = self.messages_of_server();
        for message in &sent {
            let client = usize::from(Message::read(message).client().unwrap());
            self.clients[client].receive(message).unwrap();
        }
        sent.len() + self.answer_questions()
    }

    /// Answers the questions for rows, which are client 1's.
    fn answer_questions(&mut self) -> usize {
        let asked = std::mem::take(&mut self.asked);
        for question in &asked {
            let page = self.page(*question);
            self.clients[1].receive_rows(page).unwrap();
        }
        asked.len()
    }

    /// What the server's host answers to this question of client 1.
    pub fn page(&mut self, question: ReadRequest) -> RowPage {
        let ReadRequest { number, lo, hi } = question;
        let mut room = [Row::default(); PAGE];
        let (rows, next) = self.server.rows(lo..hi, &mut room).unwrap();
        let page = RowPage { number, next, rows: rows.to_vec() };
        let is_shown = self.server.may_read(1, &(lo..next)).unwrap();
        if is_shown { page } else { RowPage { number, next: lo, rows: Vec::new() } }
    }

    /// Hands messages over until nobody sends anything.
    pub fn settle(&mut self) {
        while self.round() {}
    }

    /// Hands over what each client sends, and then what the server sends. Returns whether anybody
    /// has sent anything.
    pub fn round(&mut self) -> bool {
        let sent: Vec<_> =
            (0..self.clients.len()).flat_map(|client| self.messages_of(client)).collect();
        self.deliver_to_server(&sent);
        let received = self.deliver_to_clients();
        for state in &mut self.clients {
            state.advance(Asking::Allowed);
        }
        !sent.is_empty() || received > 0
    }

    pub fn write(&mut self, client: usize, write: Write) -> Outcome {
        let asked = self.clients[client].write(write);
        self.settle();
        asked.answer.try_recv().unwrap().unwrap()
    }

    pub fn write_under(&mut self, client: usize, pin: u64, write: Write) -> Outcome {
        let asked = self.clients[client].write_under(pin, write);
        self.settle();
        asked.answer.try_recv().unwrap().unwrap()
    }

    pub fn read(&mut self, client: usize, keys: Range<u64>) -> Vec<Row> {
        let asked = self.clients[client].read(keys);
        self.settle();
        asked.answer.try_recv().unwrap().unwrap()
    }

    pub fn is_cached(&mut self, client: usize, keys: Range<u64>) -> bool {
        let state = &self.clients[client];
        state.cache().scan(&keys, &mut Vec::new(), || state.now.boot()) == Ok(Scan::Rows)
    }
}

/// So much time passes for the client.
pub(crate) fn pass(state: &mut State, time: Duration) {
    let later = state.now.after(time);
    state.at(later);
}

pub(crate) fn row(key: u64, number: u64) -> Row {
    Row { key, value: Value::from(number) }
}
