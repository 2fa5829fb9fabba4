//! Clients that wait for what a release has given to another one.
use crate::access::Entry;
use crate::client::state::world::{messages, row};
use crate::client::state::{Asked, Asking, Held, IDLE_TICK, Purpose, State};
use crate::identity::Identity;
use crate::lease::clocks::Now;
use crate::model::change::{Outcome, Write};
use crate::model::reach::Reach;
use crate::model::row::Row;
use crate::net::address::Address;
use crate::net::stream::PeerAddress;
use crate::proved::client_handle::ClientHandle;
use crate::server::event_loop::admission::{LATELY, MAX_RECENT_REQUESTS};
use crate::server::event_loop::{ACKNOWLEDGED_WITHIN, EventLoop, NUDGE};
use crate::server::opening::Decided;
use crate::server::shown::timings::Timings;
use crate::store::MemoryStore;
use crate::wire::frames::split;
use crate::wire::host_frame::{self, FromClient};
use crate::wire::message::{Kind, Message};
use std::sync::Arc;
use std::time::Duration;

/// A server and its clients, which hand over at once what they send. No time passes: so the server
/// nudges nobody, and no client ticks.
struct World {
    events: EventLoop,
    now: Now,
    clients: Vec<State>,
    /// The connection of each client.
    connections: Vec<u64>,
}

/// A new connection, whose host has sent its Hello.
fn connect(events: &mut EventLoop, now: Now) -> u64 {
    let entry = Entry::Known(Identity::everybody());
    let connection = events.connections().enter(entry, PeerAddress::Gone);
    let hello = FromClient::Hello(None).frame();
    let (hello, _) = split(&hello).next().unwrap();
    events.receive(connection, hello, now).unwrap();
    connection
}

impl World {
    fn of(clients: u8) -> World {
        let (now, address) = (Now::read(), Address::Unix("nowhere".into()));
        let max_connections = usize::from(clients);
        let decided = Decided {
            leases: None,
            shard: None,
            room: None,
            reach: Reach::default(),
            max_connections,
        };
        let timings = Arc::new(Timings::new());
        let opened = decided.open(&mut MemoryStore::default(), &address, timings, || now).unwrap();
        let mut events = opened.events;
        let connections = (0..clients).map(|_| connect(&mut events, now)).collect();
        let open = |number| State::new(ClientHandle::open(number, 1).unwrap(), now);
        let mut world =
            World { events, now, clients: (0..clients).map(open).collect(), connections };
        world.settle();
        world
    }

    /// Hands messages over until nobody sends anything.
    fn settle(&mut self) {
        while self.deliver_to_server() | self.deliver_to_clients() {}
    }

    /// The server takes what each client sends. Returns whether one has sent anything.
    fn deliver_to_server(&mut self) -> bool {
        let mut is_any = false;
        for (state, connection) in self.clients.iter_mut().zip(&self.connections) {
            for message in messages(|frames| state.take(frames)) {
                self.events.receive(*connection, &message, self.now).unwrap();
                is_any = true;
            }
        }
        is_any
    }

    /// The clients take what the server sends. Returns whether it has sent anything.
    fn deliver_to_clients(&mut self) -> bool {
        if let Some(commit) = self.events.take_commit(self.now).unwrap() {
            self.events.committed(commit, self.now).unwrap();
        }
        self.events.send(self.now).unwrap();
        let mut is_any = false;
        while let Some(connection) = self.events.connections().next_to_write() {
            let mut bytes = Vec::new();
            self.events.connections().write(connection, &mut bytes);
            self.deliver(connection, &bytes);
            is_any |= !bytes.is_empty();
        }
        is_any
    }

    fn deliver(&mut self, connection: u64, bytes: &[u8]) {
        let place = self.connections.iter().position(|it| *it == connection).unwrap();
        let state = &mut self.clients[place];
        for (message, _) in split(bytes).filter(|(message, _)| !host_frame::is_of_host(message)) {
            state.receive(message).unwrap();
        }
        state.advance(Asking::Allowed);
    }

    /// Time passes: the server nudges, and clients tick as soon as they do when nothing comes.
    /// Returns how many bytes leave the server.
    fn pass(&mut self, time: Duration) -> usize {
        self.now = self.now.after(time);
        self.events.nudge(self.now).unwrap();
        self.events.send(self.now).unwrap();
        let mut left = 0;
        while let Some(connection) = self.events.connections().next_to_write() {
            let mut bytes = Vec::new();
            self.events.connections().write(connection, &mut bytes);
            left += bytes.len();
            self.deliver(connection, &bytes);
        }
        for client in &mut self.clients {
            client.at(self.now).tick_if_due();
        }
        self.deliver_to_server();
        left
    }

    fn ask<T>(&mut self, client: usize, ask: impl FnOnce(&mut State) -> Asked<T>) -> Asked<T> {
        let asked = ask(&mut self.clients[client]);
        self.settle();
        asked
    }

    fn unpin(&mut self, client: usize, pin: u64) {
        self.clients[client].unpin(pin);
        self.settle();
    }
}

#[test]
fn what_a_release_has_granted_is_called_back_for_who_waits_for_it() {
    let (writer, reader, next) = (0, 1, 2);
    let mut world = World::of(3);
    let inserted = world.ask(reader, |state| state.write(Write::Insert(row(10, 1))));
    assert_eq!(inserted.answer.try_recv(), Ok(Ok(Outcome::Applied)));
    let held = world.ask(reader, |state| state.hold(0..20, Purpose::Read));
    let Held { pin, .. } = held.answer.try_recv().unwrap().unwrap();
    let writing = world.ask(writer, |state| state.hold(10..11, Purpose::Write));
    let reading = world.ask(next, |state| state.read(0..11));
    assert!(writing.answer.try_recv().is_err() && reading.answer.try_recv().is_err());
    world.unpin(reader, pin);
    // The writer has all that it has asked for, and need not acknowledge it.
    let Held { pin, .. } = writing.answer.try_recv().unwrap().unwrap();
    assert!(reading.answer.try_recv().is_err(), "the writer has pinned it");
    world.unpin(writer, pin);
    assert_eq!(reading.answer.try_recv(), Ok(Ok(vec![row(10, 1)])));
}

/// A world of more clients than may wait at once. The first one has pinned a row for a write, and
/// all others have begun to read it.
fn crowd() -> (World, u64, Vec<Asked<Vec<Row>>>) {
    let readers = MAX_RECENT_REQUESTS + 3;
    let mut world = World::of(u8::try_from(readers + 1).unwrap());
    let inserted = world.ask(0, |state| state.write(Write::Insert(row(10, 1))));
    assert_eq!(inserted.answer.try_recv(), Ok(Ok(Outcome::Applied)));
    let held = world.ask(0, |state| state.hold(10..11, Purpose::Write));
    let Held { pin, .. } = held.answer.try_recv().unwrap().unwrap();
    let reads = (1..=readers).map(|client| world.ask(client, |state| state.read(10..11))).collect();
    (world, pin, reads)
}

fn have_read(reads: &[Asked<Vec<Row>>]) -> bool {
    reads.iter().all(|read| read.answer.try_recv() == Ok(Ok(vec![row(10, 1)])))
}

#[test]
fn while_many_wait_other_requests_are_taken_one_after_the_other() {
    let (mut world, pin, reads) = crowd();
    assert_eq!(world.events.requests.waiting().count(), MAX_RECENT_REQUESTS);
    // What one of those asks again that are kept is no further request.
    world.clients[MAX_RECENT_REQUESTS + 1].tick();
    world.settle();
    assert_eq!(world.events.requests.waiting().count(), MAX_RECENT_REQUESTS);
    world.unpin(0, pin);
    assert!(have_read(&reads));
}

#[test]
fn a_request_that_has_waited_for_long_keeps_no_other_one_back() {
    let (mut world, pin, reads) = crowd();
    let soon = |world: &World| world.events.takes_kept_in(world.now.monotonic);
    assert_eq!(soon(&world), Some(LATELY));
    world.now.monotonic += LATELY;
    assert_eq!(soon(&world), Some(Duration::ZERO));
    // One that comes now is taken after those that are kept.
    let other = world.clients[0].read(20..21);
    world.deliver_to_server();
    assert_eq!(world.events.requests.waiting().count(), MAX_RECENT_REQUESTS);
    world.settle();
    assert_eq!(world.events.requests.waiting().count(), reads.len());
    assert_eq!(other.answer.try_recv(), Ok(Ok(Vec::new())));
    assert_eq!(soon(&world), None);
    world.unpin(0, pin);
    assert!(have_read(&reads));
}

#[test]
fn a_request_of_an_earlier_connection_is_not_taken() {
    let (mut world, pin, reads) = crowd();
    let last = world.clients.len() - 1;
    world.connections[last] = connect(&mut world.events, world.now);
    world.clients[last].tick();
    for message in messages(|frames| world.clients[last].take(frames)) {
        if Message::read(&message).kind() != Kind::Lock {
            world.events.receive(world.connections[last], &message, world.now).unwrap();
        }
    }
    world.unpin(0, pin);
    let (last_read, others) = reads.split_last().unwrap();
    assert!(have_read(others) && last_read.answer.try_recv().is_err());
    world.clients[last].tick();
    world.settle();
    assert!(have_read(std::slice::from_ref(last_read)));
}

#[test]
fn a_client_that_has_left_waits_for_nothing() {
    let mut world = World::of(2);
    let inserted = world.ask(0, |state| state.write(Write::Insert(row(10, 1))));
    assert_eq!(inserted.answer.try_recv(), Ok(Ok(Outcome::Applied)));
    let held = world.ask(0, |state| state.hold(10..11, Purpose::Write));
    let Held { pin, .. } = held.answer.try_recv().unwrap().unwrap();
    let _reading = world.ask(1, |state| state.read(10..11));
    assert_eq!(world.events.requests.waiting().count(), 1);
    let _left = world.ask(1, State::leave);
    world.unpin(0, pin);
    assert!(world.events.server.record(1).unwrap().unwrap().left);
    assert_eq!(world.events.requests.waiting().count(), 0, "it has left");
}

/// A world whose one client has just read some rows and ticked shortly before.
fn world_of_a_lone_read() -> World {
    let mut world = World::of(1);
    world.pass(IDLE_TICK);
    let read = world.ask(0, |state| state.read(0..100));
    assert_eq!(read.answer.try_recv(), Ok(Ok(Vec::new())));
    world
}

#[test]
fn a_lone_grant_leaves_the_server_once() {
    let mut world = world_of_a_lone_read();
    let sent: usize = (0..40).map(|_| world.pass(NUDGE)).sum();
    assert_eq!(sent, 0, "the next tick acknowledges the grant");
}

#[test]
fn a_push_that_no_tick_acknowledges_is_repeated() {
    let mut world = world_of_a_lone_read();
    world.clients.clear();
    let is_sent = |world: &mut World, time| {
        world.now = world.now.after(time);
        world.events.nudge(world.now).unwrap();
        world.events.send(world.now).unwrap();
        world.events.connections().next_to_write().is_some()
    };
    assert!(!is_sent(&mut world, ACKNOWLEDGED_WITHIN / 2));
    assert!(is_sent(&mut world, ACKNOWLEDGED_WITHIN / 2), "its acknowledgement may be lost");
}
