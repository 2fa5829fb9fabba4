use super::OnlyRead;
use crate::client::state::world::{World, row};
use crate::client::state::{Asked, Asking, Purpose};
use crate::model::change::{Outcome, Write};
use crate::model::row::Row;
use crate::wire::message::Message;
use crate::wire::message::kind::{LOCK, RELEASE};
use std::ops::Range;

/// A world with the rows 5 and 10, which both clients read.
fn read_by_both() -> World {
    let mut world = World::new();
    for key in [5, 10] {
        assert_eq!(world.write(0, Write::Insert(row(key, 1))), Outcome::Applied);
    }
    for client in [0, 1, 0] {
        assert_eq!(world.read(client, 0..20), [row(5, 1), row(10, 1)]);
    }
    assert!([0, 1].iter().all(|client| world.is_cached(*client, 0..20)));
    world
}

/// A write of client 0 under its pin, and what client 1 has not received yet.
struct Upgrade {
    pin: u64,
    put: Asked<Outcome>,
    late: Vec<Vec<u8>>,
}

/// Client 0 has the row 10 pinned for an update, and asks to change it. The callback to client 1 is
/// on its way.
fn asks_under_its_pin(world: &mut World) -> Upgrade {
    let held = world.clients[0].hold(10..11, Purpose::Update);
    world.settle();
    let pin = held.answer.try_recv().unwrap().unwrap().pin;
    let put = world.clients[0].write(Write::Put(row(10, 2)));
    let sent = world.messages_of(0);
    world.deliver_to_server(&sent);
    let late = world.messages_of_server();
    assert!(!late.is_empty());
    Upgrade { pin, put, late }
}

/// Client 1 sends before it has received what is late.
fn sends_first(world: &mut World, late: &[Vec<u8>]) {
    let sent = world.messages_of(1);
    world.deliver_to_server(&sent);
    for message in late {
        world.clients[1].receive(message).unwrap();
    }
    world.clients[1].advance(Asking::Allowed);
    world.settle();
}

#[test]
fn a_later_pin_for_an_update_waits_for_the_write() {
    let mut world = read_by_both();
    let Upgrade { pin, put, late } = asks_under_its_pin(&mut world);
    let next = world.clients[1].hold(10..11, Purpose::Update);
    sends_first(&mut world, &late);
    assert_eq!(put.answer.try_recv(), Ok(Ok(Outcome::Applied)));
    assert!(next.answer.try_recv().is_err(), "the row is pinned");
    world.clients[0].unpin(pin);
    world.settle();
    assert_eq!(next.answer.try_recv().unwrap().unwrap().rows, [row(10, 2)]);
}

#[test]
fn a_later_write_waits_for_the_pin_for_an_update() {
    for write in [Write::Put(row(10, 3)), Write::Insert(row(7, 3)), Write::Delete(10)] {
        let mut world = read_by_both();
        let Upgrade { pin, put, late } = asks_under_its_pin(&mut world);
        let next = world.clients[1].write(write);
        sends_first(&mut world, &late);
        assert_eq!(put.answer.try_recv(), Ok(Ok(Outcome::Applied)), "{write:?}");
        assert!(next.answer.try_recv().is_err(), "the row is pinned: {write:?}");
        world.clients[0].unpin(pin);
        world.settle();
        assert_eq!(next.answer.try_recv(), Ok(Ok(Outcome::Applied)), "{write:?}");
    }
}

/// Client 1 reads the row 10 and no longer the gap below it: client 0 has inserted the row 7 there.
fn read_without_its_gap() -> World {
    let mut world = read_by_both();
    assert_eq!(world.write(0, Write::Insert(row(7, 1))), Outcome::Applied);
    assert!(world.is_cached(1, 10..11) && !world.is_cached(1, 8..10));
    world
}

#[test]
fn a_reader_of_an_entry_without_its_gap_waits_for_the_write_too() {
    for write in [Write::Put(row(10, 3)), Write::Insert(row(9, 3)), Write::Delete(10)] {
        let mut world = read_without_its_gap();
        let Upgrade { pin, put, late } = asks_under_its_pin(&mut world);
        let next = world.clients[1].write(write);
        sends_first(&mut world, &late);
        assert_eq!(put.answer.try_recv(), Ok(Ok(Outcome::Applied)), "{write:?}");
        assert!(next.answer.try_recv().is_err(), "the row is pinned: {write:?}");
        world.clients[0].unpin(pin);
        world.settle();
        assert_eq!(next.answer.try_recv(), Ok(Ok(Outcome::Applied)), "{write:?}");
    }
}

#[test]
fn a_callback_leaves_the_entry_of_a_slot() {
    let mut world = read_without_its_gap();
    let left = |world: &World, point| {
        let left = world.clients[1].yields_before_read(point);
        left.map(|OnlyRead { span, has_gap }| (span, has_gap))
    };
    assert_eq!(left(&world, 9), Some((6..11, false)));
    assert_eq!(left(&world, 6), Some((6..11, false)));
    assert_eq!([left(&world, 5), left(&world, 11)], [None, None], "it was not called back there");
    // The client reads the lower part of that slot again, which is a slot by itself by now.
    let pin = world.clients[1].pin(10..11).unwrap();
    assert_eq!(world.read(1, 6..8), [row(7, 1)]);
    world.clients[1].unpin(pin);
    assert_eq!(left(&world, 9), Some((6..11, false)));
    assert_eq!(left(&world, 8), Some((8..11, false)));
    world.read(1, 0..20);
    assert!((0..20).all(|point| left(&world, point).is_none()), "it reads all");
}

#[test]
fn who_reads_a_gap_again_gives_back_what_a_callback_left() {
    let mut world = read_without_its_gap();
    let kinds = |sent: &[Vec<u8>]| sent.iter().map(|message| message[1]).collect::<Vec<_>>();
    let read = world.clients[1].read(8..11);
    let sent = world.messages_of(1);
    assert_eq!(kinds(&sent), [RELEASE, LOCK]);
    world.deliver_to_server(&sent);
    world.settle();
    assert_eq!(read.answer.try_recv(), Ok(Ok(vec![row(10, 1)])));
    world.clients[1].forget(0..6);
    world.settle();
    let _read = world.clients[1].read(0..6);
    assert_eq!(kinds(&world.messages_of(1)), [LOCK], "nobody else has wanted that");
}

/// Two clients that read this range over and over, each as soon as it was called back there.
struct HastyReaders {
    keys: Range<u64>,
    reads: [Asked<Vec<Row>>; 2],
}

impl HastyReaders {
    fn begin(world: &mut World, keys: Range<u64>) -> HastyReaders {
        let reads = [0, 1].map(|client| world.clients[client].read(keys.clone()));
        HastyReaders { keys, reads }
    }

    fn go_on(&mut self, world: &mut World) {
        for (client, read) in self.reads.iter_mut().enumerate() {
            if read.answer.try_recv().is_ok() {
                *read = world.clients[client].read(self.keys.clone());
            }
        }
    }

    /// One round trip, in which each message comes by itself.
    fn trip(&mut self, world: &mut World) {
        let sent: Vec<_> = (0..3).flat_map(|client| world.messages_of(client)).collect();
        world.deliver_to_server(&sent);
        for message in world.messages_of_server() {
            let client = usize::from(Message::read(&message).client().unwrap());
            world.clients[client].receive(&message).unwrap();
            world.clients[client].advance(Asking::Allowed);
            self.go_on(world);
        }
    }
}

/// This many round trips does a write take that is not kept waiting, and a few more.
const FEW_TRIPS: usize = 8;

#[test]
fn who_reads_again_what_was_called_back_keeps_no_writer_waiting() {
    for keys in [0..10, 0..11, 0..20] {
        let mut world = World::of(3);
        for key in [10, 15] {
            assert_eq!(world.write(2, Write::Insert(row(key, 1))), Outcome::Applied);
        }
        let mut readers = HastyReaders::begin(&mut world, keys.clone());
        world.settle();
        for key in [5, 7] {
            let insert = world.clients[2].write(Write::Insert(row(key, 1)));
            let is_done = (0..FEW_TRIPS).any(|_| {
                readers.trip(&mut world);
                insert.answer.try_recv() == Ok(Ok(Outcome::Applied))
            });
            assert!(is_done, "{key} is not inserted, while others read {keys:?}");
        }
    }
}

#[test]
fn a_client_that_inserts_continues_to_read_the_entry_above() {
    let mut world = read_without_its_gap();
    assert_eq!(world.write(1, Write::Insert(row(9, 3))), Outcome::Applied);
    assert!(world.is_cached(1, 9..11));
}

#[test]
fn who_puts_a_row_that_is_not_there_gives_nothing_back() {
    let mut world = read_by_both();
    assert_eq!(world.write(1, Write::Put(row(7, 2))), Outcome::Absent);
    assert!(world.is_cached(1, 0..20));
}

/// A delete asks for two slots, and is given the first one. A callback of the second one came before
/// that, and the release was lost: the server still counts the client as a reader there.
#[test]
fn a_client_called_back_before_a_grant_waits_for_the_write_too() {
    let mut world = read_by_both();
    assert_eq!(world.write(0, Write::Insert(row(7, 1))), Outcome::Applied);
    for client in [0, 1] {
        world.read(client, 0..20);
    }
    let held = world.clients[0].hold(10..11, Purpose::Update);
    world.settle();
    let pin = held.answer.try_recv().unwrap().unwrap().pin;
    let delete = world.clients[1].write(Write::Delete(7));
    let asked = world.messages_of(1);
    let put = world.clients[0].write(Write::Put(row(10, 2)));
    let sent = world.messages_of(0);
    world.deliver_to_server(&sent);
    let callback = world.messages_of_server();
    // Client 0 gives back the first slot, so the server grants it.
    world.deliver_to_server(&asked);
    world.deliver_to_clients();
    let sent = world.messages_of(0);
    world.deliver_to_server(&sent);
    let grant = world.messages_of_server();
    for message in callback.iter().chain(&grant) {
        world.clients[1].receive(message).unwrap();
        let sent = world.messages_of(1);
        world.deliver_to_server(&sent);
    }
    world.clients[1].advance(Asking::Allowed);
    world.settle();
    assert_eq!(put.answer.try_recv(), Ok(Ok(Outcome::Applied)));
    assert!(delete.answer.try_recv().is_err(), "the gap is pinned");
    world.clients[0].unpin(pin);
    world.settle();
    assert_eq!(delete.answer.try_recv(), Ok(Ok(Outcome::Applied)));
}

#[test]
fn a_release_that_is_lost_is_sent_again_with_the_request() {
    let mut world = read_by_both();
    let Upgrade { put, late, .. } = asks_under_its_pin(&mut world);
    let _next = world.clients[1].write(Write::Put(row(10, 3)));
    assert!(!world.messages_of(1).is_empty(), "both are lost");
    world.clients[1].tick();
    sends_first(&mut world, &late);
    assert_eq!(put.answer.try_recv(), Ok(Ok(Outcome::Applied)));
}

/// Each client has one row pinned, and a second thread of it waits for the row of the other client:
/// a client has one request at a time, and its first thread has nothing to ask for.
#[test]
fn who_pins_for_a_write_waits_for_no_other_thread_of_its_client() {
    let mut world = read_by_both();
    let [first, second] = [0, 1].map(|client| {
        let keys = [5..6, 10..11][client].clone();
        let held = world.clients[client].hold(keys, Purpose::Write);
        world.settle();
        held.answer.try_recv().unwrap().unwrap().pin
    });
    let waiting = [0, 1].map(|client| {
        let keys = [10..11, 5..6][client].clone();
        world.clients[client].hold(keys, Purpose::Write)
    });
    world.settle();
    for (client, pin, key) in [(0, first, 5), (1, second, 10)] {
        let put = world.clients[client].write_under(pin, Write::Put(row(key, 2)));
        world.settle();
        assert_eq!(put.answer.try_recv(), Ok(Ok(Outcome::Applied)));
        assert!(waiting[client].answer.try_recv().is_err(), "it is pinned");
    }
    for (client, pin) in [(0, first), (1, second)] {
        world.clients[client].unpin(pin);
        world.settle();
    }
    let rows = waiting.map(|held| held.answer.try_recv().unwrap().unwrap().rows);
    assert_eq!(rows, [[row(10, 2)], [row(5, 2)]]);
}

#[test]
fn what_a_writer_read_of_the_gap_it_reads_after_its_write_too() {
    let mut world = read_by_both();
    assert_eq!(world.write(1, Write::Insert(row(7, 2))), Outcome::Applied);
    assert!(world.is_cached(1, 0..20));
    assert_eq!(world.write(1, Write::Put(row(10, 2))), Outcome::Applied);
    assert!(world.is_cached(1, 0..20));
}

#[test]
fn what_is_pinned_is_not_given_back() {
    let mut world = read_by_both();
    let pin = world.clients[1].pin(6..8).unwrap();
    let put = world.clients[1].write(Write::Put(row(10, 2)));
    assert!(world.is_cached(1, 0..20));
    world.settle();
    assert_eq!(put.answer.try_recv(), Ok(Ok(Outcome::Applied)));
    world.clients[1].unpin(pin);
}

#[test]
fn only_the_slot_that_is_asked_for_is_given_back() {
    let mut world = read_by_both();
    let _put = world.clients[1].write(Write::Put(row(10, 2)));
    assert!(world.is_cached(1, 0..6) && world.is_cached(1, 11..20));
    assert!(!world.is_cached(1, 6..7) && !world.is_cached(1, 10..11));
}
