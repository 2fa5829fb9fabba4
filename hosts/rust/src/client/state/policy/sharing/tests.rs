use super::{MAX_ROWS, SharedRows, WRITES};
use crate::client::state::world::{World, row};
use crate::client::state::{Asking, Purpose};
use crate::model::change::{Outcome, Write};
use crate::wire::message::{Kind, Message};

/// A world with the row 10, which client 0 has written and client 1 has read since.
fn wanted_by_the_other() -> World {
    let mut world = World::new();
    assert_eq!(world.write(0, Write::Insert(row(10, 1))), Outcome::Applied);
    assert_eq!(world.read(1, 0..20), [row(10, 1)]);
    world
}

/// How many callbacks client 0 receives until client 1 has read the row 10 with this number.
fn callbacks_until_read(world: &mut World, number: u64) -> usize {
    let asked = world.clients[1].read(10..11);
    let mut callbacks = 0;
    loop {
        let sent: Vec<_> =
            [0, 1].into_iter().flat_map(|client| world.messages_of(client)).collect();
        world.deliver_to_server(&sent);
        let received = world.messages_of_server();
        if sent.is_empty() && received.is_empty() {
            break;
        }
        for message in &received {
            let message = Message::read(message);
            let client = usize::from(message.client().unwrap());
            callbacks += usize::from(client == 0 && message.kind() == Kind::Callback);
            world.clients[client].receive(message.bytes()).unwrap();
        }
        for state in &mut world.clients {
            state.advance(Asking::Allowed);
        }
    }
    assert_eq!(asked.answer.try_recv().unwrap().unwrap(), [row(10, number)]);
    callbacks
}

fn put(world: &mut World, number: u64) {
    assert_eq!(world.write(0, Write::Put(row(10, number))), Outcome::Applied);
}

#[test]
fn a_row_that_others_read_is_read_without_a_callback_after_a_write() {
    let mut world = wanted_by_the_other();
    world.clients[1].keep_all();
    for number in 2..20 {
        put(&mut world, number);
        assert!(world.is_cached(0, 10..11), "the writer goes on to read it");
        let callbacks = callbacks_until_read(&mut world, number);
        // One callback counts for this many writes.
        let is_due = (number - 2) % (u64::from(WRITES) + 1) == u64::from(WRITES);
        assert_eq!(callbacks, usize::from(is_due), "write {number}");
    }
}

#[test]
fn a_row_that_nobody_else_wants_stays_in_x() {
    let mut world = World::new();
    assert_eq!(world.write(0, Write::Insert(row(10, 1))), Outcome::Applied);
    for number in 2..5 {
        put(&mut world, number);
        assert!(world.clients[0].client.may_change(10));
    }
}

#[test]
fn a_row_is_shared_for_some_writes_after_a_callback() {
    let mut world = wanted_by_the_other();
    for number in 2..2 + u64::from(WRITES) {
        put(&mut world, number);
        assert!(!world.clients[0].client.may_change(10), "write {number}");
    }
    put(&mut world, 20);
    put(&mut world, 21);
    assert!(world.clients[0].client.may_change(10), "nobody has read it since");
}

#[test]
fn what_is_pinned_or_about_to_be_changed_is_not_shared() {
    let mut world = wanted_by_the_other();
    let held = world.clients[0].hold(10..11, Purpose::Write);
    world.settle();
    let pin = held.answer.try_recv().unwrap().unwrap().pin;
    put(&mut world, 2);
    assert!(world.clients[0].client.may_change(10), "it is pinned");
    world.clients[0].unpin(pin);
    let first = world.clients[0].write(Write::Put(row(10, 3)));
    let second = world.clients[0].write(Write::Put(row(10, 4)));
    let sent = world.messages_of(0);
    world.deliver_to_server(&sent);
    world.deliver_to_clients();
    assert_eq!(first.answer.try_recv(), Ok(Ok(Outcome::Applied)));
    assert!(world.clients[0].client.may_change(10), "the next write needs it");
    world.settle();
    assert_eq!(second.answer.try_recv(), Ok(Ok(Outcome::Applied)));
    assert!(!world.clients[0].client.may_change(10));
}

#[test]
fn few_rows_are_remembered() {
    let mut shared = SharedRows::default();
    for key in 0..=MAX_ROWS as u64 {
        shared.note(key);
    }
    assert!(!shared.count(0), "it is forgotten");
    assert!(shared.count(MAX_ROWS as u64));
}
