use super::WRITES_THAT_ASK_FIRST;
use crate::call::error::ErrorKind;
use crate::client::state::bound::Wanted;
use crate::client::state::policy::callbacks::CONTENDED_FOR;
use crate::client::state::world::{World, pass, row};
use crate::client::state::{Asking, Purpose};
use crate::model::change::{Outcome, Write};
use crate::wire::message::kind::{ACK, LOCK, RELEASE};

const WRITER: usize = 0;
const OTHER: usize = 1;

/// The kinds of writes, as `docs/WIRE.md` numbers them.
const INSERT: u8 = 4;
const PUT: u8 = 5;
const DELETE: u8 = 6;
const TAKING_INSERT: u8 = 9;
const TAKING_PUT: u8 = 10;

/// This many round trips end every write here.
const ENOUGH: usize = 20;

/// What the writer sends for a write until it is applied, by its kinds, without what it only
/// acknowledges.
fn sent_for(world: &mut World, write: Write) -> Vec<u8> {
    let asked = world.clients[WRITER].write(write);
    let mut sent = Vec::new();
    for _ in 0..ENOUGH {
        let outgoing = world.messages_of(WRITER);
        sent.extend(outgoing.iter().map(|message| message[1]).filter(|kind| *kind != ACK));
        world.deliver_to_server(&outgoing);
        world.round();
        if let Ok(answer) = asked.answer.try_recv() {
            assert_eq!(answer, Ok(Outcome::Applied));
            world.settle();
            return sent;
        }
    }
    panic!("not answered, after {sent:?}");
}

/// A world with the rows 10 and 20, of which nobody holds anything.
fn world() -> World {
    world_with(&[10, 20])
}

/// A world with the rows of these keys, of which nobody holds anything.
fn world_with(keys: &[u64]) -> World {
    let mut world = World::new();
    for key in keys {
        assert_eq!(world.write(OTHER, Write::Insert(row(*key, 1))), Outcome::Applied);
    }
    // The writer was served once, and so may take locks.
    world.read(WRITER, 0..1000);
    forget(&mut world, WRITER);
    forget(&mut world, OTHER);
    world
}

fn forget(world: &mut World, client: usize) {
    let forgotten = world.clients[client].forget(0..1000);
    world.settle();
    assert_eq!(forgotten.answer.try_recv(), Ok(Ok(())));
}

#[test]
fn a_write_of_what_is_free_is_one_message() {
    let mut world = world();
    assert_eq!(sent_for(&mut world, Write::Put(row(10, 2))), [TAKING_PUT]);
    assert_eq!(sent_for(&mut world, Write::Insert(row(15, 2))), [TAKING_INSERT]);
    assert_eq!(world.read(OTHER, 0..100), [row(10, 2), row(15, 2), row(20, 1)]);
}

#[test]
fn the_first_write_of_a_client_asks_for_its_lock() {
    let mut world = World::new();
    assert_eq!(sent_for(&mut world, Write::Insert(row(10, 1))), [LOCK, INSERT]);
    forget(&mut world, WRITER);
    assert_eq!(sent_for(&mut world, Write::Put(row(10, 2))), [TAKING_PUT]);
}

#[test]
fn a_write_of_what_the_client_holds_takes_nothing() {
    let mut world = world();
    assert_eq!(sent_for(&mut world, Write::Put(row(10, 2))), [TAKING_PUT]);
    assert_eq!(sent_for(&mut world, Write::Put(row(10, 3))), [PUT]);
}

#[test]
fn a_write_of_what_the_client_reads_asks_for_the_lock() {
    let mut world = world();
    world.read(WRITER, 0..100);
    assert_eq!(sent_for(&mut world, Write::Put(row(10, 2))), [RELEASE, LOCK, PUT]);
}

#[test]
fn a_delete_asks_for_its_locks() {
    let mut world = world();
    let sent = sent_for(&mut world, Write::Delete(10));
    assert_eq!([sent.first(), sent.last()], [Some(&LOCK), Some(&DELETE)]);
}

#[test]
fn one_trip_is_made_in_vain_where_another_client_holds_the_row() {
    let mut world = world();
    world.read(OTHER, 0..100);
    assert_eq!(sent_for(&mut world, Write::Put(row(10, 2))), [TAKING_PUT, LOCK, PUT]);
}

#[test]
fn some_writes_take_nothing_after_a_trip_in_vain() {
    let keys: Vec<u64> =
        (1..=1 + u64::from(WRITES_THAT_ASK_FIRST)).map(|place| 10 * place).collect();
    let mut world = world_with(&keys);
    world.read(OTHER, 10..11);
    let mut sent = keys.iter().map(|key| sent_for(&mut world, Write::Put(row(*key, 2))));
    assert_eq!(sent.next().unwrap(), [TAKING_PUT, LOCK, PUT], "in vain");
    for _ in 1..WRITES_THAT_ASK_FIRST {
        assert_eq!(sent.next().unwrap(), [LOCK, PUT]);
    }
    assert_eq!(sent.next().unwrap(), [TAKING_PUT], "the pause is over");
}

#[test]
fn a_place_is_contended_for_a_while_after_a_callback() {
    let mut world = world();
    assert_eq!(sent_for(&mut world, Write::Put(row(10, 2))), [TAKING_PUT]);
    assert_eq!(world.write(OTHER, Write::Put(row(10, 3))), Outcome::Applied);
    assert_eq!(sent_for(&mut world, Write::Put(row(10, 4))), [LOCK, PUT]);
    // Nothing was called back elsewhere.
    assert_eq!(sent_for(&mut world, Write::Put(row(20, 4))), [TAKING_PUT]);
    assert_eq!(world.write(OTHER, Write::Put(row(10, 5))), Outcome::Applied);
    pass(&mut world.clients[WRITER], CONTENDED_FOR);
    assert_eq!(sent_for(&mut world, Write::Put(row(10, 6))), [TAKING_PUT, LOCK, PUT], "in vain");
}

#[test]
fn nothing_is_taken_while_messages_are_unread() {
    let mut world = world();
    let writer = &mut world.clients[WRITER];
    let wanted = Wanted::free(Write::Put(row(10, 2)));
    writer.advance(Asking::Later);
    assert!(!writer.may_take(1, &wanted));
    writer.advance(Asking::Allowed);
    assert!(writer.may_take(1, &wanted));
}

/// The writer sends this write, which takes its lock and is lost, and its caller gives it up.
fn give_up(world: &mut World, write: Write) {
    let asked = world.clients[WRITER].write(write);
    let lost = world.messages_of(WRITER);
    assert!(matches!(lost.last().unwrap()[1], TAKING_INSERT | TAKING_PUT));
    world.clients[WRITER].abandon(asked.id, ErrorKind::TimedOut);
    assert_eq!(asked.answer.try_recv(), Ok(Err(ErrorKind::TimedOut)));
}

#[test]
fn a_write_that_was_given_up_may_be_made_after_another_client_has_read() {
    let mut world = world();
    give_up(&mut world, Write::Insert(row(15, 1)));
    assert_eq!(world.read(OTHER, 15..16), []);
    forget(&mut world, OTHER);
    world.clients[WRITER].tick();
    world.settle();
    assert_eq!(world.read(OTHER, 15..16), [row(15, 1)]);
}

#[test]
fn a_read_by_the_client_that_gave_a_write_up_waits_until_it_is_decided() {
    let mut world = world();
    give_up(&mut world, Write::Insert(row(15, 1)));
    let read = world.clients[WRITER].read(0..100);
    world.settle();
    assert!(read.answer.try_recv().is_err(), "the write is not decided");
    world.clients[WRITER].tick();
    world.settle();
    assert_eq!(read.answer.try_recv(), Ok(Ok(vec![row(10, 1), row(15, 1), row(20, 1)])));
}

#[test]
fn a_write_by_a_pin_that_was_given_up_bars_others_until_it_is_decided() {
    let mut world = world();
    let held = world.clients[WRITER].hold(15..16, Purpose::Write);
    world.settle();
    let pin = held.answer.try_recv().unwrap().unwrap().pin;
    let asked = world.clients[WRITER].write_under(pin, Write::Insert(row(15, 1)));
    assert_eq!(world.messages_of(WRITER).last().unwrap()[1], INSERT, "this one is lost");
    world.clients[WRITER].abandon(asked.id, ErrorKind::TimedOut);
    world.clients[WRITER].unpin(pin);
    let read = world.clients[OTHER].read(15..16);
    world.settle();
    assert!(read.answer.try_recv().is_err(), "the write is not decided");
    world.clients[WRITER].tick();
    world.settle();
    assert_eq!(read.answer.try_recv(), Ok(Ok(vec![row(15, 1)])));
}

#[test]
fn a_write_that_was_given_up_is_not_asked_for_again() {
    let mut world = world();
    give_up(&mut world, Write::Put(row(10, 2)));
    world.read(OTHER, 10..11);
    world.clients[WRITER].tick();
    world.settle();
    assert_eq!(world.read(WRITER, 10..11), [row(10, 1)], "its lock was not free");
    forget(&mut world, OTHER);
    world.clients[WRITER].tick();
    world.settle();
    assert_eq!(world.read(OTHER, 10..11), [row(10, 1)]);
}
