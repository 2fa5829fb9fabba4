use super::*;
use crate::call::error::ErrorKind;
use crate::client::state::policy::callbacks::CONTENDED_FOR;
use crate::client::state::world::{World, pass, row};
use crate::client::state::{Asked, Purpose};
use crate::model::change::{Outcome, Write};
use crate::model::row::{END, Row};
use crate::proved::client_handle::ClientHandle;
use crate::wire::read_frame::PAGE;

const KEYS: Range<u64> = 0..10;

/// There are ten rows, and client 1 has been answered once, and keeps nothing that it reads.
fn world() -> World {
    let mut world = World::new();
    world.read(1, KEYS);
    for key in KEYS {
        assert_eq!(world.write(0, Write::Insert(row(key, 0))), Outcome::Applied);
    }
    forget_all(&mut world);
    world.clients[1].keeping.keep_nothing();
    world
}

/// No client holds anything, and for long nobody has been at work.
fn forget_all(world: &mut World) {
    for client in 0..world.clients.len() {
        drop(world.clients[client].forget(0..END));
        world.settle();
        pass(&mut world.clients[client], 2 * CONTENDED_FOR);
    }
}

fn rows(keys: Range<u64>) -> Vec<Row> {
    keys.map(|key| row(key, 0)).collect()
}

/// Client 1 reads these keys. Returns what it sends for that.
fn read(world: &mut World, keys: Range<u64>) -> (Asked<Vec<Row>>, Vec<Vec<u8>>) {
    let read = world.clients[1].read(keys);
    (read, world.messages_of(1))
}

/// The one question among these frames, which are nothing else.
fn question(sent: &[Vec<u8>]) -> ReadRequest {
    let [question] = sent else { panic!("{sent:?}") };
    ReadRequest::read(question).unwrap()
}

#[test]
fn a_read_that_is_not_kept_takes_no_lock() {
    let mut world = world();
    let (read, sent) = read(&mut world, 2..5);
    let ReadRequest { lo, hi, .. } = question(&sent);
    assert_eq!(lo..hi, 2..5);
    world.deliver_to_server(&sent);
    world.deliver_to_clients();
    assert_eq!(read.answer.try_recv(), Ok(Ok(rows(2..5))));
    assert!(world.messages_of(1).is_empty());
    assert!(!world.is_cached(1, 2..3) && !world.clients[1].are_open());
}

#[test]
fn one_call_asks_after_the_other() {
    let mut world = world();
    let (first, sent) = read(&mut world, 2..5);
    let (second, none) = read(&mut world, 3..4);
    assert!(none.is_empty(), "a connection has one question");
    world.deliver_to_server(&sent);
    world.deliver_to_clients();
    assert_eq!(first.answer.try_recv(), Ok(Ok(rows(2..5))));
    assert!(second.answer.try_recv().is_err());
    world.settle();
    assert_eq!(second.answer.try_recv(), Ok(Ok(rows(3..4))));
}

#[test]
fn a_read_waits_for_a_write_of_its_client_whose_outcome_is_unknown() {
    let mut world = world();
    let written = world.clients[1].write(Write::Put(row(3, 1)));
    let sent = world.messages_of(1);
    world.clients[1].abandon(written.id, ErrorKind::TimedOut);
    let (elsewhere, asked) = read(&mut world, 4..9);
    assert_eq!(question(&asked).lo, 4);
    world.deliver_to_server(&asked);
    world.deliver_to_clients();
    assert_eq!(elsewhere.answer.try_recv(), Ok(Ok(rows(4..9))));
    let (there, asked) = read(&mut world, 2..4);
    assert!(asked.iter().all(|frame| ReadRequest::read(frame).is_none()), "it may not be made yet");
    world.deliver_to_server(&asked);
    world.deliver_to_server(&sent);
    world.clients[1].tick();
    world.settle();
    assert_eq!(there.answer.try_recv(), Ok(Ok(vec![row(2, 0), row(3, 1)])));
}

#[test]
fn a_new_incarnation_asks_when_it_has_joined() {
    let mut world = world();
    let client = &mut world.clients[1];
    client.drop_all(crate::client::state::Dropped::LeaseEnded);
    client.begin_again(ClientHandle::open(1, 2).unwrap());
    let (read, sent) = read(&mut world, 2..5);
    assert!(sent.iter().all(|frame| ReadRequest::read(frame).is_none()));
    world.clients[1].tick();
    world.settle();
    assert_eq!(read.answer.try_recv(), Ok(Ok(rows(2..5))));
    assert!(!world.is_cached(1, 2..3));
}

#[test]
fn a_question_is_repeated_by_a_tick_and_on_the_next_connection() {
    let mut world = world();
    let (read, sent) = read(&mut world, 2..5);
    world.clients[1].tick();
    assert!(world.messages_of(1).contains(&sent[0]));
    assert!(world.messages_of(1).is_empty());
    world.clients[1].disconnect();
    let sent = world.messages_of(1);
    world.deliver_to_server(&sent);
    world.deliver_to_clients();
    assert_eq!(read.answer.try_recv(), Ok(Ok(rows(2..5))));
}

#[test]
fn what_is_no_answer_is_refused_and_what_comes_late_is_ignored() {
    let mut world = world();
    let (read, sent) = read(&mut world, 2..5);
    let asked = question(&sent);
    let page = world.page(asked);
    let late = RowPage { number: asked.number - 1, ..page.clone() };
    assert_eq!(world.clients[1].receive_rows(late), Ok(()));
    let other = RowPage { next: 6, ..page };
    assert_eq!(world.clients[1].receive_rows(other), Err(Code::BadMessage));
    assert!(read.answer.try_recv().is_err());
    world.clients[1].disconnect();
    world.round();
    world.settle();
    assert_eq!(read.answer.try_recv(), Ok(Ok(rows(2..5))), "it is asked again");
}

#[test]
fn an_abandoned_read_leaves_its_place_to_the_next_one() {
    let mut world = world();
    let (first, sent) = read(&mut world, 2..5);
    world.clients[1].abandon(first.id, ErrorKind::TimedOut);
    let (second, asked) = read(&mut world, 3..4);
    assert_eq!(question(&asked).lo, 3);
    world.deliver_to_server(&sent);
    world.deliver_to_clients();
    assert!(second.answer.try_recv().is_err());
    world.deliver_to_server(&asked);
    world.deliver_to_clients();
    assert_eq!(second.answer.try_recv(), Ok(Ok(rows(3..4))));
}

#[test]
fn a_read_of_more_rows_than_the_host_sends_takes_a_lock_and_is_kept() {
    let mut world = world();
    let most = PAGE as u64;
    for key in KEYS.end..=most {
        assert_eq!(world.write(0, Write::Insert(row(key, 0))), Outcome::Applied);
    }
    for (keys, is_kept) in [(0..most + 1, true), (0..most, false)] {
        forget_all(&mut world);
        let (read, sent) = read(&mut world, keys.clone());
        assert_eq!(question(&sent).hi, keys.end);
        world.deliver_to_server(&sent);
        world.settle();
        assert_eq!(read.answer.try_recv(), Ok(Ok(rows(keys.clone()))));
        assert_eq!(world.is_cached(1, keys), is_kept);
    }
}

#[test]
fn what_another_client_has_pinned_to_write_is_not_read() {
    let mut world = world();
    let held = world.clients[0].hold(3..4, Purpose::Write);
    world.settle();
    let pin = held.answer.try_recv().unwrap().unwrap().pin;
    let before = world.clients[1].read(2..5);
    world.settle();
    assert_eq!(world.write_under(0, pin, Write::Put(row(3, 1))), Outcome::Applied);
    assert!(before.answer.try_recv().is_err());
    assert!(world.clients[1].shows(|shown| shown.is_waiting), "it waits for a lock");
    assert_eq!(world.write_under(0, pin, Write::Put(row(3, 2))), Outcome::Applied);
    world.clients[0].unpin(pin);
    world.settle();
    assert_eq!(before.answer.try_recv(), Ok(Ok(vec![row(2, 0), row(3, 2), row(4, 0)])));
}

#[test]
fn each_slot_that_a_range_meets_has_to_be_free_for_readers() {
    for (pinned, is_shown) in [(1, true), (2, false), (3, false), (4, false), (5, false), (6, true)]
    {
        let mut world = world();
        let held = world.clients[0].hold(pinned..pinned + 1, Purpose::Write);
        world.settle();
        assert!(held.answer.try_recv().is_ok());
        let mut may_read = |client, keys| world.server.may_read(client, &keys).unwrap();
        assert_eq!(may_read(1, 2..6), is_shown, "{pinned}");
        assert!(may_read(0, 2..6), "it has pinned them itself");
        assert!(may_read(1, 3..3) && may_read(1, 7..10));
        // The gap after the last row ends at END, and client 0 still has that.
        assert!(!may_read(1, 7..END) && !may_read(1, 7..u64::MAX));
    }
}

#[test]
fn what_another_client_has_just_written_is_read_by_a_lock() {
    let mut world = world();
    assert_eq!(world.write(0, Write::Put(row(3, 1))), Outcome::Applied);
    let (read, sent) = read(&mut world, 2..5);
    world.deliver_to_server(&sent);
    world.deliver_to_clients();
    assert!(read.answer.try_recv().is_err() && world.messages_of(1).is_empty());
    world.round();
    world.settle();
    assert_eq!(read.answer.try_recv(), Ok(Ok(vec![row(2, 0), row(3, 1), row(4, 0)])));
    assert!(!world.clients[1].client.holds(3), "it is given back");
}
