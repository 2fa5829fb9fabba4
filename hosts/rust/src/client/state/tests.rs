use super::world::{World, pass, row};
use super::*;
use crate::call::error::Unsent;
use crate::lease::boot_clock::Moment;
use crate::wire::message::kind::LOCK;

#[test]
fn each_job_has_its_answer() {
    let mut world = World::new();
    assert_eq!(world.write(0, Write::Insert(row(10, 1))), Outcome::Applied);
    assert_eq!(world.write(1, Write::Insert(row(10, 2))), Outcome::Exists);
    assert_eq!(world.write(1, Write::Put(row(10, 3))), Outcome::Applied);
    assert_eq!(world.write(1, Write::Put(row(11, 3))), Outcome::Absent);
    assert_eq!(world.read(0, 0..20), [row(10, 3)]);
    assert_eq!(world.write(0, Write::Delete(11)), Outcome::Absent);
    assert_eq!(world.write(0, Write::Delete(10)), Outcome::Applied);
    assert_eq!(world.read(1, 0..20), []);
    assert!(!world.clients[0].are_open() && !world.clients[1].are_open());
}

#[test]
fn a_write_whose_lock_is_called_back_is_asked_again() {
    const DELETE: u8 = 6;
    let mut world = World::new();
    for key in [10, 20] {
        assert_eq!(world.write(0, Write::Insert(row(key, 1))), Outcome::Applied);
    }
    world.read(0, 0..30);
    let answer = world.clients[0].write(Write::Delete(10));
    // The grant comes, and the delete is on its way.
    let mut delayed = Vec::new();
    for _ in 0..4 {
        let (deletes, others): (Vec<_>, Vec<_>) =
            world.messages_of(0).into_iter().partition(|message| message[1] == DELETE);
        delayed.extend(deletes);
        world.deliver_to_server(&others);
        world.deliver_to_clients();
        world.clients[0].advance(Asking::Allowed);
    }
    assert_eq!(delayed.len(), 1);
    // Another client reads the gap after the key: the release overtakes the delete.
    let read = world.clients[1].read(11..15);
    let sent = world.messages_of(1);
    world.deliver_to_server(&sent);
    world.deliver_to_clients();
    let released = world.messages_of(0);
    world.deliver_to_server(&released);
    world.deliver_to_server(&delayed);
    world.settle();
    assert_eq!(read.answer.try_recv(), Ok(Ok(vec![])));
    assert_eq!(answer.answer.try_recv(), Ok(Ok(Outcome::Applied)));
    assert_eq!(world.read(1, 0..30), [row(20, 1)]);
}

#[test]
fn an_abandoned_job_keeps_no_other_one_waiting() {
    let mut world = World::new();
    let (first, second) = (world.clients[0].read(0..5), world.clients[0].read(0..9));
    world.clients[0].abandon(first.id, ErrorKind::TimedOut);
    world.settle();
    assert_eq!(second.answer.try_recv(), Ok(Ok(vec![])));
    assert_eq!(first.answer.try_recv(), Ok(Err(ErrorKind::TimedOut)));
    let write = world.clients[0].write(Write::Insert(row(3, 1)));
    world.clients[0].abandon(write.id, ErrorKind::TimedOut);
    assert_eq!(world.write(0, Write::Insert(row(4, 1))), Outcome::Applied);
}

#[test]
fn a_client_has_left_when_the_server_confirms_it() {
    let mut world = World::new();
    world.clients[0].receive(&[]).unwrap();
    let left = world.clients[0].leave();
    world.settle();
    assert!(world.clients[0].are_open() && left.answer.try_recv().is_err());
    world.clients[0].tick();
    assert_eq!(world.messages_of(0).len(), 1, "it sends Bye again");
    world.clients[0].receive(&[]).unwrap();
    assert_eq!(left.answer.try_recv(), Ok(Ok(())));
    assert!(!world.clients[0].are_open());
}

/// Has the client send an insert, and returns what it sends with that.
fn send_insert(world: &mut World) -> (Asked<Outcome>, Vec<Vec<u8>>) {
    let asked = world.clients[0].write(Write::Insert(row(3, 1)));
    while world.clients[0].was_sent(asked.id) == WasSent::No {
        world.round();
    }
    (asked, world.messages_of(0))
}

#[test]
fn a_client_that_leaves_waits_for_the_answer_to_its_write_and_begins_nothing_more() {
    let mut world = World::new();
    world.read(1, 0..9);
    let (write, sent) = send_insert(&mut world);
    let next = world.clients[0].write(Write::Insert(row(4, 1)));
    let left = world.clients[0].leave();
    let read = world.clients[0].read(0..9);
    assert_eq!(next.answer.try_recv(), Ok(Err(ErrorKind::Left)));
    assert_eq!(read.answer.try_recv(), Ok(Err(ErrorKind::Left)));
    let after = world.messages_of(0);
    world.deliver_to_server(&[sent, after].concat());
    assert!(!world.server.record(0).unwrap().unwrap().left, "its write is not answered");
    world.settle();
    assert_eq!(write.answer.try_recv(), Ok(Ok(Outcome::Applied)));
    assert!(world.server.record(0).unwrap().unwrap().left);
    world.clients[0].receive(&[]).unwrap();
    assert_eq!(left.answer.try_recv(), Ok(Ok(())));
    assert_eq!(world.read(1, 0..9), [row(3, 1)]);
}

#[test]
fn a_client_that_no_server_knows_has_left_at_once() {
    let mut client = State::new(ClientHandle::open(0, 1).unwrap(), Now::read());
    let read = client.read(0..9);
    let left = client.leave();
    assert_eq!(left.answer.try_recv(), Ok(Ok(())));
    assert_eq!(read.answer.try_recv(), Ok(Err(ErrorKind::Left)));
}

#[test]
fn a_client_whose_server_does_not_answer_in_time_knows_nothing_any_more() {
    let mut world = World::new();
    world.read(0, 10..20);
    let (write, _) = send_insert(&mut world);
    let left = world.clients[0].leave();
    world.clients[0].end_unanswered();
    assert_eq!(write.answer.try_recv(), Ok(Err(ErrorKind::TimedOut)), "it may be done");
    assert_eq!(left.answer.try_recv(), Ok(Ok(())));
    assert!(!world.is_cached(0, 10..20));
    let read = world.clients[0].read(10..20);
    assert_eq!(read.answer.try_recv(), Ok(Err(ErrorKind::Left)));
}

#[test]
fn a_cache_knows_nothing_of_what_was_dropped() {
    let mut world = World::new();
    let cache = world.clients[0].cache();
    let (keys, mut rows) = (0..30, Vec::new());
    world.read(0, keys.clone());
    assert_eq!(cache.scan(&keys, &mut rows, Moment::now), Ok(Scan::Rows));
    world.clients[0].drop_all(Dropped::StoreWentBack);
    assert_eq!(cache.scan(&keys, &mut rows, Moment::now), Err(Code::Closed));
    world.clients[0].begin_again(ClientHandle::open(0, 2).unwrap());
    assert_eq!(cache.scan(&keys, &mut rows, Moment::now), Ok(Scan::Miss(0)));
    world.settle();
    world.read(0, keys.clone());
    assert_eq!(cache.scan(&keys, &mut rows, Moment::now), Ok(Scan::Rows));
}

#[test]
fn whoever_waits_learns_that_the_thread_has_ended() {
    use std::sync::mpsc::TryRecvError;
    let mut world = World::new();
    let before = world.clients[0].read(0..9);
    assert_eq!(before.answer.try_recv(), Err(TryRecvError::Empty));
    world.clients[0].end();
    assert_eq!(before.answer.try_recv(), Ok(Err(ErrorKind::Stopped)));
    let after = world.clients[0].read(0..9);
    assert_eq!(after.answer.try_recv(), Ok(Err(ErrorKind::Stopped)));
}

#[test]
fn who_watches_a_range_learns_that_the_client_has_ended() {
    let mut world = World::new();
    let rows = world.read(0, 0..9);
    let change = world.clients[0].watch(0..9, rows);
    assert!(change.answer.try_recv().is_err(), "nothing has changed");
    world.clients[0].end();
    assert_eq!(change.answer.try_recv(), Ok(Err(ErrorKind::Stopped)));
}

#[test]
fn a_write_that_waits_for_its_lock_is_not_made_if_the_store_went_back_or_the_client_ends() {
    let mut world = World::new();
    assert_eq!(world.write(0, Write::Insert(row(10, 1))), Outcome::Applied);
    let sent = world.clients[0].write(Write::Put(row(10, 2)));
    let waits = world.clients[0].write(Write::Put(row(15, 2)));
    assert_eq!(world.clients[0].was_sent(sent.id), WasSent::Yes);
    assert!(!world.messages_of(0).is_empty());
    world.clients[0].drop_all(Dropped::StoreWentBack);
    assert_eq!(sent.answer.try_recv(), Ok(Err(ErrorKind::StoreWentBack)));
    let not_sent = |why| Ok(Err(ErrorKind::NotSent(why)));
    assert_eq!(waits.answer.try_recv(), not_sent(Unsent::StoreWentBack));
    let while_void = world.clients[0].write(Write::Put(row(10, 3)));
    world.clients[0].end();
    assert_eq!(while_void.answer.try_recv(), not_sent(Unsent::Stopped));
    let after = world.clients[0].write(Write::Put(row(10, 4)));
    assert_eq!(after.answer.try_recv(), not_sent(Unsent::Stopped));
}

#[test]
fn a_write_that_has_not_left_is_not_made_if_the_store_went_back() {
    let mut world = World::new();
    assert_eq!(world.write(0, Write::Insert(row(10, 1))), Outcome::Applied);
    let lost = world.clients[0].write(Write::Put(row(10, 2)));
    world.clients[0].lose();
    world.clients[0].drop_all(Dropped::StoreWentBack);
    let not_sent = ErrorKind::NotSent(Unsent::StoreWentBack);
    assert_eq!(lost.answer.try_recv(), Ok(Err(not_sent)), "there was no connection");
}

#[test]
fn what_is_called_back_in_a_pin_is_given_back_after_it() {
    let mut world = World::new();
    assert_eq!(world.write(1, Write::Insert(row(10, 1))), Outcome::Applied);
    world.read(0, 0..30);
    let pins = [5..15, 20..25].map(|keys| world.clients[0].pin(keys).unwrap());
    let put = world.clients[1].write(Write::Put(row(10, 2)));
    world.settle();
    assert!(put.answer.try_recv().is_err(), "the key is pinned");
    world.clients[0].unpin(pins[1]);
    world.settle();
    assert!(put.answer.try_recv().is_err(), "the key is pinned");
    world.clients[0].unpin(pins[0]);
    world.settle();
    assert_eq!(put.answer.try_recv(), Ok(Ok(Outcome::Applied)));
    assert!(!world.is_cached(0, 10..11));
    assert!(world.is_cached(0, 20..25), "nobody called that back");
    assert_eq!(world.read(0, 0..30), [row(10, 2)]);
}

#[test]
fn who_waits_for_a_change_learns_at_once_of_what_goes_with_a_pin() {
    let mut world = World::new();
    assert_eq!(world.write(1, Write::Insert(row(10, 1))), Outcome::Applied);
    let rows = world.read(0, 0..30);
    let pin = world.clients[0].pin(5..15).unwrap();
    let watched = world.clients[0].watch(0..30, rows);
    let _put = world.clients[1].write(Write::Put(row(10, 2)));
    world.settle();
    assert!(watched.answer.try_recv().is_err(), "the pin keeps it");
    world.clients[0].unpin(pin);
    assert_eq!(watched.answer.try_recv(), Ok(Ok(())));
}

/// A world with the rows 5, 10 and 15, which client 1 has inserted.
fn with_three_rows() -> World {
    let mut world = World::new();
    for key in [5, 10, 15] {
        assert_eq!(world.write(1, Write::Insert(row(key, 1))), Outcome::Applied);
    }
    world
}

#[test]
fn a_delete_has_both_of_its_slots_though_a_reader_wants_them_again_and_again() {
    let mut world = with_three_rows();
    world.read(1, 0..20);
    let delete = world.clients[0].write(Write::Delete(5));
    let mut read = world.clients[1].read(0..20);
    for _ in 0..50 {
        world.round();
        if read.answer.try_recv().is_ok() {
            read = world.clients[1].read(0..20);
        }
    }
    assert_eq!(delete.answer.try_recv(), Ok(Ok(Outcome::Applied)));
    assert_eq!(world.clients[0].held.takings.count(), 0);
}

#[test]
fn a_delete_keeps_its_slot_from_others_for_a_while_only() {
    let mut world = with_three_rows();
    world.read(1, 0..20);
    let pin = world.clients[1].pin(8..11).unwrap();
    let delete = world.clients[0].write(Write::Delete(5));
    world.settle();
    let read = world.clients[1].read(5..6);
    world.settle();
    assert!(delete.answer.try_recv().is_err(), "the slot after it is pinned");
    assert!(read.answer.try_recv().is_err(), "the slot of the row is kept");
    pass(&mut world.clients[0], Duration::from_millis(500));
    world.clients[0].advance(Asking::Allowed);
    world.settle();
    assert_eq!(read.answer.try_recv(), Ok(Ok(vec![row(5, 1)])));
    world.clients[1].unpin(pin);
    world.settle();
    assert_eq!(delete.answer.try_recv(), Ok(Ok(Outcome::Applied)));
}

#[test]
fn a_delete_that_nobody_waits_for_keeps_nothing() {
    let mut world = with_three_rows();
    world.read(1, 0..20);
    let pin = world.clients[1].pin(8..11).unwrap();
    let delete = world.clients[0].write(Write::Delete(5));
    world.settle();
    assert_eq!(world.clients[0].held.takings.count(), 1);
    world.clients[0].abandon(delete.id, ErrorKind::TimedOut);
    assert_eq!(world.clients[0].held.takings.count(), 0);
    world.settle();
    assert_eq!(world.read(1, 0..6), [row(5, 1)]);
    world.clients[1].unpin(pin);
}

#[test]
fn who_waits_for_a_lower_point_keeps_nothing_from_who_has_that() {
    let mut world = with_three_rows();
    world.read(0, 8..12);
    let held = world.clients[1].hold(5..16, Purpose::Write);
    let sent = world.messages_of(1);
    world.deliver_to_server(&sent);
    let late = world.messages_of_server();
    // Before client 0 is called back, it asks for a point that the other one keeps, and pins.
    let read = world.clients[0].read(5..6);
    let other = world.clients[0].hold(8..20, Purpose::Read);
    let sent = world.messages_of(0);
    world.deliver_to_server(&sent);
    for message in &late {
        let client = usize::from(Message::read(message).client().unwrap());
        world.clients[client].receive(message).unwrap();
    }
    world.settle();
    let pin = held.answer.try_recv().unwrap().unwrap().pin;
    world.clients[1].unpin(pin);
    world.settle();
    assert_eq!(read.answer.try_recv(), Ok(Ok(vec![row(5, 1)])));
    assert_eq!(other.answer.try_recv().unwrap().unwrap().rows, [row(10, 1), row(15, 1)]);
}

#[test]
fn a_void_client_answers_sends_and_takes_nothing_until_it_begins_again() {
    let mut world = World::new();
    assert_eq!(world.write(1, Write::Insert(row(10, 1))), Outcome::Applied);
    world.read(0, 0..11);
    let (read, write) = (world.clients[0].read(0..50), world.clients[0].write(Write::Delete(10)));
    let sent = world.messages_of(0);
    world.deliver_to_server(&sent);
    let late = world.messages_of_server();
    assert!(!late.is_empty());
    world.clients[0].drop_all(Dropped::StoreWentBack);
    assert_eq!(read.answer.try_recv(), Ok(Err(ErrorKind::StoreWentBack)));
    let not_sent = ErrorKind::NotSent(Unsent::StoreWentBack);
    assert_eq!(write.answer.try_recv(), Ok(Err(not_sent)));
    let later = world.clients[0].read(0..11);
    for message in &late {
        world.clients[0].receive(message).unwrap();
    }
    world.clients[0].tick();
    world.clients[0].advance(Asking::Allowed);
    assert!(!world.is_cached(0, 0..11));
    assert_eq!(world.messages_of(0).len(), 0);
    assert!(later.answer.try_recv().is_err());
    world.clients[0].begin_again(ClientHandle::open(0, 2).unwrap());
    assert!(!world.is_cached(0, 0..11));
    world.clients[0].tick();
    world.settle();
    assert_eq!(later.answer.try_recv(), Ok(Ok(vec![row(10, 1)])));
}

#[test]
fn a_client_that_leaves_and_drops_all_has_left_when_the_new_bye_is_kept() {
    for leaves in ["before", "between", "behind"] {
        let mut world = World::new();
        let before = (leaves == "before").then(|| world.clients[0].leave());
        world.clients[0].drop_all(Dropped::StoreWentBack);
        let between = (leaves == "between").then(|| world.clients[0].leave());
        // That the old Bye is kept does not mean that the new one is.
        world.clients[0].receive(&[]).unwrap();
        world.clients[0].begin_again(ClientHandle::open(0, 2).unwrap());
        let left = before.or(between).unwrap_or_else(|| world.clients[0].leave());
        world.clients[0].receive(&[]).unwrap();
        assert!(left.answer.try_recv().is_err() && world.clients[0].are_open());
        world.clients[0].tick();
        world.settle();
        let record = world.server.record(0).unwrap().unwrap();
        assert_eq!((record.incarnation, record.left), (2, true));
        world.clients[0].receive(&[]).unwrap();
        assert_eq!(left.answer.try_recv(), Ok(Ok(())));
    }
}

#[test]
fn a_read_asks_for_what_the_client_does_not_know() {
    let mut world = World::new();
    for key in 10..15 {
        assert_eq!(world.write(1, Write::Insert(row(key, 1))), Outcome::Applied);
    }
    world.read(0, 10..15);
    assert_eq!(world.write(1, Write::Put(row(12, 2))), Outcome::Applied);
    let read = world.clients[0].read(10..15);
    let asked = world.messages_of(0);
    let locks: Vec<_> = asked.iter().filter(|message| message[1] == LOCK).collect();
    assert_eq!(locks.len(), 1);
    assert_eq!(locks[0][42..58], [12u64.to_le_bytes(), 13u64.to_le_bytes()].concat());
    world.deliver_to_server(&asked);
    world.settle();
    let rows: Vec<_> = (10..15).map(|key| row(key, if key == 12 { 2 } else { 1 })).collect();
    assert_eq!(read.answer.try_recv(), Ok(Ok(rows)));
}

#[test]
fn a_read_after_a_long_one_asks_for_what_the_client_does_not_know() {
    let mut world = World::new();
    for key in 0..5000 {
        assert_eq!(world.write(1, Write::Insert(row(key, 1))), Outcome::Applied);
    }
    // More rows than the room that is kept.
    assert_eq!(world.read(0, 0..5000).len(), 5000);
    assert_eq!(world.write(1, Write::Put(row(12, 2))), Outcome::Applied);
    let _read = world.clients[0].read(10..15);
    let asked = world.messages_of(0);
    let locks: Vec<_> = asked.iter().filter(|message| message[1] == LOCK).collect();
    assert_eq!(locks.len(), 1);
    assert_eq!(locks[0][42..58], [12u64.to_le_bytes(), 13u64.to_le_bytes()].concat());
}
