use super::super::world::{World, row};
use super::super::{Asking, Dropped, WasSent};
use super::*;
use crate::call::error::Unsent;
use crate::call::mutation::Fate;
use Mutation::{Delete, Insert, Put, Set};
use Outcome::{Absent, Applied, Exists};

fn judged(outcomes: &[Outcome], ended: Option<ErrorKind>) -> Judged {
    Judged { outcomes: outcomes.to_vec(), ended }
}

/// What the batch has answered, which it has by now.
fn answer(asked: &Asked<Judged>) -> Judged {
    asked.answer.try_recv().expect("it has not ended").unwrap()
}

/// The writes that a client sends next.
fn writes_sent(world: &mut World) -> Vec<Vec<u8>> {
    const WRITES: std::ops::RangeInclusive<u8> = 4..=6;
    let mut outgoing = world.messages_of(0);
    outgoing.retain(|message| WRITES.contains(&message[1]));
    outgoing
}

#[test]
fn a_set_puts_and_inserts_by_turns_until_its_row_has_the_value() {
    let (put, insert) = (Write::Put(row(10, 1)), Write::Insert(row(10, 1)));
    assert_eq!(after(put, Absent), Some(insert));
    assert_eq!(after(insert, Exists), Some(put));
    for (write, outcome) in [(put, Applied), (insert, Applied), (insert, Outcome::Full)] {
        assert_eq!(after(write, outcome), None);
    }
}

#[test]
fn each_write_is_made_in_its_order_and_judged_by_itself() {
    let mut world = World::new();
    let writes = vec![
        Insert(row(10, 1)),
        Insert(row(10, 2)),
        Put(row(11, 3)),
        Set(row(11, 4)),
        Set(row(10, 5)),
        Delete(11),
        Delete(11),
    ];
    let asked = world.clients[0].write_all(writes);
    world.settle();
    let outcomes = [Applied, Exists, Absent, Applied, Applied, Applied, Absent];
    assert_eq!(answer(&asked), judged(&outcomes, None));
    assert_eq!(world.read(1, 0..20), [row(10, 5)]);
    assert!(!world.clients[0].are_open());
    let nothing = world.clients[0].write_all(Vec::new());
    assert_eq!(answer(&nothing), judged(&[], None));
}

#[test]
fn the_next_write_is_sent_in_the_step_in_which_the_one_before_is_judged() {
    let mut world = World::new();
    let writes = [10, 11, 12].map(|key| Put(row(key, 2)));
    for key in [10, 11, 12] {
        // So the client has each row to itself.
        assert_eq!(world.write(0, Write::Insert(row(key, 1))), Applied);
    }
    let asked = world.clients[0].write_all(writes.to_vec());
    for sent in 1..=3 {
        let outgoing = world.messages_of(0);
        assert!(
            asked.answer.try_recv().is_err() && !outgoing.is_empty(),
            "the write {sent} is sent"
        );
        world.deliver_to_server(&outgoing);
        // No caller makes a call meanwhile.
        world.deliver_to_clients();
    }
    assert_eq!(answer(&asked), judged(&[Applied; 3], None));
}

#[test]
fn writes_of_others_come_in_between() {
    let mut world = World::new();
    for key in [10, 11, 12] {
        assert_eq!(world.write(0, Write::Insert(row(key, 1))), Applied);
    }
    let batch = world.clients[0].write_all([10, 11, 12].map(|key| Put(row(key, 2))).to_vec());
    let single = world.clients[0].write(Write::Put(row(12, 9)));
    while single.answer.try_recv().is_err() {
        assert!(world.round(), "the single write is not judged");
    }
    assert!(batch.answer.try_recv().is_err(), "the single write has waited for the whole batch");
    world.settle();
    assert_eq!(answer(&batch), judged(&[Applied; 3], None));
    assert_eq!(world.read(1, 0..20), [row(10, 2), row(11, 2), row(12, 2)]);
}

#[test]
fn a_batch_that_is_given_up_writes_nothing_more() {
    let mut world = World::new();
    for key in [10, 11, 12] {
        assert_eq!(world.write(0, Write::Insert(row(key, 1))), Applied);
    }
    let asked = world.clients[0].write_all([10, 11, 12].map(|key| Put(row(key, 2))).to_vec());
    let outgoing = world.messages_of(0);
    world.deliver_to_server(&outgoing);
    world.deliver_to_clients();
    assert_eq!(world.clients[0].was_sent(asked.id), WasSent::Yes);
    world.clients[0].abandon(asked.id, ErrorKind::TimedOut);
    assert_eq!(answer(&asked), judged(&[Applied], Some(ErrorKind::TimedOut)));
    world.settle();
    // The second one was on its way, and the third one is not made.
    assert_eq!(world.read(1, 0..20), [row(10, 2), row(11, 2), row(12, 1)]);
}

#[test]
fn a_batch_that_waits_for_a_lock_reports_what_it_has_done() {
    let mut world = World::new();
    for key in [10, 11] {
        assert_eq!(world.write(1, Write::Insert(row(key, 1))), Applied);
    }
    let pin = world.clients[1].pin(11..12).unwrap();
    let asked = world.clients[0].write_all(vec![Put(row(10, 2)), Put(row(11, 2)), Delete(10)]);
    world.settle();
    assert!(asked.answer.try_recv().is_err(), "the second row is pinned");
    assert_eq!(world.clients[0].was_sent(asked.id), WasSent::No);
    world.clients[0].abandon(asked.id, ErrorKind::TimedOut);
    let ended = answer(&asked);
    assert_eq!(ended, judged(&[Applied], Some(ErrorKind::NotSent(Unsent::TimedOut))));
    let fates = [Fate::Judged(Applied), Fate::NotMade, Fate::NotMade];
    assert_eq!(ended.fates(3), fates, "it is unknown of no write whether it was made");
    world.clients[1].unpin(pin);
    world.settle();
    assert_eq!(world.read(1, 0..20), [row(10, 2), row(11, 1)]);
}

#[test]
fn a_lease_that_ends_ends_a_batch_whose_write_is_on_its_way_and_no_other_one() {
    let mut world = World::new();
    assert_eq!(world.write(0, Write::Insert(row(10, 1))), Applied);
    let sent = world.clients[0].write_all(vec![Put(row(10, 2)), Put(row(10, 3))]);
    assert_eq!(world.clients[0].was_sent(sent.id), WasSent::Yes);
    let waits = world.clients[0].write_all(vec![Insert(row(15, 1))]);
    world.clients[0].drop_all(Dropped::LeaseEnded);
    assert_eq!(answer(&sent), judged(&[], Some(ErrorKind::LeaseEnded)));
    assert!(waits.answer.try_recv().is_err(), "it is made after the client has joined again");
}

#[test]
fn a_batch_that_is_bound_to_a_pin_writes_nothing_after_the_pin() {
    let mut world = World::new();
    let pin = world.clients[0].pin(0..20).unwrap();
    let asked = world.clients[0].write_all_under(pin, vec![Insert(row(10, 1)), Insert(row(11, 1))]);
    // It asks for the lock of the first one.
    let outgoing = world.messages_of(0);
    world.deliver_to_server(&outgoing);
    world.deliver_to_clients();
    world.clients[0].advance(Asking::Allowed);
    assert_eq!(writes_sent(&mut world).len(), 1, "the first write is sent");
    world.clients[0].drop_all(Dropped::StoreWentBack);
    assert_eq!(answer(&asked), judged(&[], Some(ErrorKind::StoreWentBack)));
    let late = world.clients[0].write_all_under(pin, vec![Insert(row(12, 1))]);
    assert_eq!(answer(&late), judged(&[], Some(ErrorKind::PinIsVoid)));
}

#[test]
fn the_end_of_the_client_loses_no_outcome() {
    let mut world = World::new();
    for key in [10, 11] {
        assert_eq!(world.write(0, Write::Insert(row(key, 1))), Applied);
    }
    let asked = world.clients[0].write_all([10, 11].map(|key| Put(row(key, 2))).to_vec());
    let outgoing = world.messages_of(0);
    world.deliver_to_server(&outgoing);
    world.deliver_to_clients();
    world.clients[0].end();
    assert_eq!(answer(&asked), judged(&[Applied], Some(ErrorKind::Stopped)));
}

#[test]
fn a_batch_that_has_sent_nothing_is_not_made_if_the_store_went_back_or_the_client_ends() {
    let mut world = World::new();
    assert_eq!(world.write(1, Write::Insert(row(10, 1))), Applied);
    let waits = world.clients[0].write_all(vec![Put(row(10, 2)), Put(row(10, 3))]);
    world.clients[0].drop_all(Dropped::StoreWentBack);
    let why = ErrorKind::NotSent(Unsent::StoreWentBack);
    assert_eq!(answer(&waits), judged(&[], Some(why)));
    let later = world.clients[0].write_all(vec![Put(row(10, 2))]);
    world.clients[0].end();
    let why = ErrorKind::NotSent(Unsent::Stopped);
    assert_eq!(answer(&later), judged(&[], Some(why)));
    let after = world.clients[0].write_all(vec![Put(row(10, 2))]);
    assert_eq!(answer(&after), judged(&[], Some(why)));
}
