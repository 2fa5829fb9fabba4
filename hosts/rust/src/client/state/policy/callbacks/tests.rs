//! Clients that always have something on its way, next to a patient one. Messages are handed over
//! in round trips, and each comes by itself: so no clock has a part in it.
use super::*;
use crate::client::state::world::{World, row};
use crate::client::state::{Asked, Asking};
use crate::model::change::{Outcome, Write};
use crate::wire::message::Message;
use crate::wire::message::kind::{LOCK, RELEASE};

const HASTY: usize = 0;
const PATIENT: usize = 1;

/// The hasty client has this range, in which the patient one changes a row.
const WANTED: Range<u64> = 0..100;
const KEY: u64 = 50;

/// Another range of the hasty client. A row lies between the two.
const OTHER: Range<u64> = 1000..1100;
const BETWEEN: u64 = 500;

/// The patient client's request and the callback, the release and the grant, the write and its
/// answer: this many round trips without a hasty one. A release that is passed over is one more.
const FEW_TRIPS: usize = 4;
const MANY: usize = 100;

/// The hasty client has read the range that the patient one wants.
fn world() -> World {
    let mut world = World::new();
    for key in [KEY, BETWEEN] {
        assert_eq!(world.write(PATIENT, Write::Insert(row(key, 0))), Outcome::Applied);
    }
    world.read(HASTY, WANTED);
    world
}

/// One round trip. After each message a client continues as far as it comes, and the hasty one does
/// this. Returns what the hasty client has sent, by its kinds.
fn trip(world: &mut World, mut hasten: impl FnMut(&mut World)) -> Vec<u8> {
    // What the patient client asks for comes before what the hasty one asks for.
    let [patient, hasty] = [PATIENT, HASTY].map(|client| world.messages_of(client));
    for sent in [&patient, &hasty] {
        world.deliver_to_server(sent);
    }
    for message in world.messages_of_server() {
        let client = usize::from(Message::read(&message).client().unwrap());
        world.clients[client].receive(&message).unwrap();
        world.clients[client].advance(Asking::Allowed);
        hasten(world);
    }
    hasty.iter().map(|message| message[1]).collect()
}

/// This many round trips with nobody in haste.
fn trips(world: &mut World, count: usize) -> Vec<u8> {
    (0..count).flat_map(|_| trip(world, |_| {})).collect()
}

fn of_kind(kind: u8, sent: Vec<u8>) -> Vec<u8> {
    sent.into_iter().filter(|sent| *sent == kind).collect()
}

fn put(world: &mut World, client: usize, number: u64) -> Asked<Outcome> {
    world.clients[client].write(Write::Put(row(KEY, number)))
}

/// How many round trips a write of the patient client takes, while the hasty one does this in each.
fn trips_of_a_write(world: &mut World, mut hasten: impl FnMut(&mut World)) -> usize {
    hasten(world);
    let put = put(world, PATIENT, 1);
    for trips in 1..=MANY {
        trip(world, &mut hasten);
        if let Ok(answer) = put.answer.try_recv() {
            assert_eq!(answer, Ok(Outcome::Applied));
            return trips;
        }
    }
    panic!("it is not answered within {MANY} round trips");
}

#[test]
fn who_asks_for_one_lock_after_the_other_keeps_nobody_waiting() {
    let mut world = world();
    let mut read: Option<Asked<_>> = None;
    let trips = trips_of_a_write(&mut world, |world| {
        if read.as_ref().is_none_or(|read| read.answer.try_recv().is_ok()) {
            world.clients[HASTY].forget(OTHER);
            read = Some(world.clients[HASTY].read(OTHER));
        }
    });
    assert!(trips <= FEW_TRIPS, "{trips}");
}

#[test]
fn who_writes_one_value_after_the_other_keeps_nobody_waiting() {
    let mut world = world();
    assert_eq!(world.write(HASTY, Write::Put(row(KEY, 2))), Outcome::Applied);
    let mut written: Option<Asked<_>> = None;
    let trips = trips_of_a_write(&mut world, |world| {
        if written.as_ref().is_none_or(|written| written.answer.try_recv().is_ok()) {
            written = Some(put(world, HASTY, 3));
        }
    });
    assert!(trips <= FEW_TRIPS, "{trips}");
}

#[test]
fn what_is_granted_after_a_callback_is_not_given_back_for_it() {
    let mut world = world();
    let [first, second] = [PATIENT, HASTY].map(|client| put(&mut world, client, 4));
    let sent = trips(&mut world, MANY);
    for written in [first, second] {
        assert_eq!(written.answer.try_recv(), Ok(Ok(Outcome::Applied)));
    }
    assert_eq!(of_kind(LOCK, sent), [LOCK]);
}

#[test]
fn who_awaits_no_push_releases_once() {
    let mut world = world();
    put(&mut world, PATIENT, 5);
    let mut sent = trips(&mut world, FEW_TRIPS);
    let read = world.clients[HASTY].read(OTHER);
    sent.extend(trips(&mut world, FEW_TRIPS));
    assert_eq!(read.answer.try_recv(), Ok(Ok(vec![])));
    assert_eq!(of_kind(RELEASE, sent), [RELEASE]);
}

#[test]
fn what_is_called_back_is_taken_once() {
    let mut world = world();
    assert_eq!(world.clients[HASTY].take_called_back(), []);
    assert_eq!(world.write(PATIENT, Write::Put(row(KEY, 6))), Outcome::Applied);
    assert_eq!(world.clients[HASTY].take_called_back(), std::slice::from_ref(&(0..KEY + 1)));
    assert_eq!(world.clients[HASTY].take_called_back(), []);
}

/// Callbacks of these spans, which have all come at this moment.
fn noted(spans: impl IntoIterator<Item = Range<u64>>, at: Instant) -> Callbacks {
    let mut callbacks = Callbacks::default();
    spans.into_iter().for_each(|span| callbacks.note_at(span, at));
    callbacks
}

#[test]
fn the_last_callbacks_are_noted_once_for_each_span() {
    let spans = || (0..=MAX_CALLBACKS as u64).map(|start| start..start + 1);
    let now = Instant::now();
    let mut callbacks = noted(spans().chain(spans().skip(1)), now);
    let shown =
        |point| (callbacks.show_contention(point, now), callbacks.narrowed_slot(point).is_some());
    assert_eq!([shown(0), shown(1)], [(false, false), (true, true)], "the oldest is forgotten");
    assert!(callbacks.take_news().into_iter().eq(spans().skip(1)));
}

#[test]
fn another_client_is_at_work_for_a_while_after_a_callback() {
    let now = Instant::now();
    let callbacks = noted([2..3, 5..11], now);
    assert!(callbacks.show_contention(10, now) && !callbacks.show_contention(11, now));
    assert!(!callbacks.show_contention(10, now + CONTENDED_FOR));
}

#[test]
fn the_last_callback_of_a_slot_counts() {
    let callbacks = noted([5..11, 8..11], Instant::now());
    assert_eq!(callbacks.narrowed_slot(10), Some(&(8..11)));
    assert_eq!(callbacks.narrowed_slot(7), None);
}

#[test]
fn what_a_lock_gave_is_not_called_back_again() {
    let mut callbacks = noted([0..1, 2..3], Instant::now());
    let crossing = |callbacks: &Callbacks| {
        callbacks.last.iter().filter(|callback| callback.crossing.is_some()).count()
    };
    callbacks.leave_out(&(0..4), |point| point == 5);
    assert_eq!(crossing(&callbacks), 2, "it gave nothing there");
    callbacks.leave_out(&(0..2), |_| true);
    assert_eq!(crossing(&callbacks), 1);
    callbacks.end_crossing();
    assert_eq!(crossing(&callbacks), 0);
}
