use super::super::world::{World, messages, pass, row};
use super::super::{Asking, Code};
use super::*;
use crate::call::error::ErrorKind;
use crate::lease::clocks::Now;
use crate::lease::terms::{FOR_EVER, Grant, Older};
use crate::model::change::{Outcome, Write};
use crate::proved::client_handle::{ClientHandle, Scan};

const LONG: u64 = 60_000_000_000;
const SHORT: Duration = Duration::from_millis(30);

/// A lease, and the longest times after which a sign does not yet ride on messages, or goes by
/// itself.
const LEASE: Duration = Duration::from_secs(3);
const RIDES_NOT: Duration = Duration::from_nanos(499_999_999);
const GOES_NOT_ALONE: Duration = Duration::from_nanos(999_999_999);

const NANOSECOND: Duration = Duration::from_nanos(1);

fn granted(sign: Sign, length: u64) -> Answer {
    Answer::Granted(Grant { incarnation: sign.incarnation, stamp: sign.stamp, length })
}

fn client() -> State {
    State::new(ClientHandle::open(0, 1).unwrap(), Now::read())
}

fn nanoseconds(time: Duration) -> u64 {
    u64::try_from(time.as_nanos()).unwrap()
}

/// Greets, and takes terms of this length.
fn lease_for(state: &mut State, length: u64) {
    pass(state, NANOSECOND);
    let sign = state.greet().unwrap();
    state.receive_answer(granted(sign, length)).unwrap();
}

/// A world in which client 0 reads a range by a lease that has ended.
fn ended() -> World {
    let mut world = World::new();
    assert_eq!(world.write(1, Write::Insert(row(10, 1))), Outcome::Applied);
    world.read(0, 0..20);
    lease_for(&mut world.clients[0], nanoseconds(SHORT));
    pass(&mut world.clients[0], SHORT);
    world
}

#[test]
fn nothing_of_the_library_is_sent_before_the_terms() {
    let mut state = client();
    let sent = |state: &mut State| messages(|frames| state.take(frames));
    let sign = state.greet().unwrap();
    state.tick();
    assert_eq!(sent(&mut state).len(), 0);
    assert_eq!(state.lease_left(), Some(Duration::ZERO));
    state.receive_answer(granted(sign, LONG)).unwrap();
    state.tick();
    assert_eq!(sent(&mut state).len(), 1, "its Hello");
    assert!(state.lease_left().unwrap() > Duration::from_secs(50));
    // Another connection, and the terms of the one before.
    pass(&mut state, NANOSECOND);
    state.greet().unwrap();
    state.receive_answer(granted(sign, LONG)).unwrap();
    state.tick();
    assert_eq!(sent(&mut state).len(), 0);
}

#[test]
fn a_greeting_that_is_lost_is_sent_again_and_each_is_answered() {
    let mut state = client();
    let first = state.greet().unwrap();
    pass(&mut state, Duration::from_nanos(GREETS_AGAIN - 1));
    assert_eq!(state.greet_again_if_due(), None);
    pass(&mut state, NANOSECOND);
    let second = state.greet_again_if_due().unwrap();
    assert!(second.stamp > first.stamp);
    state.receive_answer(granted(first, LONG)).unwrap();
    assert_eq!(state.life.may_send, MaySend::Free);
    assert_eq!(state.greet_again_if_due(), None);
}

#[test]
fn a_server_without_signs_grants_for_ever_who_has_no_terms() {
    let mut state = client();
    state.greet().unwrap();
    state.go_without_terms().unwrap();
    assert_eq!((state.life.may_send, state.lease_left()), (MaySend::Free, None));
    pass(&mut state, NANOSECOND);
    assert_eq!(state.greet().unwrap().length, FOR_EVER, "the next server learns it");
    // Terms that end are kept to, whatever another server sends.
    lease_for(&mut state, LONG);
    pass(&mut state, NANOSECOND);
    state.greet().unwrap();
    state.go_without_terms().unwrap();
    assert!(state.lease_left().is_some_and(|left| left > Duration::ZERO));
}

#[test]
fn after_the_end_nothing_is_answered_sent_or_taken() {
    let mut world = ended();
    let (cache, now) = (world.clients[0].cache(), world.clients[0].now);
    let scan = || cache.scan(&(0..20), &mut Vec::new(), || now.boot());
    assert_eq!(scan(), Ok(Scan::Ended));
    world.clients[0].tick();
    assert_eq!(world.messages_of(0).len(), 0);
    assert!(world.clients[0].receive(&[]).is_ok() && world.clients[0].is_void());
    assert_eq!(scan(), Err(Code::Closed));
    assert_eq!(world.clients[0].lease_left(), Some(Duration::ZERO));
}

#[test]
fn a_write_on_its_way_ends_and_other_jobs_go_on() {
    let mut world = World::new();
    assert_eq!(world.write(0, Write::Insert(row(10, 1))), Outcome::Applied);
    let write = world.clients[0].write(Write::Put(row(10, 2)));
    let (read, later) =
        (world.clients[0].read(0..50), world.clients[0].write(Write::Insert(row(11, 3))));
    let lost = world.messages_of(0);
    assert!(!lost.is_empty());
    lease_for(&mut world.clients[0], nanoseconds(SHORT));
    pass(&mut world.clients[0], SHORT);
    world.clients[0].end_lease_if_over();
    assert_eq!(write.answer.try_recv(), Ok(Err(ErrorKind::LeaseEnded)));
    assert!(read.answer.try_recv().is_err() && later.answer.try_recv().is_err());
    let mut next = ClientHandle::open_after(0, 2, Older::IsOver(1)).unwrap();
    next.confirm().unwrap();
    world.clients[0].begin_again(next);
    assert_eq!(world.clients[0].incarnation(), 2);
    lease_for(&mut world.clients[0], LONG);
    world.clients[0].tick();
    world.settle();
    assert_eq!(later.answer.try_recv(), Ok(Ok(Outcome::Applied)));
    let rows = read.answer.try_recv().unwrap().unwrap();
    assert!(rows == [row(10, 1)] || rows == [row(10, 1), row(11, 3)], "{rows:?}");
}

#[test]
fn a_pin_holds_as_long_as_the_lease() {
    let mut world = World::new();
    world.read(0, 0..20);
    let pin = world.clients[0].pin(0..20).unwrap();
    assert!(world.clients[0].holds_pin(pin));
    lease_for(&mut world.clients[0], nanoseconds(SHORT));
    pass(&mut world.clients[0], SHORT);
    assert!(!world.clients[0].holds_pin(pin));
    assert_eq!(world.clients[0].pin(0..20), Err(ErrorKind::LeaseEnded));
    world.clients[0].begin_again(ClientHandle::open(0, 2).unwrap());
    world.settle();
    world.read(0, 0..20);
    let next = world.clients[0].pin(0..20).unwrap();
    assert!(!world.clients[0].holds_pin(pin) && world.clients[0].holds_pin(next));
}

#[test]
fn an_incarnation_that_has_ended_begins_again_or_has_left() {
    let mut world = World::new();
    let ended = |incarnation| Answer::Ended { incarnation };
    world.clients[0].receive_answer(ended(7)).unwrap();
    assert!(!world.clients[0].is_void(), "another one");
    world.clients[0].receive_answer(ended(1)).unwrap();
    assert!(world.clients[0].is_void());
    let left = world.clients[1].leave();
    world.clients[1].receive_answer(ended(1)).unwrap();
    world.clients[1].advance(Asking::Allowed);
    assert_eq!(left.answer.try_recv(), Ok(Ok(())));
}

/// How many signs the client sends.
fn signs(state: &mut State) -> usize {
    let sent = messages(|frames| state.take(frames));
    sent.iter().filter(|frame| Sign::read(frame).is_some()).count()
}

#[test]
fn signs_ride_on_messages_and_go_by_themselves_when_they_must() {
    let mut state = client();
    lease_for(&mut state, nanoseconds(LEASE));
    pass(&mut state, RIDES_NOT);
    state.tick();
    assert_eq!(signs(&mut state), 0, "too early, with messages");
    pass(&mut state, NANOSECOND);
    assert_eq!(signs(&mut state), 0, "too early, by itself");
    state.tick();
    assert_eq!(signs(&mut state), 1);
    pass(&mut state, GOES_NOT_ALONE);
    assert_eq!(signs(&mut state), 0);
    pass(&mut state, NANOSECOND);
    assert_eq!(signs(&mut state), 1);
}

#[test]
fn a_write_that_is_bound_to_a_pin_is_made_while_the_pin_holds_or_never() {
    let mut world = World::new();
    assert_eq!(world.write(0, Write::Insert(row(10, 1))), Outcome::Applied);
    let pin = world.clients[0].pin(0..20).unwrap();
    let kept = world.clients[0].write_under(pin, Write::Put(row(10, 2)));
    world.settle();
    assert_eq!(kept.answer.try_recv(), Ok(Ok(Outcome::Applied)));
    // The lease ends with one write on its way, and with another one that waits for its answer.
    let sent = world.clients[0].write_under(pin, Write::Put(row(10, 3)));
    let waits = world.clients[0].write_under(pin, Write::Insert(row(11, 3)));
    let free = world.clients[0].write(Write::Insert(row(12, 3)));
    let lost = world.messages_of(0);
    assert!(!lost.is_empty());
    lease_for(&mut world.clients[0], nanoseconds(SHORT));
    pass(&mut world.clients[0], SHORT);
    let void = world.clients[0].write_under(pin, Write::Put(row(10, 4)));
    assert_eq!(sent.answer.try_recv(), Ok(Err(ErrorKind::LeaseEnded)));
    assert_eq!(waits.answer.try_recv(), Ok(Err(ErrorKind::PinIsVoid)));
    assert_eq!(void.answer.try_recv(), Ok(Err(ErrorKind::PinIsVoid)));
    world.clients[0].begin_again(ClientHandle::open_after(0, 2, Older::IsOver(1)).unwrap());
    world.clients[0].confirm_incarnation().unwrap();
    lease_for(&mut world.clients[0], LONG);
    world.clients[0].tick();
    world.settle();
    assert_eq!(free.answer.try_recv(), Ok(Ok(Outcome::Applied)), "it is bound to nothing");
    let late = world.clients[0].write_under(pin, Write::Put(row(10, 5)));
    world.settle();
    assert_eq!(late.answer.try_recv(), Ok(Err(ErrorKind::PinIsVoid)));
    assert_eq!(world.read(1, 0..20), [row(10, 2), row(12, 3)]);
}

/// The next incarnation could insert it where its caller has read that there is no row.
#[test]
fn an_insert_whose_lease_has_ended_is_not_repeated() {
    let mut world = World::new();
    let sent = world.clients[0].write(Write::Insert(row(10, 1)));
    while world.clients[0].was_sent(sent.id) == super::super::WasSent::No {
        assert!(world.round(), "its lock comes");
    }
    assert!(!world.messages_of(0).is_empty(), "this is lost");
    lease_for(&mut world.clients[0], nanoseconds(SHORT));
    pass(&mut world.clients[0], SHORT);
    world.clients[0].end_lease_if_over();
    assert_eq!(sent.answer.try_recv(), Ok(Err(ErrorKind::LeaseEnded)));
    world.clients[0].begin_again(ClientHandle::open_after(0, 2, Older::IsOver(1)).unwrap());
    world.clients[0].confirm_incarnation().unwrap();
    lease_for(&mut world.clients[0], LONG);
    world.clients[0].tick();
    world.settle();
    assert_eq!(world.read(0, 0..20), []);
}

#[test]
fn a_write_that_is_bound_to_a_pin_ends_with_it_if_the_store_goes_back() {
    let mut world = World::new();
    let pin = world.clients[0].pin(0..20).unwrap();
    let waits = world.clients[0].write_under(pin, Write::Insert(row(10, 1)));
    world.messages_of(0);
    world.clients[0].drop_all(super::super::Dropped::StoreWentBack);
    assert_eq!(waits.answer.try_recv(), Ok(Err(ErrorKind::PinIsVoid)));
    let void = world.clients[0].write_under(pin, Write::Insert(row(10, 2)));
    assert_eq!(void.answer.try_recv(), Ok(Err(ErrorKind::PinIsVoid)));
}

#[test]
fn a_pin_stays_until_a_write_that_is_bound_to_it_is_judged() {
    let mut world = World::new();
    for key in [10, 15] {
        assert_eq!(world.write(0, Write::Insert(row(key, 1))), Outcome::Applied);
    }
    let pin = world.clients[0].pin(0..20).unwrap();
    let put = world.clients[0].write_under(pin, Write::Put(row(10, 2)));
    let late = world.messages_of(0);
    assert_eq!(world.clients[0].was_sent(put.id), super::super::WasSent::Yes);
    world.clients[0].abandon(put.id, ErrorKind::TimedOut);
    world.clients[0].unpin(pin);
    assert!(!world.clients[0].holds_pin(pin) && world.clients[0].are_open());
    let other = world.clients[1].write(Write::Put(row(15, 3)));
    world.settle();
    assert!(other.answer.try_recv().is_err(), "the first write may still be made");
    world.deliver_to_server(&late);
    world.settle();
    assert_eq!(other.answer.try_recv(), Ok(Ok(Outcome::Applied)));
    assert_eq!(world.read(1, 0..20), [row(10, 2), row(15, 3)]);
}

#[test]
fn a_write_is_bound_to_no_pin_that_is_gone() {
    let mut world = World::new();
    let pin = world.clients[0].pin(0..20).unwrap();
    world.clients[0].unpin(pin);
    let late = world.clients[0].write_under(pin, Write::Insert(row(10, 1)));
    world.settle();
    assert_eq!(late.answer.try_recv(), Ok(Err(ErrorKind::PinIsVoid)));
    assert_eq!(world.read(1, 0..20), []);
}
