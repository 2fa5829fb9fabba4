//! For how long a client has held a range, while others take a part of it.
use super::world::{ALL, LAST, World};
use super::*;
use crate::lease::terms::Grant;
use crate::model::row::Value;
use std::sync::atomic::{AtomicBool, AtomicU64, Ordering};
use std::thread;
use std::time::{Duration, Instant};

/// The slot of the first row.
const FIRST: Range<u64> = 0..1;

type Held = World<ClientHandle>;

fn tenure(cache: &Cache, keys: &Range<u64>) -> Option<Tenure> {
    cache.tenure(keys, &mut Vec::with_capacity(2), Moment::now).unwrap()
}

fn is_held_since(cache: &Cache, keys: &Range<u64>, since: Tenure) -> bool {
    cache.held_since(&[(keys.clone(), since)], Moment::now) == [true]
}

fn is_taken_by_another(world: &mut Held) {
    world.take_last();
    world.give_last_back();
}

fn forgets(world: &mut Held) {
    world.scanned.forget(&LAST).unwrap();
    world.settle();
    world.lock_last(Mode::RangeSS);
}

fn lowers(world: &mut Held) {
    world.scanned.lower(&LAST, Mode::N).unwrap();
    world.settle();
    world.lock_last(Mode::RangeSS);
}

fn writes(world: &mut Held) {
    world.lock_last(Mode::X);
    let row = Row { key: LAST.start, value: Value::from(7) };
    world.scanned.write(&Write::Put(row)).unwrap();
    world.settle();
}

/// As after the end of its lease.
fn begins_again(world: &mut Held) {
    let incarnation = world.scanned.lease().incarnation() + 1;
    world.scanned.replace(ClientHandle::closed());
    world.scanned.replace(ClientHandle::open(0, incarnation).unwrap());
    world.settle();
    world.read_all();
}

#[test]
fn each_loss_and_each_write_ends_the_tenure_of_what_it_meets() {
    let mut world = World::new(|client| client);
    let cache = world.scanned.cache();
    let now = || [FIRST, LAST, ALL].map(|keys| tenure(&cache, &keys).expect("it holds all"));
    let mut last = now();
    for change in [is_taken_by_another, forgets, lowers, writes, is_taken_by_another] {
        change(&mut world);
        let [first, of_last, all] = now();
        assert_eq!(first, last[0], "nothing was lost there");
        assert!(of_last != last[1] && all != last[2]);
        assert!(is_held_since(&cache, &FIRST, first));
        assert!(!is_held_since(&cache, &LAST, last[1]) && !is_held_since(&cache, &ALL, last[2]));
        last = [first, of_last, all];
    }
    for _ in 0..3 {
        begins_again(&mut world);
        let next = now();
        assert!((0..3).all(|range| next[range] != last[range]));
        last = next;
    }
}

#[test]
fn nothing_is_held_on_from_a_write_that_is_sent_or_from_a_leave() {
    let mut world = World::new(|client| client);
    let cache = world.scanned.cache();
    let since = |keys: &Range<u64>| tenure(&cache, keys).expect("it holds all");
    world.lock_last(Mode::X);
    let (first, last) = (since(&FIRST), since(&LAST));
    let row = Row { key: LAST.start, value: Value::from(7) };
    world.scanned.write(&Write::Put(row)).unwrap();
    assert!(!is_held_since(&cache, &LAST, last) && is_held_since(&cache, &FIRST, first));
    world.settle();
    let first = since(&FIRST);
    world.scanned.leave().unwrap();
    assert!(!is_held_since(&cache, &FIRST, first));
}

#[test]
fn what_takes_nothing_ends_no_tenure() {
    let mut world = World::new(|client| client);
    let cache = world.scanned.cache();
    let before = tenure(&cache, &ALL);
    assert!(before.is_some());
    let pin = world.scanned.pin(&LAST).unwrap();
    world.scanned.tick().unwrap();
    world.settle();
    world.scanned.unpin(pin).unwrap();
    world.lock_last(Mode::X);
    assert_eq!(tenure(&cache, &ALL), before);
    assert!(is_held_since(&cache, &ALL, before.unwrap()));
}

#[test]
fn what_is_not_held_has_no_tenure() {
    let mut world = World::new(|client| client);
    let cache = world.scanned.cache();
    world.take_last();
    assert_eq!([LAST, ALL].map(|keys| tenure(&cache, &keys)), [None, None]);
    assert!(tenure(&cache, &FIRST).is_some());
    world.give_last_back();
    assert!(tenure(&cache, &ALL).is_some());
}

#[test]
fn a_tenure_ends_with_the_lease() {
    let mut world = World::new(|client| client);
    let cache = world.scanned.cache();
    let (lease, moment) = (world.scanned.lease_mut(), Moment::of_nanoseconds);
    let stamp = lease.greet(moment(1000)).unwrap().stamp;
    assert!(lease.take(Grant { incarnation: 1, stamp, length: 600 }, moment(1001)));
    let tenure = |now| cache.tenure(&ALL, &mut Vec::new(), || Ok(moment(now))).unwrap();
    let since = tenure(1599).unwrap();
    assert_eq!(tenure(1600), None);
    let is_held = |now| cache.held_since(&[(ALL, since)], || Ok(moment(now)));
    assert_eq!([is_held(1599), is_held(1600)], [[true], [false]]);
}

/// What a thread finds that compares the tenures of the last row.
enum Found {
    /// A tenure, and then another one.
    Ended,
    /// The same one before and after another client had the row.
    Outlasted,
    Nothing,
}

/// The turn is odd while another client has the last row.
fn follow(cache: &Cache, turn: &AtomicU64, is_over: &AtomicBool) -> Found {
    let Some(since) = tenure(cache, &LAST) else { return Found::Nothing };
    let begun = turn.load(Ordering::SeqCst);
    while !is_over.load(Ordering::Relaxed) {
        let now = turn.load(Ordering::SeqCst);
        if now != begun && is_held_since(cache, &LAST, since) {
            return Found::Outlasted;
        }
        match tenure(cache, &LAST) {
            Some(tenure) if tenure != since => return Found::Ended,
            Some(_) if now != begun => return Found::Outlasted,
            Some(_) | None => {}
        }
    }
    Found::Nothing
}

#[test]
fn no_tenure_outlasts_what_another_client_takes() {
    const TIME: Duration = Duration::from_secs(1);
    // A busy machine may let no thread compare.
    const LONGEST: Duration = Duration::from_secs(60);
    const ENOUGH: u64 = 50;
    let mut world = World::new(|client| client);
    let cache = world.scanned.cache();
    let (turn, is_over) = (AtomicU64::new(0), AtomicBool::new(false));
    let (ended, outlasted) = (AtomicU64::new(0), AtomicU64::new(0));
    let compare = || {
        while !is_over.load(Ordering::Relaxed) {
            match follow(&cache, &turn, &is_over) {
                Found::Ended => ended.fetch_add(1, Ordering::Relaxed),
                Found::Outlasted => outlasted.fetch_add(1, Ordering::Relaxed),
                Found::Nothing => 0,
            };
        }
    };
    thread::scope(|scope| {
        (0..4).for_each(|_| drop(scope.spawn(compare)));
        let begun = Instant::now();
        let is_enough = || ended.load(Ordering::Relaxed) > ENOUGH || begun.elapsed() > LONGEST;
        while begun.elapsed() < TIME || !is_enough() {
            world.take_last();
            turn.fetch_add(1, Ordering::SeqCst);
            turn.fetch_add(1, Ordering::SeqCst);
            world.give_last_back();
        }
        is_over.store(true, Ordering::Relaxed);
    });
    let (ended, outlasted) = (ended.into_inner(), outlasted.into_inner());
    println!("{ended} tenures ended, {outlasted} outlasted what another client took");
    assert!(outlasted == 0 && ended > 0);
}
