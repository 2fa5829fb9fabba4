//! Who holds what, as a monitor learns it while the server runs.
use krl::operate::HeldSlot;
use krl::operate::Mode;
use krl::operate::{HeldRun, HeldSearch, Locks, LocksError};
use krl::{Client, END, Listener, MemoryStore};
use krl::{Outcome, Row, Server, Value};
use std::path::PathBuf;
use std::sync::atomic::{AtomicBool, Ordering};
use std::thread;
use std::time::{Duration, Instant};

/// A server over a table, and a folder that is gone when the test is.
struct World {
    server: Server,
    folder: PathBuf,
}

impl World {
    fn new(name: &str, keys: impl Iterator<Item = u64>) -> World {
        let folder = std::env::temp_dir().join(format!("krl-locks-{}-{name}", std::process::id()));
        std::fs::create_dir_all(&folder).unwrap();
        let listener = Listener::bind(&"127.0.0.1:0".parse().unwrap()).unwrap();
        let store: MemoryStore = keys.map(|key| Row { key, value: Value::from(key) }).collect();
        World { server: Server::start(listener, store).unwrap(), folder }
    }

    fn join(&self, number: u8) -> Client {
        let lock_file = self.folder.join(format!("client-{number}.lock"));
        Client::join(self.server.address().clone(), number, lock_file).unwrap()
    }

    fn locks(&self, points: std::ops::Range<u64>, most: usize) -> Locks {
        self.server.monitor().locks(points, most).unwrap()
    }
}

impl Drop for World {
    fn drop(&mut self) {
        let _ = std::fs::remove_dir_all(&self.folder);
    }
}

fn slot(lo: u64, hi: u64, client: u8, mode: Mode) -> HeldSlot {
    HeldSlot::new(client, lo..hi, mode)
}

#[test]
fn two_hold_and_one_waits() {
    let world = World::new("waits", [10, 20, 30].into_iter());
    let (first, second, third) = (world.join(1), world.join(2), world.join(3));
    assert_eq!(world.locks(0..END + 1, 100).held, []);
    let (_, pin) = first.pin_for_read(0..21).unwrap();
    second.read(15..).unwrap();
    let expected = [
        slot(0, 11, 1, Mode::RangeSS),
        slot(11, 21, 1, Mode::RangeSS),
        slot(11, 21, 2, Mode::RangeSS),
        slot(21, 31, 2, Mode::RangeSS),
        slot(31, END + 1, 2, Mode::RangeSS),
    ];
    let locks = world.locks(0..END + 1, 100);
    assert_eq!((locks.held.as_slice(), locks.next), (expected.as_slice(), None));
    assert!(locks.is_of_one_moment && locks.waits.is_empty());
    assert_eq!(world.locks(20..21, 100).held, expected[1..3]);
    assert_eq!(world.locks(11..22, 100).held, expected[1..4]);
    assert_eq!(world.locks(END..END + 1, 100).held, expected[4..]);
    assert_eq!(world.locks(END + 1..END + 1, 100).held, []);
    thread::scope(|scope| {
        let put = scope.spawn(|| third.put(10, Value::from(7)));
        let end = Instant::now() + Duration::from_secs(60);
        let waits = loop {
            let Locks { waits, .. } = world.locks(0..END + 1, 100);
            match waits.first() {
                Some(wait) if wait.waits_for == [1] => break waits,
                _ => assert!(Instant::now() < end, "client 3 does not wait for 1: {waits:?}"),
            }
        };
        let wait = &waits[0];
        assert_eq!((waits.len(), wait.client, wait.point, wait.hi), (1, 3, 10, 11));
        assert_eq!(world.locks(10..11, 100).waits.len(), 1);
        assert_eq!(world.locks(11..END, 100).waits, []);
        drop(pin);
        assert_eq!(put.join().unwrap(), Ok(Outcome::Applied));
    });
    let held = world.locks(0..11, 100).held;
    assert!(held.iter().any(|it| it.client == 3 && it.hi == 11), "{held:?}");
}

#[test]
fn what_is_no_range_is_refused() {
    let world = World::new("refused", 0..3);
    let monitor = world.server.monitor();
    let (above, below) = (6, 5);
    assert_eq!(monitor.locks(above..below, 100), Err(LocksError::BadRange));
    assert_eq!(monitor.locks(0..END + 2, 100), Err(LocksError::BadRange));
    assert_eq!(monitor.locks(.., 100).map(|it| it.held), Ok(Vec::new()));
}

#[test]
fn a_server_that_has_ended_shows_nothing() {
    let listener = Listener::bind(&"127.0.0.1:0".parse().unwrap()).unwrap();
    let server = Server::start(listener, MemoryStore::default()).unwrap();
    let monitor = server.monitor();
    server.stop().unwrap();
    assert_eq!(monitor.locks(.., 100), Err(LocksError::Ended));
}

/// Has a client read again and again from the server, and returns how long each read took.
fn read_times(client: &Client, ends: &AtomicBool) -> Vec<Duration> {
    let mut times = Vec::new();
    while !ends.load(Ordering::Relaxed) {
        client.forget(7..8).unwrap();
        let began = Instant::now();
        client.read(7..8).unwrap();
        times.push(began.elapsed());
    }
    times.sort_unstable();
    times
}

#[test]
fn a_full_table_comes_in_pages_between_the_turns() {
    const ROWS: u64 = 65_536;
    let world = World::new("full", 0..ROWS);
    let (holder, other) = (world.join(1), world.join(2));
    holder.set_timeout(Duration::from_secs(600));
    assert_eq!(holder.read(..).map(|rows| rows.len() as u64), Ok(ROWS));
    let ends = AtomicBool::new(false);
    let (locks, times) = thread::scope(|scope| {
        let reads = scope.spawn(|| read_times(&other, &ends));
        let locks: Vec<_> = (0..10).map(|_| world.locks(0..END + 1, 100_000)).collect();
        ends.store(true, Ordering::Relaxed);
        (locks, reads.join().unwrap())
    });
    let expected: Vec<_> = (0..ROWS)
        .map(|key| slot(key, key + 1, 1, Mode::RangeSS))
        .chain([slot(ROWS, END + 1, 1, Mode::RangeSS)])
        .collect();
    for Locks { held, next, is_of_one_moment, .. } in locks {
        assert_eq!((next, is_of_one_moment), (None, false));
        assert!(held.into_iter().filter(|it| it.client == 1).eq(expected.iter().copied()));
    }
    // A machine that is busy with something else may hold up half of them.
    let time = times[times.len() / 2];
    assert!(time < Duration::from_millis(100), "{} reads, one in two {time:?}", times.len());
    let cut = world.locks(0..END + 1, 1000);
    assert_eq!((cut.held.len(), cut.next), (1000, Some(999)));
}

/// What a search finds of each client.
fn search(world: &World, points: std::ops::Range<u64>, most: usize) -> Vec<Vec<HeldRun>> {
    let mut search = HeldSearch::new(points, most).unwrap();
    let mut found = Vec::new();
    while !search.is_done() {
        let page = search.go_on(&world.server.monitor()).unwrap();
        found.extend(page.clients);
    }
    assert!(found.iter().map(|(client, _)| *client).eq(0..64), "each client is found once");
    found.into_iter().map(|(_, runs)| runs).collect()
}

#[test]
fn a_search_in_runs_finds_what_a_search_for_slots_finds() {
    const ROWS: u64 = 5_000;
    let world = World::new("runs", 0..ROWS);
    let (first, second) = (world.join(1), world.join(63));
    for client in [&first, &second] {
        client.set_timeout(Duration::from_secs(600));
    }
    first.read(..).unwrap();
    for key in (100..200).step_by(2) {
        second.read(key..=key).unwrap();
    }
    let found = search(&world, 0..END + 1, 1000);
    let whole = HeldRun::new(1, 0..END + 1, Mode::RangeSS, ROWS + 1);
    assert_eq!((found[1].as_slice(), found[63].len()), ([whole].as_slice(), 50));
    let slots: Vec<_> = world.locks(0..END + 1, 10_000).held;
    let of_second = slots.iter().filter(|slot| slot.client == 63);
    let as_slots = found[63].iter().map(|run| (run.lo, run.hi, run.mode));
    assert!(of_second.map(|slot| (slot.lo, slot.hi, slot.mode)).eq(as_slots));
    assert_eq!(search(&world, 0..END + 1, 7)[63].len(), 7);
    let part = search(&world, 10..20, 1000);
    assert_eq!((part[1][0].slots, part[63].len()), (10, 0));
    assert_eq!(HeldSearch::new(0..END + 2, 1).unwrap_err(), LocksError::BadRange);
}

#[test]
fn a_search_fails_once_its_server_has_ended() {
    let world = World::new("ended", 0..3);
    let mut search = HeldSearch::new(.., 9).unwrap();
    let monitor = world.server.monitor();
    drop(world);
    assert_eq!(search.go_on(&monitor).map(|page| page.clients.len()), Err(LocksError::Ended));
    assert!(!search.is_done());
}
