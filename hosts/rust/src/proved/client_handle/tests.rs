use super::world::{ALL, LAST, Scanned, World, are_rows};
use super::*;
use crate::lease::terms::Grant;
use std::cell::Cell;
use std::sync::Barrier;
use std::sync::atomic::{AtomicBool, AtomicU64, Ordering};
use std::sync::mpsc::channel;
use std::thread;
use std::time::{Duration, Instant};

/// What scans came to that were made while the other client held only the last row.
#[derive(Debug, Default)]
struct Judged {
    callbacks: u64,
    scans: u64,
    /// This many of them had rows.
    wrong: u64,
}

#[test]
fn nothing_is_sent_before_the_incarnation_is_kept() {
    let mut client = ClientHandle::open_after(3, 7, Older::Unknown).unwrap();
    let mut frames = Vec::new();
    client.take(&mut frames).unwrap();
    assert!(!client.is_kept() && frames.is_empty());
    client.confirm().unwrap();
    client.take(&mut frames).unwrap();
    assert_eq!(crate::wire::frames::split(&frames).count(), 1, "its Hello");
    client.confirm().unwrap();
    client.take(&mut frames).unwrap();
    assert_eq!(crate::wire::frames::split(&frames).count(), 1, "and only once");
}

/// Four threads scan the last row, which the other client takes and gives back. If it holds the row
/// during all of a scan, the scan has to miss. `has_row` scans, and `follow` is called each time
/// before the row is given back.
fn judge<S: Scanned>(
    world: &mut World<S>,
    has_row: impl Fn() -> bool + Sync,
    mut follow: impl FnMut(&mut S),
) -> Judged {
    const TIME: Duration = Duration::from_secs(3);
    // A busy machine may let no scan fall between.
    const LONGEST: Duration = Duration::from_secs(60);
    // It is odd while the other client holds the row.
    let turn = AtomicU64::new(0);
    let (is_over, scans, wrong) = (AtomicBool::new(false), AtomicU64::new(0), AtomicU64::new(0));
    let scan = || {
        let before = turn.load(Ordering::SeqCst);
        let has_row = has_row();
        if before % 2 == 1 && turn.load(Ordering::SeqCst) == before {
            scans.fetch_add(1, Ordering::Relaxed);
            wrong.fetch_add(has_row.into(), Ordering::Relaxed);
        }
    };
    let mut callbacks = 0;
    thread::scope(|scope| {
        for _ in 0..4 {
            scope.spawn(|| {
                while !is_over.load(Ordering::Relaxed) {
                    scan();
                }
            });
        }
        let begun = Instant::now();
        let is_judged = || scans.load(Ordering::Relaxed) > 0 || begun.elapsed() > LONGEST;
        while begun.elapsed() < TIME || !is_judged() {
            world.take_last();
            turn.fetch_add(1, Ordering::SeqCst);
            await_scan(&scans);
            turn.fetch_add(1, Ordering::SeqCst);
            follow(&mut world.scanned);
            world.give_last_back();
            callbacks += 1;
        }
        is_over.store(true, Ordering::Relaxed);
    });
    Judged { callbacks, scans: scans.into_inner(), wrong: wrong.into_inner() }
}

/// Waits until a scan is counted, but not for long.
fn await_scan(scans: &AtomicU64) {
    const LONG: Duration = Duration::from_millis(10);
    let (before, begun) = (scans.load(Ordering::Relaxed), Instant::now());
    while scans.load(Ordering::Relaxed) == before && begun.elapsed() < LONG {
        thread::yield_now();
    }
}

fn has_last(scan: impl FnOnce(&mut Vec<Row>) -> Result<Scan, Code>) -> bool {
    let mut rows = Vec::with_capacity(2);
    match scan(&mut rows).unwrap() {
        Scan::Rows => {
            assert!(are_rows(&rows, &LAST), "{rows:?}");
            true
        }
        found => {
            assert_eq!(found, Scan::Miss(LAST.start));
            false
        }
    }
}

#[test]
fn no_scan_has_what_another_client_holds_alone() {
    let mut world = World::new(|client| client);
    let cache = world.scanned.cache();
    let judged =
        judge(&mut world, || has_last(|rows| cache.scan(&LAST, rows, Moment::now)), |_| {});
    let Judged { callbacks, scans, wrong } = judged;
    println!("{callbacks} callbacks, {scans} scans while the row was taken, {wrong} with the row");
    assert!(wrong == 0 && scans > 0, "{judged:?}");
}

/// Here scans go by a copy of what the client knows, which follows when the messages have left.
#[test]
fn the_judge_finds_scans_that_see_too_long_what_was_given_up() {
    let mut world = World::new(|client| client);
    let copy = AtomicBool::new(true);
    let judged = judge(
        &mut world,
        || copy.swap(true, Ordering::SeqCst),
        |client| {
            copy.store(has_last(|rows| client.scan(&LAST, rows, Now::read())), Ordering::SeqCst);
        },
    );
    assert!(judged.wrong > 0, "{judged:?}");
}

#[test]
fn a_release_leaves_when_the_scans_have_ended_that_see_what_it_gives_up() {
    let mut world = World::new(|client| client);
    let cache = world.scanned.cache();
    let (send_in, is_in) = channel();
    let (let_go, go) = channel();
    let callback = world.call_back();
    let begins = Barrier::new(2);
    thread::scope(|scope| {
        scope.spawn(move || {
            cache.0.read(|handle| {
                assert!(has_last(|rows| handle.scan(&LAST, rows, Moment::now)));
                send_in.send(()).unwrap();
                go.recv().unwrap();
                assert!(
                    has_last(|rows| handle.scan(&LAST, rows, Moment::now)),
                    "given up around a reader"
                );
            });
        });
        is_in.recv().unwrap();
        let release = scope.spawn(|| {
            let mut frames = Vec::new();
            begins.wait();
            world.scanned.step(&callback).unwrap();
            world.scanned.take(&mut frames).unwrap();
            frames
        });
        begins.wait();
        thread::sleep(Duration::from_millis(300));
        let has_waited = !release.is_finished();
        let_go.send(()).unwrap();
        assert!(!release.join().unwrap().is_empty());
        assert!(has_waited, "it left before the reader");
    });
    assert!(!has_last(|rows| world.scanned.scan(&LAST, rows, Now::read())));
}

#[test]
fn what_was_cached_goes_with_the_client() {
    let mut world = World::new(|client| client);
    let cache = world.scanned.cache();
    assert!(has_last(|rows| cache.scan(&LAST, rows, Moment::now)));
    world.scanned.replace(ClientHandle::closed());
    assert_eq!(cache.scan(&LAST, &mut Vec::new(), Moment::now), Err(Code::Closed));
    world.scanned.replace(ClientHandle::open(0, 2).unwrap());
    assert_eq!(cache.scan(&LAST, &mut Vec::new(), Moment::now), Ok(Scan::Miss(LAST.start)));
    let mut frames = Vec::new();
    world.scanned.take(&mut frames).unwrap();
    assert!(!frames.is_empty(), "it sends Hello");
}

#[test]
fn a_scan_makes_the_room_that_it_needs() {
    let world = World::new(|client| client);
    let mut rows = vec![Row::default(); 3];
    for keys in [LAST, ALL, 0..LAST.start, LAST] {
        assert_eq!(world.scanned.scan(&keys, &mut rows, Now::read()), Ok(Scan::Rows));
        assert!(are_rows(&rows, &keys));
    }
    assert_eq!(world.scanned.scan(&(5..6), &mut rows, Now::read()), Ok(Scan::Rows));
    assert!(rows.is_empty());
    let reversed = Range { start: 6, end: 5 };
    assert_eq!(world.scanned.scan(&reversed, &mut rows, Now::read()), Err(Code::BadSpan));
}

/// The end of a lease that ends at 1,600.
fn end_at_1600() -> Arc<End> {
    let mut lease = Lease::new(3, 1, Older::Unknown);
    let sign = lease.greet(Moment::of_nanoseconds(1000)).unwrap();
    let grant = Grant { incarnation: 1, stamp: sign.stamp, length: 600 };
    assert!(lease.take(grant, Moment::of_nanoseconds(1001)));
    lease.end()
}

#[test]
fn rows_count_only_if_the_lease_holds_after_them() {
    let world = World::new(|client| client);
    let handle = &world.scanned.handle.get().handle;
    let (end, mut rows) = (end_at_1600(), Vec::with_capacity(2));
    let mut scan = || handle.scan_into(&LAST, rows.spare_capacity_mut());
    // The scan continues until the second of these moments.
    for (begun, ended, expected) in
        [(1100, 1599, Scan::Rows), (1100, 1600, Scan::Ended), (1700, 1700, Scan::Ended)]
    {
        let time = Cell::new(begun);
        let scan = || {
            time.set(ended);
            scan()
        };
        let clock = || Ok(Moment::of_nanoseconds(time.get()));
        assert_eq!(found(by_lease(scan, &end, clock)), Ok(expected));
    }
    let fails = || Err(std::io::ErrorKind::Other.into());
    assert_eq!(found(by_lease(scan, &end, fails)), Ok(Scan::Ended));
}

#[test]
fn an_ended_lease_answers_nothing() {
    let client = ClientHandle::open(0, 1).unwrap();
    let handle = &client.handle.get().handle;
    for (now, expected) in [(1599, Scan::Miss(0)), (1600, Scan::Ended)] {
        let clock = || Ok(Moment::of_nanoseconds(now));
        let found = handle.scan_after(&ALL, &mut Vec::new(), &end_at_1600(), clock);
        assert_eq!(found, Ok(expected));
    }
}
