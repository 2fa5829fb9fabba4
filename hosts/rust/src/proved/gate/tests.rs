use super::*;
use std::panic::{AssertUnwindSafe, catch_unwind};
use std::sync::Barrier;
use std::sync::atomic::AtomicU64;
use std::sync::mpsc::channel;
use std::time::Instant;

/// Two numbers that a change makes different for a while. A wrong gate shows that, and races on
/// nothing.
#[derive(Default)]
struct Pair(AtomicU64, AtomicU64);

impl Pair {
    fn change(&mut self) {
        let next = self.0.load(Ordering::Relaxed) + 1;
        self.0.store(next, Ordering::Relaxed);
        for _ in 0..50 {
            hint::spin_loop();
        }
        self.1.store(next, Ordering::Relaxed);
    }

    fn read(&self) -> [u64; 2] {
        // The second one first: a change that continues meanwhile makes the first one greater.
        let second = self.1.load(Ordering::Relaxed);
        for _ in 0..20 {
            hint::spin_loop();
        }
        [self.0.load(Ordering::Relaxed), second]
    }
}

const LONG: Duration = Duration::from_secs(30);
const SECOND: Duration = Duration::from_secs(1);
/// How long a thread that has begun is watched, to see that it waits.
const WATCHED: Duration = Duration::from_millis(300);

/// This many threads read while the owner changes for a second, and at least so often. Each read is
/// of no change that is at work, and of no state older than the read before.
fn reads_among_changes(readers: usize, least: u64) {
    let mut owner = Owner::new(Pair::default());
    let is_over = AtomicBool::new(false);
    let start = Barrier::new(readers + 1);
    let mut changes = 0;
    thread::scope(|scope| {
        for _ in 0..readers {
            let (reader, start, is_over) = (owner.reader(), &start, &is_over);
            scope.spawn(move || {
                let mut seen = 0;
                start.wait();
                while !is_over.load(Ordering::Relaxed) {
                    let [first, second] = reader.read(Pair::read);
                    assert!(first == second && first >= seen, "{seen}, then {first} and {second}");
                    seen = first;
                }
            });
        }
        start.wait();
        let begun = Instant::now();
        while begun.elapsed() < SECOND || (changes < least && begun.elapsed() < LONG) {
            owner.change(Pair::change);
            changes += 1;
        }
        is_over.store(true, Ordering::Relaxed);
    });
    assert!(changes >= least, "changes starve: {changes} in {LONG:?}");
    assert_eq!(owner.get().read(), [changes, changes]);
}

#[test]
fn no_read_meets_a_change_and_no_change_starves() {
    reads_among_changes(4, 100);
}

#[test]
fn more_threads_than_places_read() {
    reads_among_changes(3 * PLACES, 10);
}

#[test]
fn no_reader_starves_next_to_an_owner_that_changes_without_a_pause() {
    const READS: u64 = 200;
    let mut owner = Owner::new(Pair::default());
    let left = AtomicUsize::new(4);
    thread::scope(|scope| {
        for _ in 0..4 {
            let (reader, left) = (owner.reader(), &left);
            scope.spawn(move || {
                for _ in 0..READS {
                    reader.read(Pair::read);
                }
                left.fetch_sub(1, Ordering::Relaxed);
            });
        }
        let begun = Instant::now();
        while left.load(Ordering::Relaxed) > 0 && begun.elapsed() < LONG {
            owner.change(Pair::change);
        }
        assert_eq!(left.load(Ordering::Relaxed), 0, "readers starve");
    });
}

#[test]
fn a_change_waits_for_who_is_inside_and_for_nobody_else() {
    let mut owner = Owner::new(Pair::default());
    let (inside, out) = (owner.reader(), owner.reader());
    let (send_in, is_in) = channel();
    let (let_go, go) = channel();
    let begins = Barrier::new(2);
    thread::scope(|scope| {
        scope.spawn(move || {
            inside.read(|pair| {
                send_in.send(()).unwrap();
                go.recv().unwrap();
                assert_eq!(pair.read(), [0, 0], "it was changed around a reader");
            });
        });
        is_in.recv().unwrap();
        // Readers do not wait for each other.
        let beside = out.read(Pair::read);
        let change = scope.spawn(|| {
            begins.wait();
            owner.change(Pair::change);
        });
        begins.wait();
        thread::sleep(WATCHED);
        let has_waited = !change.is_finished();
        let_go.send(()).unwrap();
        change.join().unwrap();
        assert!(has_waited);
        assert_eq!(beside, [0, 0]);
    });
    assert_eq!(out.read(Pair::read), [1, 1]);
}

#[test]
fn a_reader_waits_for_the_change_at_work() {
    let mut owner = Owner::new(Pair::default());
    let reader = owner.reader();
    let (send_begun, has_begun) = channel();
    let (let_go, go) = channel();
    let begins = Barrier::new(2);
    thread::scope(|scope| {
        scope.spawn(move || {
            owner.change(|pair| {
                send_begun.send(()).unwrap();
                go.recv().unwrap();
                pair.change();
            });
        });
        has_begun.recv().unwrap();
        let read = scope.spawn(|| {
            begins.wait();
            reader.read(Pair::read)
        });
        begins.wait();
        thread::sleep(WATCHED);
        let has_waited = !read.is_finished();
        let_go.send(()).unwrap();
        assert_eq!(read.join().unwrap(), [1, 1]);
        assert!(has_waited);
    });
}

#[test]
fn a_panic_inside_leaves_the_gate_as_it_was() {
    let mut owner = Owner::new(Pair::default());
    let reader = owner.reader();
    let panicked = catch_unwind(AssertUnwindSafe(|| reader.read(|_| panic!("the test's"))));
    assert!(panicked.is_err());
    owner.change(Pair::change);
    let panicked = catch_unwind(AssertUnwindSafe(|| owner.change(|_| panic!("the test's"))));
    assert!(panicked.is_err());
    assert_eq!(reader.read(Pair::read), [1, 1]);
    owner.change(Pair::change);
    assert_eq!(reader.read(Pair::read), [2, 2]);
}

#[test]
fn a_change_waits_until_who_has_entered_leaves() {
    let mut owner = Owner::new(0);
    let reader = owner.reader();
    let reading = reader.enter();
    assert!(!reader.keeps_a_change_waiting());
    thread::scope(|scope| {
        let change = scope.spawn(|| owner.change(|value| *value = 1));
        let begun = Instant::now();
        while !reader.keeps_a_change_waiting() {
            assert!(begun.elapsed() < LONG);
            thread::yield_now();
        }
        assert!(!change.is_finished() && *reading == 0);
        drop(reading);
        change.join().unwrap();
    });
    assert_eq!(reader.read(|value| *value), 1);
}
