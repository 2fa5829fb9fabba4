//! Ranges that are read and pinned at once, and waiting for a change.
use krl::error::Unsent;
use krl::{Client, ErrorKind, Listener, MemoryStore, Outcome, Row, Server, Value, Waited};
use std::path::PathBuf;
use std::sync::atomic::{AtomicUsize, Ordering};
use std::thread;
use std::time::{Duration, Instant};

const SHORT: Duration = Duration::from_millis(300);

/// No wait of a test is longer.
const LONG: Duration = Duration::from_secs(60);

/// A server, and a folder that is gone when the test is.
struct World {
    server: Server,
    folder: PathBuf,
}

impl World {
    fn new(name: &str) -> World {
        let folder = std::env::temp_dir().join(format!("krl-holds-{}-{name}", std::process::id()));
        std::fs::create_dir_all(&folder).unwrap();
        let listener = Listener::bind(&"127.0.0.1:0".parse().unwrap()).unwrap();
        let server = Server::start(listener, MemoryStore::default()).unwrap();
        World { server, folder }
    }

    fn join(&self, number: u8) -> Client {
        let lock_file = self.folder.join(format!("client-{number}.lock"));
        Client::builder(self.server.address(), number, lock_file).timeout(LONG).join().unwrap()
    }

    /// Makes rows by a client that then leaves: one that stays would hold them to change them.
    fn insert_rows(&self, keys: impl IntoIterator<Item = u64>) {
        let client = self.join(0);
        for key in keys {
            assert_eq!(client.insert(key, Value::from(key)), Ok(Outcome::Applied));
        }
        client.leave().unwrap();
    }

    /// A client that does not wait long.
    fn join_impatient(&self, number: u8) -> Client {
        let client = self.join(number);
        client.set_timeout(SHORT);
        client
    }
}

impl Drop for World {
    fn drop(&mut self) {
        let _ = std::fs::remove_dir_all(&self.folder);
    }
}

fn row(key: u64, value: u64) -> Row {
    Row { key, value: Value::from(value) }
}

#[test]
fn a_range_that_is_pinned_for_read_is_shared_and_does_not_change() {
    let world = World::new("read");
    let (first, second, writer) = (world.join(1), world.join(2), world.join_impatient(3));
    // More rows than one grant has.
    world.insert_rows((0..30).map(|place| 10 * place));
    let (rows, pin) = first.pin_for_read(95..305).unwrap();
    assert_eq!(rows.len(), 20);
    let (others, other_pin) = second.pin_for_read(0..200).unwrap();
    assert_eq!(others.len(), 20);
    assert_eq!(writer.put(290, Value::from(1)), Err(ErrorKind::NotSent(Unsent::TimedOut).into()));
    assert_eq!(first.cached(95..305), Ok(Some(rows)));
    drop((pin, other_pin));
    writer.set_timeout(LONG);
    assert_eq!(writer.insert(101, Value::from(1)), Ok(Outcome::Applied));
}

#[test]
fn one_client_at_a_time_pins_a_range_for_update() {
    let world = World::new("update");
    let (first, second, reader) = (world.join(1), world.join(2), world.join(3));
    world.insert_rows((0..30).map(|place| 10 * place));
    let (rows, pin) = first.pin_for_update(50..300).unwrap();
    assert_eq!(rows.len(), 25);
    // The first entry, one in the middle, the last one, and the gap after it. A client that got
    // nothing still waits, so each is another client.
    for (number, keys) in (4..).zip([45..51, 150..151, 290..300, 295..300]) {
        let other = world.join_impatient(number);
        let refused = other.pin_for_update(keys.clone()).err();
        assert_eq!(refused, Some(ErrorKind::TimedOut.into()), "{keys:?}");
        other.leave().unwrap();
    }
    assert!(second.pin_for_update(0..41).is_ok(), "it lies below");
    assert_eq!(reader.read(0..300).unwrap().len(), 30, "readers continue");
    drop(pin);
    assert_eq!(second.pin_for_update(50..300).unwrap().0.len(), 25);
}

#[test]
fn a_range_of_no_rows_is_pinned_for_update_by_one() {
    let world = World::new("empty");
    let (first, second) = (world.join(1), world.join_impatient(2));
    let (rows, pin) = first.pin_for_update(10..20).unwrap();
    assert_eq!(rows, []);
    assert_eq!(second.pin_for_update(10..20).err(), Some(ErrorKind::TimedOut.into()));
    assert_eq!(second.insert(15, Value::from(1)), Err(ErrorKind::NotSent(Unsent::TimedOut).into()));
    drop(pin);
    second.set_timeout(LONG);
    assert!(second.pin_for_update(10..20).is_ok());
}

/// Each adds one to the same row again and again. None is lost, and none waits forever.
#[test]
fn those_who_pin_for_update_and_write_do_not_block_one_another() {
    const CLIENTS: u8 = 4;
    const TURNS: u64 = 25;
    let world = World::new("count");
    let maker = world.join(0);
    assert_eq!(maker.insert(15, Value::from(0)), Ok(Outcome::Applied));
    let add_one = |client: &Client| {
        let (rows, pin) = client.pin_for_update(10..20).unwrap();
        let count = u64::from_be_bytes(rows[0].value.as_ref().try_into().unwrap());
        assert_eq!(client.put(15, Value::from(count + 1)), Ok(Outcome::Applied));
        // A client that comes back at once keeps nobody out: what was called back is given back.
        drop(pin);
    };
    thread::scope(|scope| {
        for number in 1..=CLIENTS {
            let client = world.join(number);
            scope.spawn(move || (0..TURNS).for_each(|_| add_one(&client)));
        }
    });
    assert_eq!(maker.read(15..16), Ok(vec![row(15, u64::from(CLIENTS) * TURNS)]));
}

/// Each reads the row before it pins it for an update or changes it without a pin. What it reads
/// puts it in front of nobody, so none waits forever.
#[test]
fn those_who_read_before_they_pin_for_update_do_not_block_one_another() {
    const PINNING: u8 = 2;
    const WRITING: u8 = 2;
    const TURNS: u64 = 25;
    let world = World::new("readers");
    world.insert_rows([9, 15]);
    let pins_and_adds_one = |client: &Client| {
        client.read(0..30).unwrap();
        let (rows, pin) = client.pin_for_update(15..16).unwrap();
        let count = u64::from_be_bytes(rows[0].value.as_ref().try_into().unwrap());
        assert_eq!(pin.put(15, Value::from(count + 1)), Ok(Outcome::Applied));
        drop(pin);
    };
    let writes = |client: &Client, turn: u64| {
        client.read(0..30).unwrap();
        assert_eq!(client.put(15, Value::from(turn)), Ok(Outcome::Applied));
    };
    thread::scope(|scope| {
        for number in 1..=PINNING {
            let client = world.join(number);
            scope.spawn(move || (0..TURNS).for_each(|_| pins_and_adds_one(&client)));
        }
        for number in PINNING + 1..=PINNING + WRITING {
            let client = world.join(number);
            scope.spawn(move || (0..TURNS).for_each(|turn| writes(&client, turn)));
        }
    });
}

/// Each waits for the other one's pin. The one that learns first that its time is over has written
/// nothing, and both continue when the pins are gone.
#[test]
fn those_who_pin_for_read_and_write_block_one_another_and_lose_nothing() {
    let world = World::new("upgrade");
    let (first, second) = (world.join(1), world.join_impatient(2));
    world.insert_rows([15]);
    let (rows, pin) = first.pin_for_read(10..20).unwrap();
    let (_, other_pin) = second.pin_for_read(10..20).unwrap();
    thread::scope(|scope| {
        let put = scope.spawn(|| first.put(15, Value::from(1)));
        assert_eq!(
            second.put(15, Value::from(2)),
            Err(ErrorKind::NotSent(Unsent::TimedOut).into())
        );
        assert!(!put.is_finished(), "it waits for a pin");
        assert_eq!(second.cached(10..20), Ok(Some(rows)), "nothing has changed");
        drop((pin, other_pin));
        assert_eq!(put.join().unwrap(), Ok(Outcome::Applied));
    });
    second.set_timeout(LONG);
    assert_eq!(second.read(15..16), Ok(vec![row(15, 1)]));
    assert_eq!(second.put(15, Value::from(2)), Ok(Outcome::Applied));
}

#[test]
fn a_pin_that_was_not_had_leaves_nothing_pinned() {
    let world = World::new("leaves");
    let (first, second) = (world.join(1), world.join_impatient(2));
    world.insert_rows([10, 20, 30]);
    let (_, pin) = first.pin_for_update(20..21).unwrap();
    // It takes 10, and waits for 20: more often than a client has pins.
    for _ in 0..9 {
        let refused = second.pin_for_update(0..40).err();
        assert_eq!(refused, Some(ErrorKind::TimedOut.into()));
    }
    assert_eq!(second.forget(0..40), Ok(()), "no pin is left");
    assert_eq!(second.pin_for_read(9..9).err(), Some(ErrorKind::BadRange.into()));
    drop(pin);
    second.set_timeout(LONG);
    let pins: Vec<_> = (0..8).map(|place| second.pin(place..=place).unwrap()).collect();
    assert_eq!(second.pin_for_update(0..40).err(), Some(ErrorKind::TooManyPins.into()));
    drop(pins);
    assert_eq!(second.pin_for_update(0..40).unwrap().0.len(), 3);
}

#[test]
fn a_range_is_free_when_the_last_clone_of_its_pin_is_dropped() {
    let world = World::new("clones");
    world.insert_rows([10]);
    let (holder, writer) = (world.join(1), world.join_impatient(2));
    let (_, pin) = holder.pin_for_read(10..11).unwrap();
    let clone = pin.within(SHORT);
    assert_eq!((clone.timeout(), pin.timeout()), (SHORT, holder.timeout()));
    drop(pin);
    assert!(clone.holds());
    assert_eq!(writer.put(10, Value::from(1)), Err(ErrorKind::NotSent(Unsent::TimedOut).into()));
    drop(clone);
    assert_eq!(writer.within(LONG).put(10, Value::from(1)), Ok(Outcome::Applied));
}

#[test]
fn a_client_that_waits_for_a_row_has_pinned_only_those_below_it() {
    let world = World::new("prefix");
    let (first, second) = (world.join(1), world.join(2));
    let (below, above) = (world.join_impatient(3), world.join(4));
    world.insert_rows([10, 20, 30]);
    let (_, pin) = first.pin_for_update(20..21).unwrap();
    second.read(0..40).unwrap();
    thread::scope(|scope| {
        let waiting = scope.spawn(|| second.pin_for_update(0..40).map(|(rows, _)| rows));
        thread::sleep(SHORT);
        assert_eq!(
            below.put(10, Value::from(1)),
            Err(ErrorKind::NotSent(Unsent::TimedOut).into()),
            "it is pinned"
        );
        assert_eq!(above.put(30, Value::from(1)), Ok(Outcome::Applied), "it is not pinned yet");
        assert!(!waiting.is_finished());
        drop(pin);
        assert_eq!(waiting.join().unwrap().unwrap()[2], row(30, 1));
    });
}

#[test]
fn a_wait_ends_when_the_range_changes_and_not_before() {
    let world = World::new("wait");
    let (watcher, writer) = (world.join(1), world.join(2));
    world.insert_rows([15, 25, 35]);
    let rows = watcher.read(10..20).unwrap();
    assert_eq!(watcher.wait_for_change(10..20, &rows, SHORT), Ok(Waited::Unchanged));
    thread::scope(|scope| {
        let waiting = scope.spawn(|| {
            let begun = Instant::now();
            (watcher.wait_for_change(10..20, &rows, LONG), begun.elapsed())
        });
        thread::sleep(SHORT);
        // The client holds the slot after the range too, for its gap, and nothing further on.
        assert_eq!(writer.put(35, Value::from(1)), Ok(Outcome::Applied));
        assert!(!waiting.is_finished(), "what lies outside is no change");
        assert_eq!(writer.put(15, Value::from(1)), Ok(Outcome::Applied));
        let (changed, waited) = waiting.join().unwrap();
        assert_eq!(changed, Ok(Waited::Changed));
        assert!(waited < LONG / 2, "{waited:?}");
    });
    assert_eq!(watcher.read(10..20), Ok(vec![row(15, 1)]));
}

#[test]
fn a_wait_ends_by_what_the_client_does_itself() {
    let world = World::new("own");
    let client = world.join(1);
    let not_held = client.wait_for_change(10..20, &[], LONG);
    assert_eq!(not_held, Ok(Waited::Changed));
    assert_eq!(client.wait_for_change(10..1 << 63 | 1, &[], LONG), Err(ErrorKind::BadRange.into()));
    let rows = client.read(10..20).unwrap();
    let ends_by = |what: &(dyn Fn() + Sync)| {
        let rows = client.read(10..20).unwrap();
        let begun = Instant::now();
        thread::scope(|scope| {
            let waiting = scope.spawn(|| client.wait_for_change(10..20, &rows, LONG));
            thread::sleep(SHORT);
            assert!(!waiting.is_finished());
            what();
            assert_eq!(waiting.join().unwrap(), Ok(Waited::Changed));
        });
        assert!(begun.elapsed() < LONG / 2, "{:?}", begun.elapsed());
    };
    assert_eq!(rows, []);
    ends_by(&|| assert_eq!(client.insert(15, Value::from(1)), Ok(Outcome::Applied)));
    ends_by(&|| assert_eq!(client.forget(10..20), Ok(())));
    ends_by(&|| assert_eq!(client.within(LONG).leave(), Ok(())));
    assert!(client.read(10..20).is_err(), "it has left");
}

#[test]
fn a_client_departs_while_another_thread_waits() {
    let world = World::new("departs");
    let (holder, other, waiter) = (world.join(1), world.join(2), world.join(3));
    world.insert_rows([15]);
    let (_, pin) = holder.pin_for_update(10..20).unwrap();
    let ended = AtomicUsize::new(0);
    thread::scope(|scope| {
        scope.spawn(|| {
            assert!(waiter.pin_for_update(10..20).is_err());
            ended.fetch_add(1, Ordering::Relaxed);
        });
        thread::sleep(SHORT);
        let begun = Instant::now();
        assert_eq!(waiter.within(LONG).leave(), Ok(()));
        assert!(begun.elapsed() < LONG / 2, "{:?}", begun.elapsed());
    });
    assert_eq!(ended.load(Ordering::Relaxed), 1);
    drop(pin);
    assert_eq!(other.put(15, Value::from(2)), Ok(Outcome::Applied));
    assert_eq!(other.status()[0].epoch, Ok(1));
}
