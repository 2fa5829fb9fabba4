//! Calls of a client that are futures, by an executor of 20 lines.
mod two_servers;

use krl::error::Fate;
use krl::{
    Address, AsyncClient, Client, ErrorKind, MemoryStore, Mutation, Outcome, Server, Servers,
    Value, Waited,
};
use krl_testing::relay::Relay;
use krl_testing::wake_count::WakeCount;
use std::future::Future;
use std::pin::{Pin, pin};
use std::sync::atomic::{AtomicUsize, Ordering};
use std::sync::{Arc, Mutex, mpsc};
use std::task::{Context, Poll, Wake, Waker};
use std::thread::{self, Thread};
use std::time::{Duration, Instant};
use two_servers::{World, row};

const LONG: Duration = Duration::from_secs(60);

struct Unpark(Thread);

impl Wake for Unpark {
    fn wake(self: Arc<Unpark>) {
        self.0.unpark();
    }
}

fn waker() -> Waker {
    Waker::from(Arc::new(Unpark(thread::current())))
}

/// Runs a future on this thread, which sleeps until it is woken.
fn block_on<T>(future: impl Future<Output = T>) -> T {
    let (waker, mut future) = (waker(), pin!(future));
    loop {
        match future.as_mut().poll(&mut Context::from_waker(&waker)) {
            Poll::Ready(value) => return value,
            Poll::Pending => thread::park(),
        }
    }
}

/// Runs all of these futures at once on this thread.
fn block_on_all<T>(futures: impl IntoIterator<Item = impl Future<Output = T>>) -> Vec<T> {
    let mut waiting: Vec<Pin<Box<_>>> = futures.into_iter().map(Box::pin).collect();
    let (waker, mut ended) = (waker(), Vec::new());
    loop {
        waiting.retain_mut(|future| {
            match future.as_mut().poll(&mut Context::from_waker(&waker)) {
                Poll::Ready(value) => ended.push(value),
                Poll::Pending => return true,
            }
            false
        });
        if waiting.is_empty() {
            return ended;
        }
        thread::park();
    }
}

/// A task that is polled within the call that wakes it, on the thread that makes that.
struct Eager {
    /// None once it has ended.
    running: Mutex<Option<Pin<Box<dyn Future<Output = ()> + Send>>>>,
    /// How many times it was woken since it was last seen to wait.
    wakes: AtomicUsize,
}

impl Eager {
    fn start(task: impl Future<Output = ()> + Send + 'static) {
        let running = Mutex::new(Some(Box::pin(task) as _));
        Arc::new(Eager { running, wakes: AtomicUsize::new(0) }).wake();
    }

    fn poll(&self, waker: &Waker) {
        let mut running = self.running.lock().unwrap();
        if let Some(task) = running.as_mut()
            && task.as_mut().poll(&mut Context::from_waker(waker)).is_ready()
        {
            *running = None;
        }
    }
}

impl Wake for Eager {
    fn wake(self: Arc<Eager>) {
        if self.wakes.fetch_add(1, Ordering::SeqCst) > 0 {
            // The thread that polls it just now does so again.
            return;
        }
        let waker = Waker::from(Arc::clone(&self));
        let mut seen = 1;
        loop {
            self.poll(&waker);
            match self.wakes.compare_exchange(seen, 0, Ordering::SeqCst, Ordering::SeqCst) {
                Ok(_) => return,
                Err(more) => seen = more,
            }
        }
    }
}

/// Whether the future ends when it is polled for the first time.
fn ends_at_once<T>(future: impl Future<Output = T>) -> bool {
    pin!(future).poll(&mut Context::from_waker(&waker())).is_ready()
}

fn server() -> Server {
    let listener = std::net::TcpListener::bind("127.0.0.1:0").unwrap();
    Server::start(listener, MemoryStore::default()).unwrap()
}

/// A client of this number, with a lock file of this test.
fn client(server: &Server, number: u8, test: &str) -> AsyncClient {
    client_at(server.address(), number, test)
}

/// The same, of the server at this address.
fn client_at(address: impl Into<Servers>, number: u8, test: &str) -> AsyncClient {
    let name = format!("krl-asynchronous-{test}-{}-{number}.lock", std::process::id());
    let client = Client::join(address.into(), number, std::env::temp_dir().join(name)).unwrap();
    client.set_timeout(LONG);
    AsyncClient::from(client)
}

#[test]
fn each_call_has_its_outcome_and_a_read_from_the_cache_does_not_yield() {
    let server = server();
    let client = client(&server, 0, "outcomes");
    block_on(async {
        assert_eq!(client.insert(15, Value::from(1)).await, Ok(Outcome::Applied));
        assert_eq!(client.insert(15, Value::from(1)).await, Ok(Outcome::Exists));
        assert_eq!(client.put(15, Value::from(2)).await, Ok(Outcome::Applied));
        assert_eq!(client.put(16, Value::from(2)).await, Ok(Outcome::Absent));
        assert_eq!(client.set(16, Value::from(3)).await, Ok(Outcome::Applied));
        assert_eq!(client.set(16, Value::from(4)).await, Ok(Outcome::Applied));
        assert_eq!(client.read(10..20).await, Ok(vec![row(15, 2), row(16, 4)]));
        assert!(ends_at_once(client.read(10..20)));
        assert_eq!(client.forget(10..20).await, Ok(()));
        assert_eq!(client.client().cached(10..20), Ok(None));
        assert_eq!(client.delete(16).await, Ok(Outcome::Applied));
        assert_eq!(client.read_once(10..20).await, Ok(vec![row(15, 2)]));
        assert_eq!(client.client().cached(10..20), Ok(None), "it is not kept");
        assert_eq!(client.read(10..20).await, Ok(vec![row(15, 2)]));
        assert_eq!(client.put(krl::END, Value::from(1)).await, Err(ErrorKind::BadKey.into()));
        let (rows, pin) = client.pin_for_update(10..20).await.unwrap();
        assert_eq!(rows, [row(15, 2)]);
        assert_eq!(pin.set(17, Value::from(1)).await, Ok(Outcome::Applied));
        assert_eq!(pin.put(15, Value::from(3)).await, Ok(Outcome::Applied));
        assert_eq!(pin.delete(17).await, Ok(Outcome::Applied));
        assert!(pin.holds());
        drop(pin);
        assert_eq!(client.leave().await, Ok(()));
        assert!(client.read(30..40).await.is_err());
    });
    server.stop().unwrap();
}

#[test]
fn a_client_with_a_time_of_its_own_keeps_it() {
    let server = server();
    let (holder, other) = (client(&server, 0, "within"), client(&server, 1, "within"));
    let (_, pin) = block_on(holder.pin_for_write(10..20)).unwrap();
    let (begun, short) = (Instant::now(), other.client().within(Duration::from_millis(50)));
    block_on(async {
        let short = AsyncClient::from(short);
        assert_eq!(short.read(10..20).await, Err(ErrorKind::TimedOut.into()));
        assert!(short.put(15, Value::from(1)).await.is_err());
        assert!(short.set(15, Value::from(1)).await.is_err());
        assert!(short.write_all([Mutation::Delete(15)]).await.is_err());
        assert!(short.pin_for_read(10..20).await.is_err());
    });
    assert!(begun.elapsed() < LONG, "it waited as the other calls do");
    assert_eq!(other.client().timeout(), LONG);
    drop(pin);
    server.stop().unwrap();
}

#[test]
fn a_task_may_call_the_client_within_the_call_that_wakes_it() {
    let server = server();
    let client = client(&server, 0, "eager");
    let (ended, end) = mpsc::channel();
    // If the task hangs, so does the thread of its client. So it has a client of its own.
    Eager::start(async move {
        let inserted = client.insert(15, Value::from(1)).await;
        let (rows, pin) = client.pin_for_update(10..20).await.unwrap();
        let put = pin.put(15, Value::from(2)).await;
        drop(pin);
        let watched = client.wait_for_change(10..20, &[row(15, 2)], Duration::from_millis(1)).await;
        let once = client.read_once(10..20).await;
        let left = client.leave().await;
        ended.send((inserted, rows, put, watched, once, left)).unwrap();
    });
    let (applied, kept) = (Ok(Outcome::Applied), Ok(Waited::Unchanged));
    let expected = (applied, vec![row(15, 1)], applied, kept, Ok(vec![row(15, 2)]), Ok(()));
    assert_eq!(end.recv_timeout(LONG), Ok(expected));
    server.stop().unwrap();
}

#[test]
fn one_thread_waits_for_many_calls_at_once() {
    let server = server();
    let clients: Vec<_> = (0..4).map(|number| client(&server, number, "many")).collect();
    let inserts = (0..200).map(|key| {
        let client = &clients[usize::try_from(key % 4).unwrap()];
        client.insert(key, Value::from(key))
    });
    assert!(block_on_all(inserts).iter().all(|outcome| *outcome == Ok(Outcome::Applied)));
    let reads = clients.iter().map(|client| client.read(0..1000));
    for rows in block_on_all(reads) {
        assert_eq!(rows.unwrap().len(), 200);
    }
    server.stop().unwrap();
}

#[test]
fn a_task_is_woken_when_a_range_changes() {
    let server = server();
    let (watches, changes) = (client(&server, 0, "changes"), client(&server, 1, "changes"));
    block_on(async {
        let rows = watches.read(10..20).await.unwrap();
        let short = Duration::from_millis(50);
        assert_eq!(watches.wait_for_change(10..20, &rows, short).await, Ok(Waited::Unchanged));
    });
    let rows = watches.client().cached(10..20).unwrap().unwrap();
    let writer = thread::spawn(move || block_on(changes.insert(15, Value::from(1))));
    assert_eq!(block_on(watches.wait_for_change(10..20, &rows, LONG)), Ok(Waited::Changed));
    assert_eq!(writer.join().unwrap(), Ok(Outcome::Applied));
    server.stop().unwrap();
}

#[test]
fn several_writes_are_one_future() {
    let server = server();
    let (client, other) = (client(&server, 0, "batch"), client(&server, 1, "batch"));
    block_on(async {
        let writes =
            [Mutation::Insert(row(10, 1)), Mutation::Set(row(11, 2)), Mutation::Delete(12)];
        let outcomes = [Outcome::Applied, Outcome::Applied, Outcome::Absent];
        assert_eq!(client.write_all(writes).await, Ok(outcomes.to_vec()));
        let bad = client.write_all([Mutation::Delete(10), Mutation::Delete(krl::END)]).await;
        assert_eq!(bad.unwrap_err().fates, [Fate::NotMade; 2]);
        let (_, pin) = client.pin_for_write(5..15).await.unwrap();
        assert_eq!(pin.write_all([Mutation::Delete(11)]).await, Ok(vec![Outcome::Applied]));
        drop(pin);
        assert_eq!(other.read(..).await, Ok(vec![row(10, 1)]));
    });
    server.stop().unwrap();
}

#[test]
fn a_read_that_is_not_kept_keeps_no_executor_waiting() {
    let server = server();
    let client = client(&server, 0, "once");
    assert_eq!(block_on(client.read_once(..)), Ok(vec![]));
    server.stop().unwrap();
    let client = AsyncClient::from(client.client().within(Duration::from_secs(5)));
    assert!(!ends_at_once(client.read_once(..)), "a thread waits for the server");
}

/// Reads that are not kept take turns. The first one waits until its connection counts as lost.
#[test]
fn a_task_that_waits_for_its_turn_ends_at_its_deadline() {
    let short = Duration::from_millis(300);
    let server = server();
    let Address::Tcp(at) = *server.address() else { panic!("it listens elsewhere") };
    let relay = Relay::to(at);
    let client = client_at(relay.at(), 0, "turns");
    assert_eq!(block_on(client.read_once(..)), Ok(vec![]));
    relay.swallow();
    let mut longer = pin!(client.read_once(..));
    assert!(longer.as_mut().poll(&mut Context::from_waker(&waker())).is_pending());
    let begun = Instant::now();
    let within = AsyncClient::from(client.client().within(short));
    let late = block_on(within.read_once(..)).unwrap_err();
    assert!(begun.elapsed() < short * 10, "{:?}", begun.elapsed());
    assert_eq!(late.kind, ErrorKind::TimedOut);
    assert_eq!(block_on(longer), Ok(vec![]));
    server.stop().unwrap();
}

#[test]
fn the_calls_of_a_client_of_several_servers_are_futures_too() {
    let world = World::new("futures");
    let (client, other) = (AsyncClient::from(world.join_both(0)), world.join_both(1));
    let rows = block_on(async {
        let writes = [row(99, 1), row(100, 1)].map(Mutation::Insert);
        assert_eq!(client.write_all(writes).await, Ok(vec![Outcome::Applied; 2]));
        assert_eq!(client.forget(..).await, Ok(()));
        assert_eq!(client.read_once(..).await, Ok(vec![row(99, 1), row(100, 1)]));
        assert_eq!(client.read(..).await, Ok(vec![row(99, 1), row(100, 1)]));
        let (rows, pin) = client.pin_for_update(90..110).await.unwrap();
        assert_eq!(rows, [row(99, 1), row(100, 1)]);
        assert_eq!(pin.set(100, Value::from(2)).await, Ok(Outcome::Applied));
        assert_eq!(pin.delete(99).await, Ok(Outcome::Applied));
        let (_, narrow) = client.pin_for_read(90..95).await.unwrap();
        let refused = narrow.put(100, Value::from(3)).await.unwrap_err();
        assert_eq!((refused.kind, refused.shard), (ErrorKind::PinIsVoid, Some(1)));
        client.read(..).await.unwrap()
    });
    assert_eq!(rows, [row(100, 2)]);
    thread::scope(|scope| {
        let waiting = scope.spawn(|| block_on(client.wait_for_change(.., &rows, LONG)));
        assert_eq!(other.put(100, Value::from(3)), Ok(Outcome::Applied));
        assert_eq!(waiting.join().unwrap(), Ok(Waited::Changed));
    });
    assert_eq!(block_on(client.leave()), Ok(()));
    assert_eq!(block_on(client.read(0..9)).unwrap_err().kind, ErrorKind::Left);
}

#[test]
fn a_task_is_woken_when_a_range_changes_at_any_server() {
    let world = World::new("woken");
    let (client, writer) = (AsyncClient::from(world.join_both(0)), world.join_both(1));
    for key in [99, 100] {
        let rows = block_on(client.read(..)).unwrap();
        let short = client.wait_for_change(.., &rows, Duration::from_millis(20));
        assert_eq!(block_on(short), Ok(Waited::Unchanged));
        let (count, mut waiting) =
            (WakeCount::new(), pin!(client.wait_for_change(.., &rows, LONG)));
        let waker = count.waker();
        let polled = waiting.as_mut().poll(&mut Context::from_waker(&waker));
        assert!(polled.is_pending());
        assert_eq!(writer.insert(key, Value::from(1)), Ok(Outcome::Applied));
        let end = Instant::now() + LONG / 2;
        while count.get() == 0 {
            assert!(Instant::now() < end, "nobody woke the task: {key}");
            thread::sleep(Duration::from_millis(1));
        }
        assert_eq!(block_on(waiting), Ok(Waited::Changed));
    }
}

#[test]
fn a_call_over_several_servers_that_ends_in_vain_pins_nothing() {
    let world = World::new("in_vain");
    let (holder, client) = (world.join_both(0), world.join_both(1));
    for key in [99, 100] {
        assert_eq!(holder.insert(key, Value::from(1)), Ok(Outcome::Applied));
    }
    let (_, held) = holder.pin_for_write(100..101).unwrap();
    let impatient = AsyncClient::from(client.within(Duration::from_millis(100)));
    let refused = block_on(impatient.pin_for_update(99..101)).unwrap_err();
    assert_eq!((refused.kind, refused.shard), (ErrorKind::TimedOut, Some(1)));
    assert_eq!(world.join(2).put(99, Value::from(2)), Ok(Outcome::Applied));
    drop(held);
    assert_eq!(client.read(99..101), Ok(vec![row(99, 2), row(100, 1)]));
}

#[test]
fn the_states_of_a_range_end_with_the_client() {
    let server = server();
    let (watcher, writer) = (client(&server, 0, "states"), client(&server, 1, "states"));
    let mut changes = watcher.changes(10..20).unwrap();
    assert_eq!(block_on(changes.next()), Some(Ok(vec![])));
    for number in 1..4 {
        assert!(!ends_at_once(changes.next()), "nothing has changed");
        assert_eq!(block_on(writer.set(15, Value::from(number))), Ok(Outcome::Applied));
        assert_eq!(block_on(changes.next()), Some(Ok(vec![row(15, number)])));
    }
    block_on(watcher.leave()).unwrap();
    assert_eq!(block_on(changes.next()), None);
    assert!(watcher.changes(5..5).is_err());
    server.stop().unwrap();
}

#[test]
fn a_pin_that_came_and_that_nobody_takes_is_free() {
    let server = server();
    let (pins, writes) = (client(&server, 0, "untaken"), client(&server, 1, "untaken"));
    for _ in 0..20 {
        let mut taking = Box::pin(pins.pin_for_write(10..20));
        let polled = taking.as_mut().poll(&mut Context::from_waker(&waker()));
        if polled.is_pending() {
            // The thread of the client takes the grant, and wakes this one.
            thread::park_timeout(LONG);
        }
        drop((polled, taking));
        assert_eq!(block_on(writes.set(15, Value::from(1))), Ok(Outcome::Applied));
    }
    server.stop().unwrap();
}

#[test]
fn a_call_ends_by_its_timeout_while_there_is_no_server() {
    let server = server();
    let client = client(&server, 0, "timeout");
    server.stop().unwrap();
    client.client().set_timeout(Duration::from_millis(100));
    let begun = Instant::now();
    assert_eq!(block_on(client.read(0..9)), Err(ErrorKind::TimedOut.into()));
    assert!(begun.elapsed() >= Duration::from_millis(100));
    assert_eq!(block_on(client.leave()), Err(ErrorKind::TimedOut.into()));
}

#[test]
fn a_future_that_is_dropped_gives_its_call_up() {
    let server = server();
    let (pins, writes) = (client(&server, 0, "dropped"), client(&server, 1, "dropped"));
    let (_, pin) = block_on(pins.pin_for_write(10..20)).unwrap();
    assert!(!ends_at_once(writes.insert(15, Value::from(1))));
    drop(pin);
    block_on(async {
        // The lock that was asked for may still come; the write does not.
        assert_eq!(writes.insert(16, Value::from(2)).await, Ok(Outcome::Applied));
        assert_eq!(pins.read(10..20).await, Ok(vec![row(16, 2)]));
    });
    server.stop().unwrap();
}
