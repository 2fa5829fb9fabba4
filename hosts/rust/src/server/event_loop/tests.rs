mod reading;
mod waiting;

use super::thread::ServerThread;
use super::turn::MAX_AT_ONCE;
use super::*;
use crate::access::Access;
use crate::lease::boot_clock::Moment;
use crate::lease::terms::{Answer, Leases};
use crate::lease::terms::{Older, Sign};
use crate::model::client_set::ClientSet;
use crate::model::history::{Mark, Seen};
use crate::model::lease_record::LeaseRecord;
use crate::model::reach::Reach;
use crate::model::room::Room;
use crate::model::snapshot::Snapshot;
use crate::net::address::Address;
use crate::server::questions::Questions;
use crate::server::sockets::Sockets;
use crate::store::{MemoryStore, Store, StoreError};
use crate::wire::host_frame::FromServer;
use std::io::{Read, Write};
use std::net::{TcpListener, TcpStream};
use std::sync::Mutex;
use std::sync::atomic::{AtomicBool, Ordering};

/// A Hello of client 50, incarnation 1, in its frame.
const HELLO: [u8; 26] =
    [18, 0, 0, 0, 0, 0, 0, 0, 1, 0, 50, 0, 0, 0, 0, 0, 0, 0, 1, 0, 0, 0, 0, 0, 0, 0];

/// The length of a lease, in milliseconds.
const LEASE: u64 = 300;

/// What the store has of leases: every client has one.
const KEPT: LeaseRecord =
    LeaseRecord { longest: LEASE * 1_000_000, unleased: ClientSet::of_bits(0) };

/// A store that sees, as it commits, how much its peer has received by then.
struct Watching {
    store: MemoryStore,
    peer: TcpStream,
    received: Arc<Mutex<Vec<usize>>>,
    /// What was committed, batch by batch.
    batches: Arc<Mutex<Vec<Vec<Change>>>>,
    is_deposed: Arc<AtomicBool>,
}

impl Store for Watching {
    fn load(&mut self) -> Result<Snapshot, StoreError> {
        self.store.load()
    }

    fn commit(&mut self, changes: &[Change]) -> Result<(), StoreError> {
        // Whatever was sent has arrived by now, over a socket of this machine.
        let received = self.peer.peek(&mut [0; 64]).unwrap_or(0);
        self.received.lock().unwrap().push(received);
        if self.is_deposed.load(Ordering::SeqCst) {
            return Err(StoreError::Deposed("another one".into()));
        }
        self.batches.lock().unwrap().push(changes.to_vec());
        self.store.commit(changes)
    }

    fn snapshot(&mut self) -> Result<Snapshot, StoreError> {
        self.store.snapshot()
    }
}

/// A loop, its peer, and how much the peer had received at each commit.
fn event_loop() -> (ServerThread<Watching>, TcpStream, Arc<Mutex<Vec<usize>>>) {
    let received = Arc::default();
    let shared = Arc::clone(&received);
    let (serving, peer) = event_loop_over(|store, peer| {
        let (batches, is_deposed) = Default::default();
        Watching { store, peer: peer.try_clone().unwrap(), received: shared, batches, is_deposed }
    });
    (serving, peer, received)
}

/// A loop over a store that is made of this one, and its peer.
fn event_loop_over<S: Store>(
    store_of: impl FnOnce(MemoryStore, &TcpStream) -> S,
) -> (ServerThread<S>, TcpStream) {
    let listener = TcpListener::bind("127.0.0.1:0").unwrap();
    let peer = TcpStream::connect(listener.local_addr().unwrap()).unwrap();
    peer.set_nonblocking(true).unwrap();
    let mut store = MemoryStore::default();
    let snapshot = store.load().unwrap();
    let (mut server, epoch) =
        ServerHandle::open(&snapshot, Room::default(), Reach::default()).unwrap();
    store.commit(&[Change::Started { epoch }]).unwrap();
    server.confirm(&[Change::Started { epoch }]).unwrap();
    let store = store_of(store, &peer);
    let (sockets, waker) = Sockets::new(listener.into(), Access::new()).unwrap();
    let connections = Connections::new(4, Room::default(), Now::read());
    let (_, asked) = Questions::new(waker);
    let log = EventLog::started(epoch, &Address::Unix("nowhere".into()), 0, &[]);
    let now = Moment::now().unwrap();
    let terms = Leases::of(Duration::from_millis(LEASE)).unwrap().with_drift(0).unwrap();
    let leases = LeaseTable::opened(KEPT, &[], Some(terms), now);
    let timings = Arc::new(Timings::new());
    let history = None;
    let started = Started { server, epoch, history, leases, connections, timings, log };
    let events = EventLoop::new(started);
    let mut serving = ServerThread::new(events, store, sockets, asked);
    let mut peer = peer;
    greet(&mut serving, &mut peer);
    (serving, peer)
}

/// The peer's host sends its Hello, and takes the answer. Nothing has to be committed for it.
fn greet<S: Store>(serving: &mut ServerThread<S>, peer: &mut TcpStream) {
    peer.write_all(&FromClient::Hello(None).frame()).unwrap();
    let answer = FromServer::Hello { answers_signs: true }.frame();
    let mut received = vec![0; answer.len()];
    while peer.peek(&mut received).unwrap_or(0) < answer.len() {
        assert!(serving.turn().unwrap());
    }
    peer.read_exact(&mut received).unwrap();
    assert_eq!(received, answer);
}

#[test]
fn a_message_before_any_hello_of_its_host_ends_the_connection() {
    let (mut serving, peer, _) = event_loop();
    let mut old = TcpStream::connect(peer.peer_addr().unwrap()).unwrap();
    old.write_all(&HELLO).unwrap();
    old.set_nonblocking(true).unwrap();
    let mut received = Vec::new();
    while old.read_to_end(&mut received).is_err() {
        assert!(serving.turn().unwrap());
        assert_eq!(serving.events.status.taken, 0);
    }
    let refusal = FromServer::Refused(Refusal::Version { read: STREAM_VERSION });
    assert_eq!(received, refusal.frame());
}

#[test]
fn nothing_leaves_before_the_commit() {
    let (mut serving, mut peer, received) = event_loop();
    peer.write_all(&HELLO).unwrap();
    while received.lock().unwrap().is_empty() {
        assert!(serving.turn().unwrap());
    }
    assert_eq!(received.lock().unwrap()[..], [0]);
    assert!(peer.read(&mut [0; 64]).unwrap() > 0, "it leaves in the same turn");
}

#[test]
fn an_active_client_is_not_replaced_by_one_without_signs() {
    let (mut serving, mut peer, _) = event_loop();
    peer.write_all(&HELLO).unwrap();
    while serving.events.status.taken == 0 {
        assert!(serving.turn().unwrap());
    }
    let other_connection = u64::MAX;
    let hello = [&HELLO[8..18], &2u64.to_le_bytes()].concat();
    let head = Message::read(&hello).head();
    let now = serving.events.connections.now();
    assert!(!serving.events.accepts_hello(other_connection, head, now).unwrap());
    assert_eq!(serving.events.leases.unleased(), [50], "it may answer as before");
    peer.shutdown(std::net::Shutdown::Both).unwrap();
    while !serving.events.connections.clients().is_empty() {
        assert!(serving.turn().unwrap());
    }
    let now = serving.events.connections.now();
    assert!(
        serving.events.accepts_hello(other_connection, head, now).unwrap(),
        "its connection has ended"
    );
}

#[test]
fn a_turn_asks_the_store_once_for_all_who_have_seen_another_one() {
    let (mut serving, peer, received) = event_loop();
    let at = peer.peer_addr().unwrap();
    let others = (0..2).map(|_| TcpStream::connect(at).unwrap());
    let mut peers: Vec<TcpStream> = others.chain([peer]).collect();
    let seen = Seen { mark: Mark { start: 7, commits: 1 }, first_start: None };
    let hello = FromClient::Hello(Some(seen)).frame();
    for peer in &mut peers {
        peer.write_all(&hello).unwrap();
    }
    while serving.events.status.store_alarms < 3 {
        assert!(serving.turn().unwrap());
    }
    // It may have been asked once more, as it is each second.
    assert!((1..=2).contains(&received.lock().unwrap().len()));
}

#[test]
fn a_turn_judges_a_bounded_number_of_messages() {
    let (mut serving, mut peer, _) = event_loop();
    peer.write_all(&HELLO.repeat(1000)).unwrap();
    let mut taken = 0;
    while taken < 1000 {
        assert!(serving.turn().unwrap());
        let more = serving.events.status.taken - taken;
        assert!(more <= MAX_AT_ONCE as u64, "{more} messages in a turn");
        taken += more;
    }
}

#[test]
fn a_loop_that_was_busy_shows_itself_and_sleeps() {
    let (mut serving, mut peer, _) = event_loop();
    let shown = Mutex::new(Status::default());
    peer.write_all(&HELLO.repeat(2)).unwrap();
    let mut turns = 0;
    while shown.lock().unwrap().taken < 2 {
        assert!(serving.turn().unwrap());
        serving.events.show_if_due(&shown);
        turns += 1;
        assert!(turns < 20, "a status that is not shown is shown when it is due");
    }
    assert!(!serving.events.is_stale);
    assert_eq!(serving.events.longest_wait(), NUDGE);
}

#[test]
fn a_server_that_begins_to_serve_reports_it_at_once() {
    let (mut serving, mut peer, _) = event_loop();
    let shown = Mutex::new(Status::default());
    // The status was shown a moment ago.
    serving.events.shown = Instant::now() + Duration::from_secs(60);
    peer.write_all(&HELLO).unwrap();
    assert!(serving.turn().unwrap());
    serving.events.show_if_due(&shown);
    assert!(shown.lock().unwrap().is_serving);
    assert!(serving.turn().unwrap());
    assert!(!serving.events.has_news, "it is shown once");
}

/// The first sign of an incarnation of client 50, in its frame.
fn sign_of(incarnation: u64) -> Vec<u8> {
    let stamp = Moment::of_nanoseconds(5);
    Sign { client: 50, incarnation, stamp, length: 0, older: Older::Unknown }.frame()
}

/// That of incarnation 1.
fn sign() -> Vec<u8> {
    sign_of(1)
}

/// What was committed, batch by batch.
fn batches(serving: &mut ServerThread<Watching>) -> Vec<Vec<Change>> {
    serving.store.batches.lock().unwrap().clone()
}

/// Takes turns until the store was asked this many times.
fn turns_until(serving: &mut ServerThread<Watching>, asked: usize) -> Result<(), ServeError> {
    let received = Arc::clone(&serving.store.received);
    while received.lock().unwrap().len() < asked {
        serving.turn()?;
    }
    Ok(())
}

#[test]
fn terms_leave_when_the_store_was_asked() {
    let (mut serving, mut peer, received) = event_loop();
    peer.write_all(&sign()).unwrap();
    turns_until(&mut serving, 1).unwrap();
    assert_eq!(received.lock().unwrap()[..], [0]);
    let mut message = [0; 64];
    let length = peer.read(&mut message).unwrap();
    let (answer, _) = frames::split(&message[..length]).next().unwrap();
    assert!(matches!(Answer::read(answer), Some(Answer::Granted(_))));
}

#[test]
fn a_server_after_which_another_one_started_grants_nothing() {
    let (mut serving, mut peer, _) = event_loop();
    serving.store.is_deposed.store(true, Ordering::SeqCst);
    peer.write_all(&sign()).unwrap();
    let ended = turns_until(&mut serving, 2).unwrap_err();
    assert!(matches!(ended, ServeError::Store(StoreError::Deposed(_))), "{ended}");
    assert!(peer.peek(&mut [0; 64]).is_err(), "nothing was sent");
}

#[test]
fn what_is_stored_of_leases_comes_before_the_registration() {
    let (mut serving, mut peer, _) = event_loop();
    // A host that has sent no sign.
    peer.write_all(&HELLO).unwrap();
    turns_until(&mut serving, 1).unwrap();
    let unleased = LeaseRecord { unleased: [50].into_iter().collect(), ..KEPT };
    let registered = Change::Registered { client: 50, incarnation: 1 };
    let batches = batches(&mut serving);
    assert_eq!(batches, [vec![Change::Leased(unleased), registered]]);
}

#[test]
fn an_eviction_is_committed_with_its_turn() {
    let (mut serving, mut peer, received) = event_loop();
    peer.write_all(&[sign(), HELLO.to_vec()].concat()).unwrap();
    turns_until(&mut serving, 1).unwrap();
    let begun = Instant::now();
    while serving.events.status.evicted == 0 {
        serving.turn().unwrap();
    }
    assert!(begun.elapsed() >= Duration::from_millis(LEASE - 50), "{:?}", begun.elapsed());
    let batches = batches(&mut serving);
    let successor = Change::Registered { client: 50, incarnation: 2 };
    assert_eq!(batches.last().unwrap()[..2], [successor, Change::Left { client: 50 }]);
    // Its sign is answered by Ended.
    let mut message = [0; 1024];
    let _ = peer.read(&mut message);
    peer.write_all(&sign()).unwrap();
    let asked = received.lock().unwrap().len();
    turns_until(&mut serving, asked + 1).unwrap();
    let length = peer.read(&mut message).unwrap();
    let ended = frames::split(&message[..length]).find_map(|(frame, _)| Answer::read(frame));
    assert_eq!(ended, Some(Answer::Ended { incarnation: 1 }));
}

#[test]
fn the_greatest_incarnation_is_not_evicted_and_ends_no_server() {
    const GREATEST: u64 = (1 << 63) - 1;
    let (mut serving, mut peer, _) = event_loop();
    let hello = [&HELLO[8..18], &GREATEST.to_le_bytes()].concat();
    // An older server has registered it: this one would not.
    let registered = serving.events.server.step(&hello).unwrap().unwrap();
    serving.events.server.confirm(&[registered]).unwrap();
    serving.events.keep(registered, Now::read()).unwrap();
    serving.events.gathered.changes.clear();
    peer.write_all(&sign_of(GREATEST)).unwrap();
    turns_until(&mut serving, 1).unwrap();
    let end = Instant::now() + Duration::from_millis(2 * LEASE);
    while Instant::now() < end {
        serving.turn().unwrap();
    }
    let record = serving.events.server.record(50).unwrap().unwrap();
    assert_eq!(
        (record.incarnation, record.left, serving.events.status.evicted),
        (GREATEST, false, 0)
    );
}

#[test]
fn an_idle_client_is_counted_once() {
    let (mut serving, mut peer, _) = event_loop();
    peer.write_all(&HELLO).unwrap();
    let turn_until_taken = |serving: &mut ServerThread<Watching>, taken| {
        while serving.events.status.taken < taken {
            assert!(serving.turn().unwrap());
        }
    };
    turn_until_taken(&mut serving, 1);
    while serving.events.count_next() {}
    // It shows that it is there, and is answered.
    for taken in 2..5 {
        peer.write_all(&HELLO).unwrap();
        turn_until_taken(&mut serving, taken);
        assert!(serving.turn().unwrap());
        assert!(!serving.events.count_next(), "it is counted again");
    }
}

/// A store one of whose commits takes longer than a lease. As it ends, the next sign comes.
struct Slow {
    store: MemoryStore,
    peer: TcpStream,
    next_takes_long: bool,
}

impl Store for Slow {
    fn load(&mut self) -> Result<Snapshot, StoreError> {
        self.store.load()
    }

    fn commit(&mut self, changes: &[Change]) -> Result<(), StoreError> {
        if std::mem::take(&mut self.next_takes_long) {
            std::thread::sleep(Duration::from_millis(2 * LEASE));
            self.peer.write_all(&sign()).unwrap();
        }
        self.store.commit(changes)
    }

    fn snapshot(&mut self) -> Result<Snapshot, StoreError> {
        self.store.snapshot()
    }
}

#[test]
fn nobody_is_taken_for_silent_for_the_time_of_a_long_commit() {
    let (mut serving, mut peer) = event_loop_over(|store, peer| {
        let peer = peer.try_clone().unwrap();
        Slow { store, peer, next_takes_long: false }
    });
    peer.write_all(&[sign(), HELLO.to_vec()].concat()).unwrap();
    while serving.events.status.taken == 0 {
        assert!(serving.turn().unwrap());
    }
    serving.store.next_takes_long = true;
    peer.write_all(&sign()).unwrap();
    let began = Instant::now();
    while serving.store.next_takes_long {
        assert!(serving.turn().unwrap());
    }
    let now = serving.events.connections.now().monotonic;
    assert!(now - began >= Duration::from_millis(2 * LEASE), "what leaves then is written then");
    while serving.events.status.signs < 3 {
        assert!(serving.turn().unwrap());
        assert_eq!(serving.events.status.evicted, 0);
    }
}
