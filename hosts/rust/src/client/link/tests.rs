//! What callers share with the thread of the connection.
use super::*;
use crate::call::error::ErrorKind;
use crate::lease::boot_clock::Moment;
use crate::net::outbox::MAX_STALL;
use crate::net::stream::{Listener, Stream};
use crate::proved::client_handle::{ClientHandle, Scan};
use crate::server::Server;
use crate::store::MemoryStore;
use std::os::unix::net::UnixStream;

const SHORT: Duration = Duration::from_millis(100);

const LONG: Duration = Duration::from_secs(30);

fn link() -> Link {
    link_and_poller().0
}

fn link_and_poller() -> (Link, Poller) {
    let state = State::new(ClientHandle::open(1, 1).unwrap(), Now::read());
    Link::new("unix:nowhere".parse().unwrap(), state, None).unwrap()
}

/// A link over this connection, whose thread does not run, and its poller.
fn link_over(carrier: Carrier) -> (Link, Poller) {
    let (link, poller) = link_and_poller();
    let first = link.session().connected().unwrap();
    link.writer.open(carrier.try_clone().unwrap(), first);
    link.open_reading(carrier, &poller).unwrap();
    (link, poller)
}

/// The same over a pair of sockets, and the server's end.
fn connected() -> (Link, Poller, UnixStream) {
    let (ours, theirs) = UnixStream::pair().unwrap();
    let (link, poller) = link_over(Carrier::over(Stream::from(ours), None).unwrap());
    (link, poller, theirs)
}

#[test]
fn a_peer_that_takes_nothing_holds_no_call_beyond_its_deadline() {
    let (link, (ours, _theirs)) = (link(), UnixStream::pair().unwrap());
    link.session().connected().unwrap();
    link.writer.open(Carrier::over(Stream::from(ours), None).unwrap(), Vec::new());
    link.writer.put(|frames| frames.resize(1 << 21, 0));
    std::thread::scope(|scope| {
        for _ in 0..8 {
            scope.spawn(|| {
                let begun = Instant::now();
                let read = link.ask(begun + SHORT, |state| state.read(0..9));
                assert_eq!(read, Err(ErrorKind::TimedOut));
                assert!(begun.elapsed() < MAX_STALL / 2, "{:?}", begun.elapsed());
            });
        }
        let begun = Instant::now();
        for _ in 0..1000 {
            let found = link.cache().scan(&(0..9), &mut Vec::new(), Moment::now);
            assert_eq!(found, Ok(Scan::Miss(0)));
        }
        assert!(begun.elapsed() < MAX_STALL / 2, "a look into the cache waits for no stream");
    });
}

#[test]
fn callers_learn_that_the_thread_has_panicked() {
    let link = link();
    std::thread::scope(|scope| {
        let read = scope.spawn(|| link.ask(Instant::now() + LONG, |state| state.read(0..9)));
        std::thread::sleep(SHORT);
        let panicked = scope.spawn(|| {
            let _ended = Ended(&link);
            panic!("the test's");
        });
        assert!(panicked.join().is_err());
        assert_eq!(read.join().unwrap(), Err(ErrorKind::Stopped));
    });
    assert!(link.has_ended(Instant::now()));
    let later = link.ask(Instant::now() + LONG, |state| state.read(0..9));
    assert_eq!(later, Err(ErrorKind::Stopped));
}

#[test]
fn a_caller_reads_the_connection_while_it_waits() {
    let listener = Listener::bind(&"127.0.0.1:0".parse().unwrap()).unwrap();
    let server = Server::start(listener, MemoryStore::default()).unwrap();
    let carrier = Carrier::connect(server.address(), None, LONG).unwrap();
    // No thread of the link runs, which would read it otherwise.
    let (link, _poller) = link_over(carrier);
    let joining = link.begin(State::join);
    assert_eq!(link.read_until(&joining.answer, Instant::now() + LONG), Some(Ok(())));
    let reading = link.begin(|state| state.read(0..9));
    assert_eq!(link.read_until(&reading.answer, Instant::now() + LONG), Some(Ok(Vec::new())));
    server.stop().unwrap();
}

#[test]
fn a_caller_that_has_its_answer_leaves_the_thread_asleep() {
    let listener = Listener::bind(&"127.0.0.1:0".parse().unwrap()).unwrap();
    let server = Server::start(listener, MemoryStore::default()).unwrap();
    let carrier = Carrier::connect(server.address(), None, LONG).unwrap();
    let (link, mut poller) = link_over(carrier);
    let joining = link.begin(State::join);
    assert_eq!(link.read_until(&joining.answer, Instant::now() + LONG), Some(Ok(())));
    // From here on the thread would sleep until its next tick.
    link.go_on(std::iter::empty()).unwrap();
    for key in 0..50 {
        let reading = link.begin(|state| state.read(key..key + 1));
        assert_eq!(link.read_until(&reading.answer, Instant::now() + LONG), Some(Ok(Vec::new())));
    }
    poller.wait(Duration::ZERO).unwrap();
    assert!(!poller.ready().any(|ready| ready == Ready::Woken));
    server.stop().unwrap();
}

#[test]
fn a_caller_learns_of_the_answer_that_the_thread_has_read() {
    let (link, _poller, _theirs) = &connected();
    let (answering, answer) = crate::client::answer::place(&link.wakes);
    std::thread::scope(|scope| {
        let begun = Instant::now();
        // The look at the turn below may take it from the caller, which then tries again.
        let reading = scope.spawn(move || {
            let mut answered = None;
            while answered.is_none() && begun.elapsed() < LONG {
                answered = link.read_until::<u8>(&answer, begun + LONG);
            }
            answered
        });
        while link.turn.try_lock().is_ok() && !reading.is_finished() {
            std::thread::yield_now();
        }
        answering.give(Ok(7));
        link.let_caller_read();
        assert_eq!(reading.join().unwrap(), Some(Ok(7)));
        assert!(begun.elapsed() < LONG, "it was woken");
    });
}

#[test]
fn a_caller_that_leaves_wakes_the_thread_for_what_is_due_before_it_wakes_by_itself() {
    let (link, mut poller, _theirs) = connected();
    let set = |is_due: Duration| {
        let (now, mut reading) = (Instant::now(), lock(&link.reading));
        let reading = reading.as_mut().unwrap();
        (reading.is_due, reading.sleeps_until) = (now + is_due, now + LONG);
    };
    set(2 * LONG);
    link.leave_reading(true);
    poller.wait(Duration::ZERO).unwrap();
    assert!(!poller.ready().any(|ready| ready == Ready::Woken));
    set(SHORT);
    link.leave_reading(true);
    poller.wait(LONG).unwrap();
    assert!(poller.ready().any(|ready| ready == Ready::Woken));
}

#[test]
fn the_thread_ends_a_connection_of_which_a_caller_found_that_it_has_ended() {
    let (link, _poller, theirs) = connected();
    drop(theirs);
    while link.read_once(LONG) {}
    let end = link.go_on(std::iter::empty()).unwrap_err();
    assert_eq!(end.kind(), io::ErrorKind::UnexpectedEof);
}
