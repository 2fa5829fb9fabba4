//! Questions for rows that nobody keeps.
use super::*;
use crate::server::connections::Line;
use crate::server::event_loop::turn::MAX_OF_READERS;
use crate::wire::read_frame::{ReadRequest, RowPage};
use std::net::SocketAddr;

/// Twice as many as a turn takes.
const READERS: usize = 2 * MAX_OF_READERS;

const QUESTION: ReadRequest = ReadRequest { number: 7, lo: 0, hi: 9 };

/// The pages that the peer has received.
fn pages(peer: &mut TcpStream) -> Vec<RowPage> {
    let mut received = [0; 1024];
    let length = peer.read(&mut received).unwrap_or(0);
    frames::split(&received[..length]).filter_map(|(frame, _)| RowPage::read(frame)).collect()
}

#[test]
fn rows_leave_when_the_store_was_asked() {
    let (mut serving, mut peer, received) = event_loop();
    peer.write_all(&[&HELLO[..], &QUESTION.frame()].concat()).unwrap();
    turns_until(&mut serving, 1).unwrap();
    assert_eq!(received.lock().unwrap()[..], [0], "it had received nothing by the commit");
    assert_eq!(pages(&mut peer), [RowPage { number: 7, next: 9, rows: Vec::new() }]);
}

#[test]
fn a_connection_of_no_client_and_no_reader_sees_no_rows() {
    let (mut serving, mut peer, _) = event_loop();
    peer.write_all(&QUESTION.frame()).unwrap();
    turns_until(&mut serving, 1).unwrap();
    assert_eq!(pages(&mut peer), [RowPage { number: 7, next: 0, rows: Vec::new() }]);
}

#[test]
fn a_server_after_which_another_one_started_shows_no_rows() {
    let (mut serving, mut peer, _) = event_loop();
    serving.store.is_deposed.store(true, Ordering::SeqCst);
    peer.write_all(&QUESTION.frame()).unwrap();
    let ended = turns_until(&mut serving, 2).unwrap_err();
    assert!(matches!(ended, ServeError::Store(StoreError::Deposed(_))), "{ended}");
    assert_eq!(pages(&mut peer), []);
}

/// Connects a reader, and takes turns until its host is greeted.
fn reader(serving: &mut ServerThread<Watching>, at: SocketAddr) -> TcpStream {
    let mut reader = TcpStream::connect(at).unwrap();
    reader.set_nonblocking(true).unwrap();
    reader.write_all(&FromClient::ReaderHello(None).frame()).unwrap();
    while reader.peek(&mut [0; 1]).is_err() {
        assert!(serving.turn().unwrap());
    }
    reader
}

/// A loop to which a client has sent so much, and twice as many readers a question as a turn takes.
fn busy_loop() -> (ServerThread<Watching>, TcpStream, Vec<TcpStream>) {
    let (mut serving, mut peer, _) = event_loop();
    peer.write_all(&HELLO).unwrap();
    while serving.events.status.taken == 0 {
        assert!(serving.turn().unwrap());
    }
    let at = peer.peer_addr().unwrap();
    let mut readers: Vec<_> = (0..READERS).map(|_| reader(&mut serving, at)).collect();
    for reader in &mut readers {
        reader.write_all(&QUESTION.frame()).unwrap();
    }
    peer.write_all(&HELLO.repeat(3)).unwrap();
    let end = Instant::now() + Duration::from_secs(60);
    while ready(&serving) != [1, READERS] {
        assert!(Instant::now() < end, "{:?}", ready(&serving));
        serving.sockets.wait(&mut serving.events.connections, Duration::from_millis(1)).unwrap();
    }
    (serving, peer, readers)
}

/// How many connections of each line may have something.
fn ready(serving: &ServerThread<Watching>) -> [usize; 2] {
    [Line::Clients, Line::Readers].map(|line| serving.events.connections.count_ready(line))
}

/// Takes turns until readers were taken, and returns how many are left.
fn left_after_some(serving: &mut ServerThread<Watching>) -> usize {
    let ([_, before], end) = (ready(serving), Instant::now() + Duration::from_secs(60));
    while ready(serving) == [0, before] {
        assert!(Instant::now() < end, "no reader is taken");
        assert!(serving.turn().unwrap());
    }
    ready(serving)[1]
}

#[test]
fn a_turn_takes_some_readers_after_all_clients() {
    let (mut serving, _peer, _readers) = busy_loop();
    assert!(serving.turn().unwrap());
    assert_eq!((serving.events.status.taken, ready(&serving)), (4, [0, MAX_OF_READERS]));
    assert!(serving.events.longest_wait() <= Duration::from_millis(1), "the next turn begins soon");
    assert_eq!(left_after_some(&mut serving), 0);
}

#[test]
fn a_turn_takes_no_readers_next_to_clients_that_have_had_less_time() {
    let (mut serving, _peer, _readers) = busy_loop();
    let now = Instant::now();
    serving.events.reads().answered(now, now + Duration::from_secs(3600));
    assert!(serving.turn().unwrap());
    assert_eq!((serving.events.status.taken, ready(&serving)), (4, [0, READERS]));
    // Then no client sends anything.
    assert_eq!(left_after_some(&mut serving), READERS - MAX_OF_READERS);
    // The turn that took them has reported how long that took.
    let (reads, later) = (serving.events.reads(), now + Duration::from_secs(600));
    reads.note_clients(later);
    assert!(reads.are_due(later));
}

#[test]
fn a_question_without_keys_or_cut_off_ends_its_connection() {
    let without_keys = ReadRequest { hi: 0, ..QUESTION }.frame();
    let cut_off = |length: u8| {
        let content = &QUESTION.frame()[8..][..length.into()];
        [&[length, 0, 0, 0, 0, 0, 0, 0], content].concat()
    };
    for question in [without_keys].into_iter().chain((2..26).map(cut_off)) {
        let (mut serving, mut peer, _) = event_loop();
        peer.write_all(&[&HELLO[..], &question].concat()).unwrap();
        let end = Instant::now() + Duration::from_secs(10);
        while serving.events.connections.count() > 0 {
            assert!(Instant::now() < end, "{question:?}");
            assert!(serving.turn().unwrap());
        }
        assert_eq!(pages(&mut peer), []);
    }
}
