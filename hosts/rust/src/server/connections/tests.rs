use super::*;
use crate::access::Access;
use crate::model::room::Room;
use crate::server::sockets::Sockets;
use crate::server::strangers::PATIENCE;
use mio::Waker;
use std::io::{Read, Write};
use std::net::{SocketAddr, TcpListener, TcpStream};
use std::sync::Arc;
use std::sync::mpsc::channel;
use std::thread;
use std::time::{Duration, Instant};

const HELLO: FromServer = FromServer::Hello { answers_signs: true };

const SOON: Duration = Duration::from_secs(10);

/// Longer than a peer may be silent.
const LONG: Duration = Duration::from_secs(31);

/// Longer than a peer may take nothing.
const LONG_STALL: Duration = Duration::from_secs(6);

/// Connections, and their sockets.
struct Rig {
    connections: Connections,
    sockets: Sockets,
}

impl Rig {
    fn wait(&mut self, longest: Duration) -> io::Result<Now> {
        self.sockets.wait(&mut self.connections, longest)
    }

    /// What the next connection has, which is read if that is due.
    fn look(&mut self) -> Found {
        let found = match self.connections.look(Line::Clients) {
            Found::Unread(number) => self.sockets.read(&mut self.connections, number),
            found => found,
        };
        self.settle();
        found
    }

    fn settle(&mut self) {
        self.sockets.settle(&mut self.connections);
    }

    /// Sends a batch with the host frames, and nothing else, as if nothing had to be committed.
    fn flush(&mut self) {
        self.connections.committed();
        self.connections.send(None).end();
        self.settle();
    }

    fn finish(mut self, until: Instant) {
        self.sockets.finish(&mut self.connections, until);
    }
}

impl std::ops::Deref for Rig {
    type Target = Connections;

    fn deref(&self) -> &Connections {
        &self.connections
    }
}

impl std::ops::DerefMut for Rig {
    fn deref_mut(&mut self) -> &mut Connections {
        &mut self.connections
    }
}

fn connections() -> (Rig, SocketAddr, Arc<Waker>) {
    let listener = TcpListener::bind("127.0.0.1:0").unwrap();
    let at = listener.local_addr().unwrap();
    let (sockets, waker) = Sockets::new(listener.into(), Access::new()).unwrap();
    let connections = Connections::new(MAX_CONNECTIONS, Room::default(), Now::read());
    (Rig { connections, sockets }, at, waker)
}

/// One more peer, and the number of its connection.
fn peer(connections: &mut Rig, at: SocketAddr) -> (TcpStream, u64) {
    let stream = TcpStream::connect(at).unwrap();
    stream.set_read_timeout(Some(SOON)).unwrap();
    let number = connections.next;
    while connections.next == number {
        connections.wait(SOON).unwrap();
    }
    (stream, number)
}

fn frame(message: &[u8]) -> Vec<u8> {
    [&(message.len() as u64).to_le_bytes()[..], message].concat()
}

/// The next frame that is taken, if one comes within a moment.
fn next_frame(connections: &mut Rig) -> Option<(u64, Vec<u8>)> {
    let end = Instant::now() + Duration::from_millis(300);
    while Instant::now() < end {
        match connections.look() {
            Found::Nobody => drop(connections.wait(Duration::from_millis(20)).unwrap()),
            Found::Nothing | Found::Unread(_) => {}
            Found::Long(number, _) => connections.admit_long(number, 3),
            Found::Frame(number, mut incoming) => {
                let received = incoming.next().unwrap().unwrap().to_vec();
                connections.put_back(number, incoming);
                return Some((number, received));
            }
        }
    }
    None
}

/// How many were closed for this reason.
fn closed(connections: &Rig, reason: &str) -> u64 {
    let mut counts = connections.closed().counts();
    counts.find_map(|(word, count)| (word == reason).then_some(count)).unwrap()
}

/// Sends a batch of one frame to client 3.
fn send_to_client(connections: &mut Rig, frame: &[u8]) {
    let mut sending = connections.send(None);
    sending.put(3, frame);
    sending.end();
    connections.settle();
}

fn unwritten(connections: &Rig, number: u64) -> bool {
    connections.open[&number].connection.interest() != IoInterest::Reads
}

/// Sends this much to client 3 that its peer, which reads nothing, takes no more.
fn stuff(connections: &mut Rig, number: u64) {
    let bytes = frame(&vec![7; 1 << 20]);
    connections.route(3, number);
    while !unwritten(connections, number) {
        send_to_client(connections, &bytes);
    }
}

#[test]
fn a_client_is_active_until_it_has_been_silent_for_two_seconds() {
    let (mut connections, at, _waker) = connections();
    let (mut stream, number) = peer(&mut connections, at);
    assert!(!connections.is_active_elsewhere(3, number + 1), "it is nobody's connection");
    connections.route(3, number);
    let received = connections.now;
    assert!(connections.is_active_elsewhere(3, number + 1));
    assert!(!connections.is_active_elsewhere(3, number), "that is its own connection");
    connections.now = received.after(ACTIVE_FOR / 2);
    assert!(connections.is_active_elsewhere(3, number + 1));
    connections.now = received.after(ACTIVE_FOR);
    assert!(!connections.is_active_elsewhere(3, number + 1));
    stream.write_all(&frame(b"tick")).unwrap();
    connections.wait(SOON).unwrap();
    connections.now = received.after(ACTIVE_FOR);
    assert!(connections.is_active_elsewhere(3, number + 1), "it has not been read");
    connections.close(number, CloseReason::Ended);
    assert!(!connections.is_active_elsewhere(3, number + 1), "its connection has ended");
}

#[test]
fn a_frame_that_comes_in_pieces_is_taken_when_it_is_whole() {
    let (mut connections, at, _) = connections();
    let (mut stream, number) = peer(&mut connections, at);
    let bytes = frame(b"in pieces");
    let (last, first) = bytes.split_last().unwrap();
    for byte in first {
        stream.write_all(&[*byte]).unwrap();
        connections.wait(SOON).unwrap();
        assert!(matches!(connections.look(), Found::Nothing));
    }
    stream.write_all(&[*last]).unwrap();
    assert_eq!(next_frame(&mut connections), Some((number, b"in pieces".to_vec())));
    assert_eq!(next_frame(&mut connections), None);
}

#[test]
fn a_frame_longer_than_a_read_is_taken() {
    let (mut connections, at, _) = connections();
    let (mut stream, number) = peer(&mut connections, at);
    let long: Vec<u8> = (0..1 << 20).map(|place: u32| place.to_le_bytes()[1]).collect();
    let bytes = [frame(&long), frame(b"short")].concat();
    let writing = thread::spawn(move || stream.write_all(&bytes).map(|()| stream));
    let received = std::iter::repeat_with(|| next_frame(&mut connections)).flatten().next();
    assert!(received == Some((number, long)));
    assert_eq!(next_frame(&mut connections), Some((number, b"short".to_vec())));
    writing.join().unwrap().unwrap();
}

#[test]
fn a_client_has_one_long_frame_on_its_way() {
    let (mut connections, at, _) = connections();
    let half = [&(1u64 << 20).to_le_bytes()[..], &[1; 100]].concat();
    let begin = |connections: &mut Rig| {
        let (mut stream, number) = peer(connections, at);
        stream.write_all(&half).unwrap();
        loop {
            match connections.look() {
                Found::Long(found, head) => {
                    assert_eq!((found, head), (number, [1; HEAD]));
                    connections.admit_long(number, 3);
                    connections.settle();
                    return (stream, number);
                }
                _ => drop(connections.wait(SOON).unwrap()),
            }
        }
    };
    let (mut first, _) = begin(&mut connections);
    let (_second, number) = begin(&mut connections);
    assert_eq!(first.read(&mut [0]).unwrap(), 0, "it is closed for the second one");
    assert_eq!(connections.open.keys().copied().collect::<Vec<_>>(), [number]);
}

#[test]
fn what_a_peer_sent_before_it_closed_is_taken() {
    let (mut connections, at, _) = connections();
    let (mut stream, number) = peer(&mut connections, at);
    stream.write_all(&[frame(b"one"), frame(b"two"), vec![5, 0]].concat()).unwrap();
    drop(stream);
    assert_eq!(next_frame(&mut connections), Some((number, b"one".to_vec())));
    assert_eq!(next_frame(&mut connections), Some((number, b"two".to_vec())));
    assert_eq!((next_frame(&mut connections), connections.count()), (None, 0));
}

#[test]
fn a_peer_that_goes_after_it_was_read_is_closed() {
    let (mut connections, at, _) = connections();
    let (mut stream, number) = peer(&mut connections, at);
    connections.route(3, number);
    stream.write_all(&frame(b"one")[..5]).unwrap();
    assert_eq!((next_frame(&mut connections), connections.count()), (None, 1));
    drop(stream);
    assert_eq!((next_frame(&mut connections), connections.count()), (None, 0));
    assert!(connections.clients().is_empty());
}

#[test]
fn a_length_that_no_message_has_ends_its_connection() {
    let (mut connections, at, _) = connections();
    let (mut stream, number) = peer(&mut connections, at);
    stream.write_all(&[frame(b"one"), u64::MAX.to_le_bytes().to_vec()].concat()).unwrap();
    assert_eq!(next_frame(&mut connections), Some((number, b"one".to_vec())));
    assert_eq!((next_frame(&mut connections), connections.count()), (None, 0));
    assert_eq!(stream.read(&mut [0]).unwrap_or(0), 0);
}

#[test]
fn a_flood_takes_no_turn_of_another_connection() {
    let (mut connections, at, _) = connections();
    let (mut floods, flooding) = peer(&mut connections, at);
    let (mut stream, number) = peer(&mut connections, at);
    floods.write_all(&frame(b"flood").repeat(2000)).unwrap();
    assert_eq!(next_frame(&mut connections).unwrap().0, flooding);
    stream.write_all(&frame(b"one")).unwrap();
    connections.wait(SOON).unwrap();
    while !connections.open[&number].is_in_ready {
        connections.wait(SOON).unwrap();
    }
    let received: Vec<u64> = (0..3).map(|_| next_frame(&mut connections).unwrap().0).collect();
    assert!(received.contains(&number), "{received:?}");
    let rest = std::iter::from_fn(|| next_frame(&mut connections));
    assert_eq!(rest.filter(|(from, _)| *from == flooding).count(), 1997);
}

#[test]
fn a_peer_that_takes_nothing_stops_nobody_and_costs_a_bounded_room() {
    const LARGE: usize = 1 << 20;
    let (mut connections, at, _) = connections();
    let (_stuck, number) = peer(&mut connections, at);
    stuff(&mut connections, number);
    for _ in 0..100 {
        send_to_client(&mut connections, &frame(&vec![7; LARGE]));
    }
    let waits = connections.open[&number].connection.waits();
    assert!(waits < 4 * LARGE, "{waits} bytes wait");
    // The other one receives what is sent to it.
    let (mut stream, other) = peer(&mut connections, at);
    stream.write_all(&frame(b"here")).unwrap();
    assert_eq!(next_frame(&mut connections), Some((other, b"here".to_vec())));
    connections.route(4, other);
    let mut sending = connections.send(None);
    sending.put(4, &frame(b"one"));
    sending.end();
    connections.settle();
    let mut received = [0; 11];
    stream.read_exact(&mut received).unwrap();
    assert_eq!(received[..], frame(b"one"));
    // The loop sleeps meanwhile.
    let begun = Instant::now();
    connections.wait(Duration::from_millis(200)).unwrap();
    assert!(begun.elapsed() >= Duration::from_millis(200));
    // After its time it is closed, and the other one is not.
    connections.now = Now::read().after(LONG_STALL);
    connections.close_dead();
    connections.settle();
    assert_eq!((connections.count(), connections.open.contains_key(&other)), (1, true));
}

#[test]
fn nothing_that_is_done_with_a_connection_waits_for_its_peer() {
    let (mut connections, at, _) = connections();
    let (peer, number) = peer(&mut connections, at);
    let (sender, ended) = channel();
    thread::spawn(move || {
        connections.is_ready(number, Readiness { reads: true, is_last: false, writes: true });
        assert!(matches!(connections.look(), Found::Nothing));
        stuff(&mut connections, number);
        sender.send(())
    });
    // However busy the machine is.
    assert!(ended.recv_timeout(Duration::from_secs(30)).is_ok());
    drop(peer);
}

#[test]
fn a_peer_that_was_stuck_gets_what_waited_when_it_reads() {
    let (mut connections, at, _) = connections();
    let (mut stream, number) = peer(&mut connections, at);
    stuff(&mut connections, number);
    let reads = thread::spawn(move || {
        let mut bytes = Vec::new();
        stream.read_to_end(&mut bytes).map(|_| bytes.len())
    });
    while unwritten(&connections, number) {
        connections.wait(SOON).unwrap();
    }
    connections.end(number, CloseReason::BadMessage);
    connections.flush();
    assert_eq!(connections.count(), 0);
    assert_eq!(reads.join().unwrap().unwrap() % (8 + (1 << 20)), 0);
}

#[test]
fn a_silent_peer_is_closed_in_its_time() {
    let (mut connections, at, _) = connections();
    let (mut silent, _) = peer(&mut connections, at);
    silent.write_all(&frame(b"one")).unwrap();
    assert!(next_frame(&mut connections).is_some());
    connections.now = Now::read().after(LONG / 2);
    connections.close_dead();
    connections.settle();
    assert_eq!(connections.count(), 1);
    connections.now = Now::read().after(LONG);
    connections.close_dead();
    connections.settle();
    assert_eq!(connections.count(), 0);
}

#[test]
fn a_connection_without_a_whole_frame_is_closed_in_a_shorter_time() {
    let (mut connections, at, _) = connections();
    let (mut stranger, _) = peer(&mut connections, at);
    stranger.write_all(&frame(b"half")[..10]).unwrap();
    assert_eq!(next_frame(&mut connections), None);
    connections.close_dead();
    connections.settle();
    assert_eq!(connections.count(), 1);
    connections.now = Now::read().after(PATIENCE);
    connections.close_dead();
    connections.settle();
    assert_eq!(connections.count(), 0);
    assert_eq!(closed(&connections, "stranger_late"), 1);
}

#[test]
fn a_stranger_makes_room_for_one_more_and_a_known_peer_does_not() {
    let (mut connections, at, _) = connections();
    let (mut known, first) = peer(&mut connections, at);
    known.write_all(&frame(b"one")).unwrap();
    assert!(next_frame(&mut connections).is_some());
    let mut streams: Vec<_> = (0..70).map(|_| peer(&mut connections, at)).collect();
    assert_eq!(connections.count(), 1 + 64, "so many strangers are of one network");
    assert_eq!(closed(&connections, "stranger_crowded"), 6);
    assert!(connections.open.contains_key(&first));
    let (newest, number) = streams.last_mut().unwrap();
    newest.write_all(&frame(b"two")).unwrap();
    assert_eq!(next_frame(&mut connections), Some((*number, b"two".to_vec())));
}

#[test]
fn readers_are_written_to_after_all_others() {
    let (mut connections, at, _waker) = connections();
    let (_reader, reader) = peer(&mut connections, at);
    let (_client, client) = peer(&mut connections, at);
    assert!(connections.enter_reader(reader));
    for number in [reader, client] {
        connections.send_after_commit(number, &frame(b"rows"));
    }
    connections.committed();
    connections.send(None).end();
    let written: Vec<u64> = std::iter::from_fn(|| connections.next_to_write()).collect();
    assert_eq!(written, [client, reader]);
}

#[test]
fn readers_have_places_of_their_own_and_only_so_many() {
    let (mut connections, at, _waker) = connections();
    let (_stream, number) = peer(&mut connections, at);
    for reader in 0..MAX_READERS as u64 {
        assert!(connections.enter_reader(1_000_000 + reader));
    }
    assert!(!connections.enter_reader(number), "there are too many");
    assert!(!connections.is_reader(number) && connections.lacks_place(number).is_none());
}

#[test]
fn one_for_which_there_is_no_place_stays_a_stranger() {
    let (mut connections, at, _) = connections();
    connections.most = 1;
    let known = |connections: &mut Rig| {
        let (mut stream, number) = peer(connections, at);
        stream.write_all(&frame(b"one")).unwrap();
        assert_eq!(next_frame(connections), Some((number, b"one".to_vec())));
        (stream, number)
    };
    let (_first, first) = known(&mut connections);
    let (_second, second) = known(&mut connections);
    assert_eq!(connections.lacks_place(first), None);
    assert_eq!(connections.lacks_place(second), Some(1));
    connections.now = Now::read().after(PATIENCE);
    connections.close_dead();
    connections.settle();
    assert_eq!(connections.open.keys().copied().collect::<Vec<_>>(), [first]);
    // It has its place until it is closed.
    connections.close(first, CloseReason::Ended);
    let (_third, third) = known(&mut connections);
    assert_eq!(connections.lacks_place(third), None);
}

#[test]
fn a_connection_that_ends_gets_its_last_frames_and_nothing_is_taken_from_it() {
    let (mut connections, at, _) = connections();
    let (mut stream, number) = peer(&mut connections, at);
    stream.write_all(&frame(b"one").repeat(3)).unwrap();
    assert!(next_frame(&mut connections).is_some());
    connections.send_after_commit(number, &frame(b"last"));
    connections.end(number, CloseReason::BadMessage);
    assert_eq!(next_frame(&mut connections), None);
    connections.flush();
    let mut bytes = Vec::new();
    stream.read_to_end(&mut bytes).unwrap();
    assert_eq!((bytes, connections.count()), (frame(b"last"), 0));
}

#[test]
fn a_host_frame_leaves_with_the_next_batch_and_not_before() {
    let (mut connections, at, _) = connections();
    let (mut stream, number) = peer(&mut connections, at);
    connections.send_after_commit(number, &frame(b"first"));
    connections.greet(number, HELLO);
    connections.refuse(number, Refusal::Version { read: 1 });
    stream.write_all(&frame(b"one")).unwrap();
    assert!(next_frame(&mut connections).is_some());
    stream.set_nonblocking(true).unwrap();
    assert!(stream.peek(&mut [0]).is_err());
    connections.flush();
    stream.set_nonblocking(false).unwrap();
    let hello = HELLO.frame();
    let mut received = vec![0; hello.len()];
    stream.read_exact(&mut received).unwrap();
    assert_eq!(received, hello);
}

#[test]
fn another_thread_wakes_the_wait() {
    let (mut connections, _, waker) = connections();
    let (sender, woken) = channel();
    let waits = thread::spawn(move || {
        let begun = Instant::now();
        while woken.try_recv().is_err() {
            connections.wait(SOON).unwrap();
        }
        begun.elapsed()
    });
    thread::sleep(Duration::from_millis(50));
    sender.send(()).unwrap();
    waker.wake().unwrap();
    assert!(waits.join().unwrap() < SOON / 2);
}

#[test]
fn a_wait_sleeps_while_nothing_comes() {
    let (mut connections, at, _) = connections();
    let (mut stream, _) = peer(&mut connections, at);
    stream.write_all(&frame(b"one")[..9]).unwrap();
    assert_eq!(next_frame(&mut connections), None);
    let begun = Instant::now();
    for _ in 0..4 {
        connections.wait(Duration::from_millis(50)).unwrap();
    }
    assert!(begun.elapsed() >= Duration::from_millis(200));
}

#[test]
fn what_was_sent_is_written_before_the_end() {
    const LENGTH: usize = 1 << 24;
    let (mut connections, at, _) = connections();
    let (mut stream, number) = peer(&mut connections, at);
    connections.route(3, number);
    send_to_client(&mut connections, &vec![7; LENGTH]);
    let reads = thread::spawn(move || {
        thread::sleep(Duration::from_millis(100));
        let mut bytes = Vec::new();
        stream.read_to_end(&mut bytes).map(|_| bytes.len())
    });
    connections.finish(Instant::now() + 2 * SOON);
    assert_eq!(reads.join().unwrap().unwrap(), LENGTH);
}

#[test]
fn a_peer_that_takes_nothing_holds_no_end_beyond_its_time() {
    let (mut connections, at, _) = connections();
    let (_stuck, number) = peer(&mut connections, at);
    stuff(&mut connections, number);
    let begun = Instant::now();
    connections.finish(begun + Duration::from_millis(200));
    assert!(begun.elapsed() < SOON / 2);
}
