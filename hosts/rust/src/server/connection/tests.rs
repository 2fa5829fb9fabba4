use super::*;
use crate::model::history::Mark;
use crate::wire::frames::LONGEST_TO_SERVER;
use std::os::unix::net::UnixStream;

const HELLO: FromServer = FromServer::Hello { answers_signs: true };

const SEEN: Seen = Seen { mark: Mark { start: 7, commits: 3 }, first_start: Some(5) };

/// A connection, and its socket.
struct Wired {
    connection: Connection,
    stream: UnixStream,
}

impl Wired {
    fn write(&mut self) {
        self.connection.write(&mut self.stream, Instant::now()).unwrap();
    }
}

impl std::ops::Deref for Wired {
    type Target = Connection;

    fn deref(&self) -> &Connection {
        &self.connection
    }
}

impl std::ops::DerefMut for Wired {
    fn deref_mut(&mut self) -> &mut Connection {
        &mut self.connection
    }
}

fn connection() -> (Wired, UnixStream) {
    let (stream, theirs) = UnixStream::pair().unwrap();
    stream.set_nonblocking(true).unwrap();
    theirs.set_nonblocking(true).unwrap();
    let entry = Entry::Known(Identity::everybody());
    let connection = Connection::new(entry, LONGEST_TO_SERVER, Instant::now());
    (Wired { connection, stream }, theirs)
}

/// Sends a batch after a commit for which the host frames have waited.
fn send(connection: &mut Wired, frame: &[u8], seen: Option<Seen>) {
    connection.committed();
    connection.put_message(frame, seen);
    connection.end_batch(seen);
    connection.write();
}

/// All that the peer receives until nothing waits.
fn received(connection: &mut Wired, peer: &mut UnixStream) -> Vec<u8> {
    let (mut bytes, mut all) = (vec![0; 1 << 16], Vec::new());
    loop {
        while let Ok(count @ 1..) = peer.read(&mut bytes) {
            all.extend_from_slice(&bytes[..count]);
        }
        if connection.interest() == IoInterest::Reads {
            return all;
        }
        connection.write();
    }
}

#[test]
fn a_host_gets_its_answer_then_the_mark_and_then_all_else() {
    let (mut connection, mut peer) = connection();
    connection.send_after_commit(b"first");
    connection.greet(HELLO);
    send(&mut connection, b"an answer", Some(SEEN));
    let hello = HELLO.frame();
    let news = FromServer::Mark(SEEN).frame();
    assert_eq!(
        received(&mut connection, &mut peer),
        [&hello[..], &news, b"first", b"an answer"].concat()
    );
    // What it knows is not sent again.
    send(&mut connection, b"an answer", Some(SEEN));
    assert_eq!(received(&mut connection, &mut peer), b"an answer");
}

#[test]
fn a_peer_without_host_frames_gets_none() {
    let (mut connection, mut peer) = connection();
    connection.refuse(Refusal::Version { read: 1 }, Instant::now());
    send(&mut connection, b"an answer", Some(SEEN));
    assert_eq!(received(&mut connection, &mut peer), b"an answer");
}

#[test]
fn a_host_whose_store_went_back_gets_that_and_no_mark() {
    let (mut connection, mut peer) = connection();
    connection.greet(FromServer::WentBack);
    connection.end(CloseReason::OlderStore);
    send(&mut connection, &[], Some(SEEN));
    assert_eq!(received(&mut connection, &mut peer), FromServer::WentBack.frame());
    assert!(connection.is_over());
}

#[test]
fn a_batch_that_is_lost_is_lost_whole() {
    let (mut connection, mut peer) = connection();
    connection.greet(HELLO);
    while connection.waits() < MAX_WAITING {
        send(&mut connection, &[0; 1 << 12], None);
    }
    connection.send_after_commit(b"lost");
    send(&mut connection, b"lost", Some(SEEN));
    let before = received(&mut connection, &mut peer);
    assert!(!before.ends_with(b"lost"));
    send(&mut connection, b"an answer", Some(SEEN));
    let news = FromServer::Mark(SEEN).frame();
    assert_eq!(received(&mut connection, &mut peer), [&news[..], b"an answer"].concat());
}

#[test]
fn a_refusal_is_sent_once_a_second() {
    let (mut connection, mut peer) = connection();
    let (refusal, start) = (Refusal::Version { read: 1 }, Instant::now());
    connection.greet(HELLO);
    for after in [0, 0, 500] {
        connection.refuse(refusal, start + Duration::from_millis(after));
    }
    send(&mut connection, &[], None);
    let once = [HELLO.frame(), FromServer::Refused(refusal).frame()].concat();
    assert_eq!(received(&mut connection, &mut peer), once);
}
