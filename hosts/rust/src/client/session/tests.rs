//! A session whose server is a few frames, and whose time is passed by hand.
use super::*;
use crate::lease::terms::Answer;
use crate::lease::terms::{Grant, Older, Sign};
use crate::model::history::Mark;
use crate::model::shard_fence::OtherShard;
use crate::net::connect_fault::{NothingListens, Rejection};
use crate::proved::client_handle::ClientHandle;
use crate::wire::frames::split;
use crate::wire::host_frame::{FromClient, FromServer};

const LEASE: Duration = Duration::from_secs(3);
const MILLISECOND: Duration = Duration::from_millis(1);

/// A client of incarnation 1, of these servers.
fn session(servers: &str) -> Session {
    let client = ClientHandle::open_after(1, 1, Older::Unknown).unwrap();
    Session::new(servers.parse().unwrap(), State::new(client, Now::read()), 1)
}

fn pass(session: &mut Session, time: Duration) {
    let later = session.state.now().after(time);
    session.at(later);
}

fn connect(session: &mut Session) -> Vec<u8> {
    pass(session, MILLISECOND);
    session.connected().unwrap()
}

fn receive(session: &mut Session, sent: &[u8]) -> io::Result<()> {
    let mut frames = Frames::to_client();
    frames.fill(&mut &*sent).unwrap();
    session.receive(&mut frames)
}

fn sent_by(session: &mut Session) -> Vec<Vec<u8>> {
    let mut frames = Vec::new();
    session.take(&mut frames);
    split(&frames).map(|(frame, _)| frame.to_vec()).collect()
}

/// What the server answers to the sign of this greeting.
fn terms(greeting: &[u8]) -> Vec<u8> {
    let sign = split(greeting).find_map(|(frame, _)| Sign::read(frame)).unwrap();
    let length = u64::try_from(LEASE.as_nanos()).unwrap();
    Answer::Granted(Grant { incarnation: 1, stamp: sign.stamp, length }).frame()
}

fn seen(start: u128, commits: u64) -> Seen {
    Seen { mark: Mark { start, commits }, first_start: Some(start) }
}

fn refused(refusal: Refusal) -> Vec<u8> {
    FromServer::Refused(refusal).frame()
}

#[test]
fn nothing_is_taken_after_the_word_that_the_store_went_back() {
    let mut session = session("unix:nowhere");
    session.seen = Some(seen(1, 9));
    connect(&mut session);
    let after = FromServer::Mark(seen(2, 1));
    let end = receive(&mut session, &[FromServer::WentBack.frame(), after.frame()].concat());
    assert!(end.unwrap_err().to_string().contains("went back"));
    assert!(
        session.has_to_begin_again() && session.connection.as_ref().unwrap().received.went_back
    );
    assert_eq!(session.seen, None);
}

#[test]
fn a_client_that_is_refused_for_another_store_keeps_its_mark_and_its_incarnation() {
    let mut session = session("unix:nowhere");
    session.seen = Some(seen(1, 9));
    connect(&mut session);
    let after = FromServer::Mark(seen(2, 1));
    let end = receive(&mut session, &[refused(Refusal::OtherStore), after.frame()].concat());
    assert!(end.unwrap_err().to_string().contains("another store"));
    assert_eq!(session.seen, Some(seen(1, 9)), "what comes after the refusal is not taken");
    assert!(!session.has_to_begin_again(), "it has not joined, and has nothing to drop");
    assert_eq!(session.hint(), Some(Refusal::OtherStore));
}

#[test]
fn a_connection_begins_with_the_greeting_and_continues_by_its_terms() {
    let mut session = session("unix:nowhere");
    let greeting = connect(&mut session);
    let first = split(&greeting).next().unwrap().0;
    assert_eq!(FromClient::read(first), Some(FromClient::Hello(None)));
    session.proceed().unwrap();
    assert_eq!(sent_by(&mut session).len(), 0, "nothing before the terms");
    receive(&mut session, &terms(&greeting)).unwrap();
    session.proceed().unwrap();
    assert_eq!(sent_by(&mut session).len(), 1, "the library's Hello");
    // A connection that has ended takes nothing with it.
    session.disconnected(io::ErrorKind::UnexpectedEof.into());
    session.state().tick();
    assert_eq!(sent_by(&mut session).len(), 0);
}

#[test]
fn a_client_that_is_asked_nothing_sleeps_until_a_sign_or_a_tick_is_due() {
    let mut session = session("unix:nowhere");
    let greeting = connect(&mut session);
    assert_eq!(session.due_in(), Duration::ZERO);
    receive(&mut session, &terms(&greeting)).unwrap();
    session.proceed().unwrap();
    assert_eq!(session.due_in(), IDLE_TICK);
    pass(&mut session, Duration::from_millis(249));
    session.proceed().unwrap();
    assert_eq!(session.due_in(), MILLISECOND);
    let read = session.state().read(0..9);
    session.proceed().unwrap();
    assert_eq!(session.due_in(), crate::client::state::BUSY_TICK);
    assert_eq!(session.give_up(read.id), ErrorKind::TimedOut);
    assert_eq!(session.due_in(), IDLE_TICK);
}

#[test]
fn a_silent_server_is_asked_and_left_for_the_next_one() {
    let mut session = session("unix:one,unix:two");
    let greeting = connect(&mut session);
    receive(&mut session, &terms(&greeting)).unwrap();
    session.proceed().unwrap();
    sent_by(&mut session);
    pass(&mut session, Duration::from_millis(250));
    session.proceed().unwrap();
    let asks = sent_by(&mut session);
    assert!(asks.iter().any(|frame| FromClient::read(frame) == Some(FromClient::Hello(None))));
    pass(&mut session, Duration::from_millis(750));
    let end = session.proceed().unwrap_err();
    assert_eq!(end.kind(), io::ErrorKind::TimedOut);
    assert_eq!(session.address().to_string(), "unix:one");
    session.disconnected(end);
    assert_eq!(session.address().to_string(), "unix:two");
}

#[test]
fn the_connection_ends_with_the_lease() {
    let mut session = session("unix:nowhere");
    let greeting = connect(&mut session);
    receive(&mut session, &terms(&greeting)).unwrap();
    session.proceed().unwrap();
    pass(&mut session, LEASE);
    receive(&mut session, &[]).unwrap();
    assert!(session.proceed().unwrap_err().to_string().contains("lease"));
    assert!(session.has_to_begin_again());
    session.disconnected(io::ErrorKind::Other.into());
    session.begin_again(ClientHandle::open_after(1, 2, Older::IsOver(1)).unwrap());
    assert!(!session.has_to_begin_again());
}

#[test]
fn the_hello_of_another_version_ends_the_connection() {
    let mut session = session("unix:one");
    connect(&mut session);
    let ended = receive(&mut session, &refused(Refusal::Version { read: 3 })).unwrap_err();
    assert!(ended.to_string().contains("speaks version 3 of the protocol"), "{ended}");
    let read = session.state().read(0..9);
    for _ in 0..2 {
        session.disconnected(Rejection::OtherVersion(3).into());
    }
    let expected = ErrorKind::Unserved(Refusal::Version { read: 3 });
    assert_eq!(read.answer.try_recv(), Ok(Err(expected)));
}

#[test]
fn all_jobs_end_when_the_only_server_has_rejected_this_side_twice() {
    let reject =
        |session: &mut Session| session.disconnected(Rejection::NotTaken("no".into()).into());
    let mut alone = session("unix:one");
    let read = alone.state().read(0..9);
    let watched = alone.state().watch(0..9, Vec::new());
    assert_eq!(watched.answer.try_recv(), Ok(Ok(())), "it knows nothing of the range");
    reject(&mut alone);
    assert!(read.answer.try_recv().is_err(), "one may be a proxy's mistake");
    reject(&mut alone);
    assert_eq!(read.answer.try_recv(), Ok(Err(ErrorKind::TurnedAway)));
    let later = alone.state().read(0..9);
    alone.end_hopeless();
    assert_eq!(later.answer.try_recv(), Ok(Err(ErrorKind::TurnedAway)));
    let mut among_two = session("unix:one,unix:two");
    let read = among_two.state().read(0..9);
    for _ in 0..5 {
        reject(&mut among_two);
    }
    assert!(read.answer.try_recv().is_err());
}

/// What a web server answers to a greeting.
const OF_HTTP: &[u8] = b"HTTP/1.1 400 Bad Request\r\nconnection: close\r\n\r\n";

/// A connection that receives this and then ends with what was wrong with it.
fn receive_and_end(session: &mut Session, sent: &[u8]) -> String {
    connect(session);
    let end = receive(session, sent).unwrap_err();
    let why = end.to_string();
    session.disconnected(end);
    why
}

#[test]
fn who_joins_gives_up_when_another_program_has_answered_twice_at_the_only_address() {
    for (servers, gives_up) in [("unix:one", true), ("unix:one,unix:two", false)] {
        let mut session = session(servers);
        let asked = session.join(Box::new(|_, _| false));
        let why = receive_and_end(&mut session, OF_HTTP);
        assert!(why.contains("what answers at unix:one is not a krl server"), "{why}");
        connect(&mut session);
        session.disconnected(io::ErrorKind::ConnectionReset.into());
        receive_and_end(&mut session, OF_HTTP);
        assert!(asked.answer.try_recv().is_err(), "one may be a proxy's mistake");
        receive_and_end(&mut session, OF_HTTP);
        assert_eq!(asked.answer.try_recv() == Ok(Err(ErrorKind::TimedOut)), gives_up, "{servers}");
    }
}

#[test]
fn a_client_that_has_joined_waits_for_its_server_whatever_else_answers_there() {
    let mut session = session("unix:one");
    let read = session.state().read(0..9);
    for _ in 0..5 {
        receive_and_end(&mut session, OF_HTTP);
    }
    assert!(read.answer.try_recv().is_err());
    let after_a_frame = [&terms(&connect(&mut session)), OF_HTTP].concat();
    let end = receive(&mut session, &after_a_frame).unwrap_err().to_string();
    assert!(end.contains("the server sent a message that no krl server sends"), "{end}");
}

/// An attempt to connect that is refused, and the pause after it.
fn refuse_connect(session: &mut Session) {
    let refused = NothingListens(io::ErrorKind::ConnectionRefused.into());
    let pause = session.disconnected(refused.into());
    pass(session, pause);
}

#[test]
fn who_joins_gives_up_when_the_only_address_has_refused_for_a_second() {
    let mut session = session("unix:one");
    let asked = session.join(Box::new(|_, _| false));
    let end = session.now() + Duration::from_secs(1);
    while session.now() < end {
        refuse_connect(&mut session);
        assert!(asked.answer.try_recv().is_err(), "too early");
    }
    assert_eq!(session.now(), end, "an attempt finds a server that listens by now");
    refuse_connect(&mut session);
    assert_eq!(asked.answer.try_recv(), Ok(Err(ErrorKind::TimedOut)));
    let why = session.take_nothing_listens().map(|error| error.kind());
    assert_eq!(why, Some(io::ErrorKind::ConnectionRefused));
    assert!(session.now() > end, "the pauses are those of the backoff again");
}

#[test]
fn who_joins_waits_if_its_address_does_anything_but_refuse() {
    let mut session = session("unix:one");
    let asked = session.join(Box::new(|_, _| false));
    for _ in 0..9 {
        refuse_connect(&mut session);
        session.disconnected(io::ErrorKind::TimedOut.into());
        pass(&mut session, Duration::from_secs(1));
    }
    connect(&mut session);
    refuse_connect(&mut session);
    assert!(asked.answer.try_recv().is_err());
    assert!(session.take_nothing_listens().is_none());
}

/// Servers that stand by refuse connections until one of them has taken over.
#[test]
fn who_joins_waits_for_one_of_several_servers() {
    let mut session = session("unix:one,unix:two");
    let asked = session.join(Box::new(|_, _| false));
    let end = session.now() + Duration::from_secs(9);
    while session.now() < end {
        refuse_connect(&mut session);
    }
    assert!(asked.answer.try_recv().is_err());
    assert!(session.take_nothing_listens().is_none());
}

#[test]
fn a_client_that_has_joined_waits_for_a_server_that_refuses() {
    let mut session = session("unix:one");
    let asked = session.join(Box::new(|_, _| false));
    session.state().refuse(asked.id, ErrorKind::Left);
    let read = session.state().read(0..9);
    let end = session.now() + Duration::from_secs(60);
    let mut attempts = 0;
    while session.now() < end && attempts < 80 {
        refuse_connect(&mut session);
        attempts += 1;
    }
    assert!(read.answer.try_recv().is_err() && attempts < 80, "{attempts}");
    assert!(session.take_nothing_listens().is_none());
}

/// Ends two connections since the server is of another shard.
fn reject_twice(session: &mut Session) {
    for _ in 0..2 {
        connect(session);
        session.disconnected(OtherShard { expected: None, served: None }.into());
    }
}

#[test]
fn only_a_client_that_follows_its_map_waits_for_a_server_of_another_shard() {
    let other = OtherShard { expected: None, served: None };
    for follows in [false, true] {
        let mut session = session("unix:one");
        if follows {
            session.follow_map();
        }
        let read = session.state().read(0..9);
        reject_twice(&mut session);
        let answer = read.answer.try_recv();
        assert_eq!(answer.is_err(), follows, "{answer:?}");
        assert_eq!(session.give_up(read.id), ErrorKind::OtherShard(other), "so it was not in time");
    }
}

#[test]
fn a_client_of_a_shard_that_has_just_changed_connects_again_soon_for_a_while() {
    let mut session = session("unix:one");
    session.follow_map();
    let end = session.now() + HURRY;
    while session.now() < end {
        let pause = session.disconnected(io::ErrorKind::ConnectionRefused.into());
        assert!(pause <= SOON, "{pause:?}");
        pass(&mut session, pause.max(Duration::from_millis(1)));
    }
    let pause = session.disconnected(io::ErrorKind::ConnectionRefused.into());
    assert!(pause > SOON, "{pause:?}");
}

/// Why a job ends that was sent or not, if the last connection ended with this.
fn ended(fault: io::Error, was_sent: WasSent) -> ErrorKind {
    let mut session = session("unix:nowhere");
    session.disconnected(fault);
    session.unanswered(was_sent)
}

#[test]
fn a_write_that_was_sent_may_be_applied_whatever_rejects_the_client() {
    let not_taken = || Rejection::NotTaken("the certificate has expired".into()).into();
    let other = OtherShard { expected: None, served: None };
    assert_eq!(ended(not_taken(), WasSent::No), ErrorKind::TurnedAway);
    assert_eq!(ended(other.into(), WasSent::No), ErrorKind::OtherShard(other));
    let version = ErrorKind::Unserved(Refusal::Version { read: 1 });
    assert_eq!(ended(Rejection::OtherVersion(1).into(), WasSent::No), version);
    for fault in [not_taken(), other.into(), Rejection::OtherVersion(1).into()] {
        let refused = ended(fault, WasSent::Yes);
        assert!(refused.is_unknown_outcome(), "{refused:?}");
    }
}

#[test]
fn how_a_connection_ended_is_known_until_the_server_answers_on_another_one() {
    let mut session = session("unix:nowhere");
    assert!(!session.is_connected());
    connect(&mut session);
    session.disconnected(io::ErrorKind::ConnectionReset.into());
    assert!(!session.is_connected());
    connect(&mut session);
    assert!(session.is_connected());
    let fault = session.take_fault().map(|fault| fault.kind());
    assert_eq!(fault, Some(io::ErrorKind::ConnectionReset), "the server has not answered yet");
    session.disconnected(io::ErrorKind::ConnectionReset.into());
    let greeting = connect(&mut session);
    receive(&mut session, &terms(&greeting)).unwrap();
    assert!(session.take_fault().is_none(), "the server takes the client");
}

#[test]
fn who_joins_gives_up_for_a_reason_as_soon_as_it_may() {
    let runs = Refusal::LeaseRuns { client: 1, registered: 7 };
    let mut session = session("unix:nowhere");
    let patience = session.now() + Duration::from_secs(1);
    let asked = session.join(Box::new(move |refusal, now| refusal == runs && now >= patience));
    connect(&mut session);
    receive(&mut session, &refused(Refusal::Full { connections: 9 })).unwrap();
    receive(&mut session, &refused(runs)).unwrap();
    session.proceed().unwrap();
    assert!(asked.answer.try_recv().is_err(), "too early");
    pass(&mut session, Duration::from_millis(999));
    session.proceed().unwrap();
    assert_eq!(asked.answer.try_recv(), Ok(Err(ErrorKind::Unserved(runs))));
}

#[test]
fn an_old_report_of_a_server_is_no_reason() {
    let mut session = session("unix:nowhere");
    let read = session.state().read(0..9);
    connect(&mut session);
    let full = Refusal::Full { connections: 9 };
    receive(&mut session, &refused(full)).unwrap();
    let next = session.state().read(0..9);
    assert_eq!(session.give_up(read.id), ErrorKind::Unserved(full));
    pass(&mut session, HINT);
    assert_eq!(session.give_up(next.id), ErrorKind::TimedOut);
}

#[test]
fn a_server_of_an_older_epoch_is_left_if_there_are_others() {
    let of_epoch = |epoch: u64| {
        let numbers = [1, 1, epoch, 0, 11].map(u64::to_le_bytes);
        let message =
            [&[1, crate::wire::message::kind::CALLBACK][..], numbers.as_flattened()].concat();
        Message::read(&message).epoch().map(|_| message).unwrap()
    };
    for (servers, leaves) in [("unix:one,unix:two", true), ("unix:one", false)] {
        let mut session = session(servers);
        let compare =
            |session: &mut Session, epoch| session.compare_epochs(Message::read(&of_epoch(epoch)));
        assert!(compare(&mut session, 2).is_ok() && compare(&mut session, 2).is_ok());
        assert_eq!(compare(&mut session, 1).is_err(), leaves, "{servers}");
        assert!(compare(&mut session, 3).is_ok());
    }
}
