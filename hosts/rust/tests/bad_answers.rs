//! Connections on which something comes that no server sends, or that one side rejects: what a
//! client makes of one of them, and of several.
mod secure;

use krl::{
    Address, Client, ClientBuilder, ErrorKind, JoinErrorKind, Listener, MemoryStore, Outcome,
    Server, TlsConfig, Value,
};
use krl_testing::relay::{Plan, Relay};
use secure::{Setup, at, serve};
use std::path::Path;
use std::thread;
use std::time::{Duration, Instant};

/// No wait of a test is longer.
const LONG: Duration = Duration::from_secs(30);

/// Much shorter than that, and long on a busy machine.
const SOON: Duration = Duration::from_secs(10);

/// What a proxy answers whose server is away.
const UNAVAILABLE: Plan =
    Plan::Answer(b"HTTP/1.1 503 Service Unavailable\r\nContent-Length: 0\r\n\r\n");

fn builder(relay: &Relay, config: TlsConfig, setup: &Setup) -> ClientBuilder {
    let builder = Client::builder(Address::Tls(relay.at()), 5, setup.lock(5));
    builder.tls(config).timeout(LONG)
}

fn wait_for(what: &str, mut is_so: impl FnMut() -> bool) {
    let end = Instant::now() + LONG;
    while !is_so() {
        assert!(Instant::now() < end, "{what}: not within {LONG:?}");
        thread::sleep(Duration::from_millis(5));
    }
}

/// A client that holds the row of a key, so that a write of it is sent at once, and loses what is
/// answered from now on.
fn loses_answers(builder: ClientBuilder, relay: &Relay) -> Client {
    let client = builder.join().unwrap();
    assert_eq!(client.insert(7, Value::from(1)), Ok(Outcome::Applied));
    assert_eq!(client.put(7, Value::from(2)), Ok(Outcome::Applied));
    relay.lose_answers();
    client
}

/// Waits until the row has this value.
fn wait_for_value(server: &Server, value: u64) {
    wait_for("the write is applied", || {
        let rows = server.monitor().snapshot().unwrap().rows;
        rows.get(&7) == Some(&Value::from(value))
    });
}

#[test]
fn a_client_joins_and_reads_after_one_bad_answer() {
    let setup = Setup::new("bad-once");
    let server = serve(&setup);
    let relay = Relay::to(at(&server));
    relay.plan([UNAVAILABLE]);
    let client = builder(&relay, setup.config(&["krl:client:5"]), &setup).join().unwrap();
    assert_eq!(client.read(0..10), Ok(vec![]));
    assert_eq!(relay.count(), 2);
    relay.plan([UNAVAILABLE, UNAVAILABLE, UNAVAILABLE]);
    relay.end();
    assert_eq!(client.read(20..30), Ok(vec![]));
}

#[test]
fn bad_answers_by_themselves_reject_nobody() {
    let setup = Setup::new("bad-always");
    let server = serve(&setup);
    let relay = Relay::to(at(&server));
    relay.plan(vec![UNAVAILABLE; 1000]);
    let builder = builder(&relay, setup.config(&["krl:client:5"]), &setup);
    let error = builder.timeout(Duration::from_secs(1)).join().unwrap_err();
    assert!(matches!(error.kind, JoinErrorKind::NoAnswer { fault: Some(_), .. }), "{error:?}");
}

#[test]
fn a_client_that_joins_another_program_learns_it_at_once() {
    let setup = Setup::new("bad-program");
    let listener = Listener::bind(&"127.0.0.1:0".parse().unwrap()).unwrap();
    let server = Server::builder(listener, MemoryStore::default()).start().unwrap();
    let Address::Tcp(server_at) = server.address() else { panic!("{:?}", server.address()) };
    let relay = Relay::to(*server_at);
    // The client may make a third connection before it is dropped.
    relay.plan(vec![UNAVAILABLE; 1000]);
    let at = Address::Tcp(relay.at());
    let builder = |at: &Address| Client::builder(at.clone(), 5, setup.lock(5)).timeout(LONG);
    let begun = Instant::now();
    let error = builder(&at).join().unwrap_err();
    assert!(begun.elapsed() < SOON, "{:?}", begun.elapsed());
    assert!(
        matches!(&error.kind, JoinErrorKind::NoServer { address } if *address == at),
        "{error:?}"
    );
    let sentence = format!("what answers at {at} is not a krl server");
    assert!(error.to_string().starts_with(&sentence), "{error}");
    wait_for("two connections are counted", || relay.count() >= 2);
    let relay = Relay::to(*server_at);
    relay.plan([UNAVAILABLE]);
    let client = builder(&Address::Tcp(relay.at())).join().unwrap();
    relay.plan(vec![UNAVAILABLE; 3]);
    relay.end();
    assert_eq!(client.read(20..30), Ok(vec![]), "a client that has joined waits for its server");
    assert_eq!(relay.count(), 6);
}

#[test]
fn a_write_whose_answer_is_lost_is_answered_after_a_bad_answer() {
    let setup = Setup::new("bad-write");
    let server = serve(&setup);
    let relay = Relay::to(at(&server));
    let builder = builder(&relay, setup.config(&["krl:client:5"]), &setup);
    let client = loses_answers(builder, &relay);
    thread::scope(|scope| {
        let written = scope.spawn(|| client.put(7, Value::from(3)));
        wait_for_value(&server, 3);
        relay.plan([UNAVAILABLE]);
        relay.end();
        assert_eq!(written.join().unwrap(), Ok(Outcome::Applied));
    });
}

/// Gives the files of the client another certificate, which no server takes.
fn expire(setup: &Setup, certificate: &Path, key: &Path) {
    let expired = setup.certify_for(&["krl:client:5"], -1);
    std::fs::copy(expired.certificate, certificate).unwrap();
    std::fs::copy(expired.key, key).unwrap();
}

#[test]
fn a_rejected_client_learns_it_soon_but_for_a_write_that_was_sent() {
    let setup = Setup::new("bad-rights");
    let server = serve(&setup);
    let relay = Relay::to(at(&server));
    let files = setup.certify(&["krl:client:5"]);
    let config = TlsConfig::from_files(&files.authority, &files.certificate, &files.key).unwrap();
    let client = loses_answers(builder(&relay, config.clone(), &setup), &relay);
    let short = Duration::from_secs(4);
    client.set_timeout(short);
    let begun = Instant::now();
    thread::scope(|scope| {
        let sent = scope.spawn(|| (client.put(7, Value::from(3)), begun.elapsed()));
        wait_for_value(&server, 3);
        client.set_timeout(LONG);
        expire(&setup, &files.certificate, &files.key);
        config.reload().unwrap();
        relay.end();
        let rejected = Instant::now();
        assert_eq!(client.read(20..30), Err(ErrorKind::TurnedAway.into()));
        assert_eq!(
            client.insert(8, Value::from(1)),
            Err(ErrorKind::TurnedAway.into()),
            "it was not sent"
        );
        assert!(rejected.elapsed() < SOON, "{:?}", rejected.elapsed());
        let (outcome, took) = sent.join().unwrap();
        assert_eq!(outcome, Err(ErrorKind::TimedOut.into()), "it may be applied, and it is");
        assert!(took >= short, "{took:?}");
    });
    assert_eq!(server.status().rows, 1);
}
