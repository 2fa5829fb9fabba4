//! Certificates, users and strangers.
mod secure;

use krl::error::Refusal;
use krl::operate::evict;
use krl::{
    Access, Address, Client, ErrorKind, Identity, JoinErrorKind, Listener, MemoryStore, Outcome,
    Reader, Server, Servers, Shard, ShardMap, TlsConfig, Value,
};
use openssl::ssl::SslVersion;
use openssl::ssl::{SslConnector, SslConnectorBuilder, SslFiletype, SslMethod, SslVerifyMode};
use secure::{Setup, at, serve, serve_with, servers, settled};
use std::io::{Read, Write};
use std::net::{SocketAddr, TcpListener, TcpStream};
use std::sync::{Arc, Mutex};
use std::thread;
use std::time::{Duration, Instant};

/// Shorter than the timeout of a client that joins.
const AT_ONCE: Duration = Duration::from_secs(4);

#[test]
fn a_client_sends_its_own_numbers_and_no_other() {
    let setup = Setup::new("numbers");
    let server = serve(&setup);
    let three = setup.config(&["krl:client:3"]);
    let client = setup.join(&server, &three, 3).unwrap();
    assert_eq!(client.insert(10, Value::from(1)), Ok(Outcome::Applied));
    assert_eq!(client.read(0..100).unwrap().len(), 1);
    assert_eq!(server.status().denied, 0);

    let (begun, taken) = (Instant::now(), server.status().taken);
    let error = setup.join(&server, &three, 4).unwrap_err();
    assert!(matches!(&error.kind, JoinErrorKind::TurnedAway(_)), "{error}");
    assert!(begun.elapsed() < AT_ONCE, "{:?}", begun.elapsed());
    assert!(error.to_string().contains("no right to the client's number"), "{error}");
    let status = settled(&server);
    assert!(status.denied > 0 && !status.connected.contains(&4));
    assert!(status.taken < taken + 20, "only the ticks of client 3 were taken");
    assert_eq!(client.read(0..100).unwrap().len(), 1);
}

#[test]
fn of_several_numbers_one_of_the_certificate_is_taken() {
    let setup = Setup::new("several");
    let server = serve(&setup);
    let (three, of_none) = (setup.config(&["krl:client:3"]), setup.config(&["krl:reader"]));
    let builder = |shown: &TlsConfig| {
        Client::builder_with_numbers(servers(&server, shown), 0..64, &setup.folder)
    };
    assert_eq!(builder(&three).join().unwrap().number(), 3);
    let error = builder(&of_none).join().unwrap_err();
    assert_eq!(error.number, Some(0), "{error}");
}

#[test]
fn a_plain_client_of_a_port_of_tls_is_answered_that_it_is_one() {
    let setup = Setup::new("plain-client");
    let server = serve(&setup);
    let plain = server.address().to_string().replace("tls:", "");
    let plain = || plain.parse::<Servers>().unwrap();
    let begun = Instant::now();
    let error = Client::join(plain(), 3, setup.lock(3)).unwrap_err();
    assert!(error.to_string().contains("takes connections over TLS only"), "{error}");
    let error = Reader::new(plain()).connect(..).unwrap_err();
    assert!(error.to_string().contains("takes connections over TLS only"), "{error}");
    assert!(begun.elapsed() < AT_ONCE, "{:?}", begun.elapsed());
}

#[test]
fn a_client_of_a_map_shows_its_certificate_to_each_server() {
    let setup = Setup::new("map");
    let servers = [serve(&setup), serve(&setup)];
    let shard = |(first, server): (u64, &Server)| Shard::new(first, server.address());
    let map = ShardMap::new([0, 100].into_iter().zip(&servers).map(shard).collect()).unwrap();
    let builder = Client::builder(&map, 3, &setup.folder);
    let client = builder.tls(setup.config(&["krl:client:3"])).join().unwrap();
    for key in [99, 100] {
        assert_eq!(client.insert(key, Value::from(key)), Ok(Outcome::Applied));
    }
    assert_eq!(client.read(..).unwrap().len(), 2);
}

#[test]
fn a_peer_without_a_certificate_is_rejected_at_once_and_sends_nothing() {
    let (setup, theirs) = (Setup::new("who"), Setup::new("who-else"));
    let server = serve(&setup);
    let strangers = [
        ("another authority", setup.believing(&theirs, &["krl:client:6"], 5)),
        ("an expired certificate", setup.config_for(&["krl:client:6"], -1)),
        ("no name", setup.config(&[])),
        ("another name", setup.config(&["https://example.org"])),
        ("another table", setup.config(&["krl:client:6@orders"])),
        ("a server's certificate", setup.config(&["krl:server"])),
    ];
    for (what, config) in strangers {
        let begun = Instant::now();
        let error = setup.join(&server, &config, 6).unwrap_err();
        assert!(matches!(error.kind, JoinErrorKind::TurnedAway(_)), "{what}: {error}");
        assert!(begun.elapsed() < AT_ONCE, "{what}: {:?}", begun.elapsed());
        let is_of_names = error.to_string().contains("it has no name that counts there");
        let has_authority = !what.ends_with("authority") && !what.ends_with("expired certificate");
        assert_eq!(is_of_names, has_authority, "{what}: {error}");
    }
    let none = Client::builder(server.address(), 6, setup.lock(6)).join();
    let error = none.unwrap_err();
    assert!(matches!(error.kind, JoinErrorKind::TurnedAway(_)), "no certificate: {error}");
    // Users of programs that have it choose no features of cargo.
    assert!(error.to_string().ends_with("its key, and that of the authority"), "{error}");
    let status = settled(&server);
    assert_eq!((status.taken, status.changes), (0, 0));
}

#[test]
fn a_client_sends_to_no_server_but_its_own() {
    let (setup, theirs) = (Setup::new("server"), Setup::new("server-else"));
    let six = setup.config(&["krl:client:6"]);
    let impostors = [
        ("a server of another authority", setup.believing(&theirs, &["krl:server"], 5)),
        ("a client as a server", setup.config(&["krl:client:6"])),
        ("a server of another table", setup.config(&["krl:server@orders"])),
        ("an expired server", setup.config_for(&["krl:server"], -1)),
    ];
    for (what, shown) in impostors {
        let server = serve_with(&shown);
        let error = setup.join(&server, &six, 6).unwrap_err();
        assert!(matches!(error.kind, JoinErrorKind::TurnedAway(_)), "{what}: {error}");
        assert_eq!(settled(&server).taken, 0, "{what}");
    }
}

#[test]
fn an_operator_ends_clients_and_does_no_more() {
    let setup = Setup::new("operator");
    let server = serve(&setup);
    let operator = setup.config(&["krl:operator"]);
    // A client that is gone without a Bye.
    std::mem::forget(setup.join(&server, &setup.config(&["krl:client:3"]), 3).unwrap());
    let working = setup.join(&server, &operator, 9).unwrap();
    assert_eq!(working.read(0..10), Err(ErrorKind::TurnedAway.into()));
    drop(working);
    evict(servers(&server, &operator), 3, setup.folder.join("3-elsewhere.lock")).unwrap();
    let five = servers(&server, &setup.config(&["krl:client:5"]));
    assert!(evict(&five, 4, setup.lock(4)).is_err());
}

#[test]
fn a_full_server_reports_so_and_waits_for_no_stranger() {
    let setup = Setup::new("full");
    let listener = Listener::bind(&"tls:127.0.0.1:0".parse().unwrap()).unwrap();
    let access = Access::new().tls(setup.config(&["krl:server"]));
    let server = Server::builder(listener, MemoryStore::default()).access(access);
    let server = server.max_connections(1).start().unwrap();
    let _first = setup.join(&server, &setup.config(&["krl:client:3"]), 3).unwrap();
    let four = servers(&server, &setup.config(&["krl:client:4"]));
    let second = Client::builder(four, 4, setup.lock(4)).timeout(Duration::from_secs(5));
    let full = Refusal::Full { connections: 1 };
    let refused = second.join().unwrap_err();
    assert!(matches!(refused.kind, JoinErrorKind::Unserved(why) if why == full), "{refused:?}");
    // One that has shown its certificate and sends nothing is closed as a stranger is.
    let connector = credulous(&setup, Some(&["krl:client:5"])).build();
    let begun = Instant::now();
    let stream = TcpStream::connect(at(&server)).unwrap();
    let mut silent = connector.connect("localhost", stream).unwrap();
    assert_eq!(silent.read(&mut [0]).unwrap_or(0), 0);
    assert!(begun.elapsed() < Duration::from_secs(20), "{:?}", begun.elapsed());
}

#[test]
fn only_names_of_the_table_count() {
    let setup = Setup::new("table");
    let orders = |names: &[&str]| setup.config(names).for_table("orders".parse().unwrap());
    let server = serve_with(&orders(&["krl:server@orders"]));
    let client = setup.join(&server, &orders(&["krl:client:3@orders"]), 3).unwrap();
    assert_eq!(client.insert(10, Value::from(1)), Ok(Outcome::Applied));
    for names in [["krl:client:4"], ["krl:client:4@stock"]] {
        assert!(setup.join(&server, &orders(&names), 4).is_err(), "{names:?}");
    }
    assert!(setup.join(&server, &setup.config(&["krl:client:4@orders"]), 4).is_err());
}

/// TLS that believes every server, and shows this certificate.
fn credulous(setup: &Setup, names: Option<&[&str]>) -> SslConnectorBuilder {
    let mut connector = SslConnector::builder(SslMethod::tls()).unwrap();
    connector.set_verify(SslVerifyMode::NONE);
    if let Some(names) = names {
        let files = setup.certify(names);
        connector.set_certificate_chain_file(files.certificate).unwrap();
        connector.set_private_key_file(files.key, SslFiletype::PEM).unwrap();
    }
    connector
}

/// What a peer receives that sends this by TLS, if its handshake succeeds.
fn received_by_tls(connector: SslConnectorBuilder, at: SocketAddr, request: &[u8]) -> Vec<u8> {
    let stream = TcpStream::connect(at).unwrap();
    stream.set_read_timeout(Some(AT_ONCE)).unwrap();
    let mut received = Vec::new();
    if let Ok(mut tls) = connector.build().connect("krl", stream) {
        let _ = tls.write_all(request);
        let _ = tls.read_to_end(&mut received);
    }
    received
}

#[test]
fn tls_of_another_kind_and_what_is_no_tls_are_refused() {
    let setup = Setup::new("kind");
    let server = serve(&setup);
    let at = at(&server);
    let host_hello = [3, 0, 0, 0, 0, 0, 0, 0, 0, 0, 4];
    let hello = [18, 0, 0, 0, 0, 0, 0, 0, 1, 0, 3, 0, 0, 0, 0, 0, 0, 0, 1, 0, 0, 0, 0, 0, 0, 0];
    let hello = [&host_hello[..], &hello].concat();
    assert!(received_by_tls(credulous(&setup, None), at, &hello).is_empty(), "no certificate");
    let mut old = credulous(&setup, Some(&["krl:client:3"]));
    old.set_max_proto_version(Some(SslVersion::TLS1_2)).unwrap();
    assert!(received_by_tls(old, at, &hello).is_empty(), "TLS 1.2");
    let mut stream = TcpStream::connect(at).unwrap();
    stream.set_read_timeout(Some(AT_ONCE)).unwrap();
    stream.write_all(&hello).unwrap();
    let mut received = Vec::new();
    let _ = stream.read_to_end(&mut received);
    assert!(received.len() < 32, "an alert at most: {received:?}");
    assert_eq!(settled(&server).taken, 0);
    // The same bytes by the right TLS are taken: they are answered by nothing for a while.
    let mut right = credulous(&setup, Some(&["krl:client:3"])).build();
    let mut tls = right_connect(&mut right, at);
    tls.write_all(&hello).unwrap();
    let end = Instant::now() + AT_ONCE;
    while server.status().taken == 0 && Instant::now() < end {
        thread::sleep(Duration::from_millis(5));
    }
    assert_eq!(server.status().taken, 1);
}

fn right_connect(
    connector: &mut SslConnector,
    at: SocketAddr,
) -> openssl::ssl::SslStream<TcpStream> {
    connector.connect("krl", TcpStream::connect(at).unwrap()).unwrap()
}

type Recorded = Arc<Mutex<Vec<Vec<u8>>>>;

/// Passes connections on, and notes what each client sends.
fn eavesdrop(server: SocketAddr) -> (SocketAddr, Recorded) {
    let listener = TcpListener::bind("127.0.0.1:0").unwrap();
    let at = listener.local_addr().unwrap();
    let recorded = Recorded::default();
    let noted = Arc::clone(&recorded);
    thread::spawn(move || {
        for client in listener.incoming().flatten() {
            let place = noted.lock().unwrap().len();
            noted.lock().unwrap().push(Vec::new());
            pass_on(client, server, place, &noted);
        }
    });
    (at, recorded)
}

fn pass_on(mut client: TcpStream, server: SocketAddr, place: usize, noted: &Recorded) {
    let mut server = TcpStream::connect(server).unwrap();
    let (mut from, mut to) = (server.try_clone().unwrap(), client.try_clone().unwrap());
    thread::spawn(move || std::io::copy(&mut from, &mut to));
    let noted = Arc::clone(noted);
    thread::spawn(move || {
        let mut bytes = [0; 4096];
        while let Ok(count @ 1..) = client.read(&mut bytes) {
            noted.lock().unwrap()[place].extend(&bytes[..count]);
            if server.write_all(&bytes[..count]).is_err() {
                break;
            }
        }
    });
}

#[test]
fn what_is_replayed_is_no_message() {
    let setup = Setup::new("replay");
    let server = serve(&setup);
    let (between, recorded) = eavesdrop(at(&server));
    let servers = krl::Servers::from(Address::Tls(between));
    let servers = servers.with_tls(setup.config(&["krl:client:3"]));
    let client = Client::join(&servers, 3, setup.lock(3)).unwrap();
    assert_eq!(
        client.insert(10, Value::try_from("a value that nobody sees").unwrap()),
        Ok(Outcome::Applied)
    );
    client.leave().unwrap();
    let before = settled(&server);
    let recorded = recorded.lock().unwrap().clone();
    assert!(recorded.iter().map(Vec::len).sum::<usize>() > 500);
    for bytes in &recorded {
        assert!(!bytes.windows(5).any(|window| window == b"value"), "it was encrypted");
        for place in [at(&server), at(&server), between] {
            let mut stream = TcpStream::connect(place).unwrap();
            stream.set_read_timeout(Some(Duration::from_millis(500))).unwrap();
            let _ = stream.write_all(bytes);
            let _ = stream.write_all(bytes);
            let _ = stream.read_to_end(&mut Vec::new());
        }
    }
    let after = settled(&server);
    assert_eq!((after.taken, after.changes), (before.taken, before.changes));
}

#[test]
fn idle_strangers_keep_nobody_out() {
    let setup = Setup::new("idle");
    let server = serve(&setup);
    let [one, two] = [1, 2].map(|number| setup.config(&[&format!("krl:client:{number}")]));
    let client = setup.join(&server, &one, 1).unwrap();
    let strangers: Vec<_> = (0..300).map(|_| TcpStream::connect(at(&server)).unwrap()).collect();
    let begun = Instant::now();
    let other = setup.join(&server, &two, 2).unwrap();
    println!("with 300 idle connections a client joined in {:?}", begun.elapsed());
    for key in 0..100 {
        assert_eq!(client.insert(key, Value::from(key)), Ok(Outcome::Applied));
        assert_eq!(other.read(0..=key).unwrap().len() as u64, key + 1);
    }
    let is_open = |stream: &&TcpStream| {
        stream.set_read_timeout(Some(Duration::from_millis(1))).unwrap();
        !matches!((&mut &**stream).read(&mut [0; 8]), Ok(0))
    };
    let open = strangers.iter().filter(is_open).count();
    println!("of the 300, {open} were open still");
    assert!(open <= 64);
}

#[test]
fn a_peer_that_sends_a_byte_now_and_then_is_rejected_by_the_deadline() {
    let setup = Setup::new("slow");
    let server = serve(&setup);
    // The head of a record of a handshake, whose rest never comes.
    let mut stream = TcpStream::connect(at(&server)).unwrap();
    stream.set_read_timeout(Some(Duration::from_millis(300))).unwrap();
    stream.write_all(&[22, 3, 1, 0x10, 0, 1]).unwrap();
    let begun = Instant::now();
    while !matches!(stream.read(&mut [0; 8]), Ok(0)) && begun.elapsed() < Duration::from_secs(20) {
        let _ = stream.write_all(&[0]);
    }
    println!("one that sends a byte at a time was turned away after {:?}", begun.elapsed());
    assert!(begun.elapsed() > Duration::from_secs(4), "not by a bad record");
    assert!(begun.elapsed() < Duration::from_secs(8));
    // What a server shows of itself may be some milliseconds old.
    while server.status().connections > 0 {
        assert!(begun.elapsed() < Duration::from_secs(20), "the connection stands");
        thread::sleep(Duration::from_millis(1));
    }
}

#[test]
fn an_identity_has_four_connections_and_the_oldest_goes() {
    let setup = Setup::new("four");
    let server = serve(&setup);
    let connector = credulous(&setup, Some(&["krl:client:3"])).build();
    let mut streams: Vec<_> = (0..6)
        .map(|_| connector.connect("krl", TcpStream::connect(at(&server)).unwrap()).unwrap())
        .collect();
    let end = Instant::now() + AT_ONCE;
    while server.status().connections != 4 && Instant::now() < end {
        thread::sleep(Duration::from_millis(20));
    }
    assert_eq!(server.status().connections, 4);
    for (place, stream) in streams.iter_mut().enumerate() {
        stream.get_ref().set_read_timeout(Some(Duration::from_millis(100))).unwrap();
        let is_ended = !matches!(
            stream.ssl_read(&mut [0; 8]),
            Err(error) if error.io_error().is_some_and(is_silence)
        );
        assert_eq!(is_ended, place < 2, "connection {place}");
    }
}

fn is_silence(error: &std::io::Error) -> bool {
    matches!(error.kind(), std::io::ErrorKind::WouldBlock | std::io::ErrorKind::TimedOut)
}

#[test]
fn a_server_shows_a_new_certificate_to_who_comes_then() {
    let setup = Setup::new("reload");
    let files = setup.certify(&["krl:server"]);
    let shown = TlsConfig::from_files(&files.authority, &files.certificate, &files.key).unwrap();
    let server = serve_with(&shown);
    let client = setup.join(&server, &setup.config(&["krl:client:1"]), 1).unwrap();
    let other = setup.certify(&["krl:server@orders"]);
    std::fs::copy(&other.certificate, &files.certificate).unwrap();
    assert!(shown.reload().is_err());
    drop(setup.join(&server, &setup.config(&["krl:client:2"]), 2).unwrap());
    std::fs::copy(&other.key, &files.key).unwrap();
    shown.reload().unwrap();
    let error = setup.join(&server, &setup.config(&["krl:client:2"]), 2).unwrap_err();
    assert!(matches!(error.kind, JoinErrorKind::TurnedAway(_)), "{error}");
    assert_eq!(client.insert(1, Value::from(1)), Ok(Outcome::Applied), "open connections continue");
}

#[test]
fn a_server_listens_over_plain_tcp_only_on_the_loopback() {
    let beyond = || Listener::bind(&"plain:0.0.0.0:0".parse().unwrap()).unwrap();
    let refused = Server::start(beyond(), MemoryStore::default()).unwrap_err();
    assert!(refused.to_string().contains("beyond the loopback"), "{refused}");
    let access = Access::new().allow_plain_beyond_loopback();
    let server = Server::builder(beyond(), MemoryStore::default()).access(access);
    server.start().unwrap();
    let tls = Listener::bind(&"tls:127.0.0.1:0".parse().unwrap()).unwrap();
    let refused = Server::start(tls, MemoryStore::default()).unwrap_err();
    assert!(refused.to_string().contains("needs a certificate"), "{refused}");
}

#[test]
fn the_own_user_sends_for_any_client_over_a_unix_socket() {
    let setup = Setup::new("unix");
    let listener = Listener::bind(&Address::Unix(setup.folder.join("socket"))).unwrap();
    let access = Access::new().user(65534, "3".parse::<Identity>().unwrap());
    let server = Server::builder(listener, MemoryStore::default()).access(access).start().unwrap();
    let client = Client::join(server.address(), 5, setup.lock(5)).unwrap();
    assert_eq!(client.insert(1, Value::from(1)), Ok(Outcome::Applied));
}
