//! Clients of servers that do not answer, take nothing, or end each connection.
use krl::{Client, ErrorKind, JoinError, JoinErrorKind, MemoryStore, Outcome, Server, Value};
use std::io::{Read, Write};
use std::net::{Shutdown, SocketAddr, TcpListener, TcpStream};
use std::path::PathBuf;
use std::sync::Arc;
use std::sync::atomic::{AtomicBool, Ordering};
use std::sync::mpsc::{Receiver, channel};
use std::thread;
use std::time::{Duration, Instant};

/// How much later than its deadline a call may come back on a busy machine.
const LATE: Duration = Duration::from_secs(3);

fn lock_file(name: &str) -> PathBuf {
    std::env::temp_dir().join(format!("krl-slow-{}-{name}.lock", std::process::id()))
}

/// A client that tries to join for this long, and why it does not.
fn fails_to_join(server: SocketAddr, name: &str, timeout: Duration) -> (JoinError, Duration) {
    let (lock, begun) = (lock_file(name), Instant::now());
    let client = Client::builder(server, 5, &lock).timeout(timeout);
    let joined = client.join();
    let took = begun.elapsed();
    std::fs::remove_file(lock).unwrap();
    (joined.expect_err("there is no such server"), took)
}

/// A server that takes each connection, sends this on it and ends it, and when it did.
fn ends_all(bytes: &'static [u8]) -> (SocketAddr, Receiver<Instant>) {
    let listener = TcpListener::bind("127.0.0.1:0").unwrap();
    let (address, (sender, times)) = (listener.local_addr().unwrap(), channel());
    thread::spawn(move || {
        for mut stream in listener.incoming().flatten() {
            let _ = sender.send(Instant::now());
            thread::spawn(move || {
                let _ = stream.write_all(bytes);
                let _ = stream.shutdown(Shutdown::Write);
                // A connection that ends with something unread loses what was sent on it.
                let _ = stream.read_to_end(&mut Vec::new());
            });
        }
    });
    (address, times)
}

/// A client asks a server that sends this on each connection no more than once a second.
fn is_asked_once_a_second(name: &str, bytes: &'static [u8]) {
    // Its time may be over while the last connection still is open: then nothing has failed.
    assert!((0..5).any(|_| shows_why_it_ended(name, bytes)), "no cause in five tries");
}

/// Whether a client that can't join shows why its last connection ended.
fn shows_why_it_ended(name: &str, bytes: &'static [u8]) -> bool {
    let (address, times) = ends_all(bytes);
    let (error, took) = fails_to_join(address, name, Duration::from_secs(6));
    assert!(took < Duration::from_secs(6) + LATE, "{took:?}");
    let JoinErrorKind::NoAnswer { fault: cause, .. } = error.kind else { panic!("{error:?}") };
    let times: Vec<Instant> = times.try_iter().collect();
    assert!((6..=14).contains(&times.len()), "{} connections in six seconds", times.len());
    let pauses: Vec<Duration> = times.windows(2).map(|pair| pair[1] - pair[0]).collect();
    // Each is reported a little late on a busy machine.
    assert!(pauses[pauses.len() - 2..].iter().all(|pause| pause.as_millis() >= 800), "{pauses:?}");
    cause.is_some()
}

#[test]
fn a_server_that_ends_each_connection_is_asked_once_a_second() {
    is_asked_once_a_second("closes", &[]);
}

#[test]
fn a_server_of_another_version_is_asked_once_a_second() {
    is_asked_once_a_second("version", &[2, 0, 0, 0, 0, 0, 0, 0, 2, 8]);
}

#[test]
fn a_refused_connection_is_the_cause_of_a_failed_join() {
    use std::error::Error;
    let address = TcpListener::bind("127.0.0.1:0").unwrap().local_addr().unwrap();
    let (error, _) = fails_to_join(address, "refused", Duration::from_millis(200));
    let JoinErrorKind::NoAnswer { fault: Some(cause), .. } = &error.kind else {
        panic!("{error:?}")
    };
    assert_eq!(cause.kind(), std::io::ErrorKind::ConnectionRefused);
    assert_eq!(error.source().unwrap().to_string(), cause.to_string());
}

#[test]
fn a_server_that_takes_nothing_holds_no_call_beyond_its_timeout() {
    let listener = TcpListener::bind("127.0.0.1:0").unwrap();
    let timeout = Duration::from_millis(300);
    let (error, took) = fails_to_join(listener.local_addr().unwrap(), "mute", timeout);
    assert!(matches!(error.kind, JoinErrorKind::NoAnswer { fault: None, .. }), "{error:?}");
    assert!(timeout <= took && took < timeout + LATE, "{took:?}");
    // Its host has sent Hello and a sign, and both again. It waits for terms before it sends more.
    let (mut stream, _) = listener.accept().unwrap();
    let mut received = Vec::new();
    stream.read_to_end(&mut received).unwrap();
    let (hello, sign) = ([3, 0, 0, 0, 0, 0, 0, 0, 0, 0, 4], [42, 0, 0, 0, 0, 0, 0, 0, 0, 1, 5]);
    assert!(received.len() >= 61 && received.len() % 61 == 0, "{received:?}");
    for greeting in received.chunks(61) {
        assert_eq!((&greeting[..11], &greeting[11..22]), (&hello[..], &sign[..]));
    }
}

#[test]
fn an_incarnation_is_in_the_lock_file_before_it_is_sent() {
    let listener = TcpListener::bind("127.0.0.1:0").unwrap();
    let (address, lock) = (listener.local_addr().unwrap(), lock_file("kept"));
    let client = Client::builder(address, 5, &lock);
    thread::scope(|scope| {
        scope.spawn(|| client.timeout(Duration::from_millis(300)).join());
        let (mut stream, _) = listener.accept().unwrap();
        // A Hello, and a sign with the client's number and its incarnation.
        let mut received = [0; 61];
        stream.read_exact(&mut received).unwrap();
        let incarnation = u64::from_le_bytes(received[29..37].try_into().unwrap());
        let kept = std::fs::read_to_string(&lock).unwrap();
        assert_eq!(kept, format!("krl client 05 incarnation {incarnation:020}\n"));
    });
    std::fs::remove_file(lock).unwrap();
}

/// A network between a client and its server that hands nothing over while it is frozen.
fn network(server: SocketAddr) -> (SocketAddr, Arc<AtomicBool>) {
    let listener = TcpListener::bind("127.0.0.1:0").unwrap();
    let (address, frozen) = (listener.local_addr().unwrap(), Arc::new(AtomicBool::new(false)));
    let is_frozen = Arc::clone(&frozen);
    thread::spawn(move || {
        for client in listener.incoming().flatten() {
            let server = TcpStream::connect(server).unwrap();
            let ends = [(&client, &server), (&server, &client)];
            for (from, to) in ends.map(|(from, to)| (from.try_clone(), to.try_clone())) {
                let (from, to, is_frozen) = (from.unwrap(), to.unwrap(), Arc::clone(&is_frozen));
                thread::spawn(move || hand_over(from, to, &is_frozen));
            }
        }
    });
    (address, frozen)
}

fn hand_over(mut from: TcpStream, mut to: TcpStream, is_frozen: &AtomicBool) {
    let mut bytes = [0; 4096];
    while let Ok(count @ 1..) = from.read(&mut bytes) {
        while is_frozen.load(Ordering::Acquire) {
            thread::sleep(Duration::from_millis(1));
        }
        if to.write_all(&bytes[..count]).is_err() {
            return;
        }
    }
}

#[test]
fn reads_of_the_cache_go_on_while_a_write_hangs() {
    let listener = TcpListener::bind("127.0.0.1:0").unwrap();
    let (address, lock) = (listener.local_addr().unwrap(), lock_file("cache"));
    let server = Server::start(listener, MemoryStore::default()).unwrap();
    let (network, frozen) = network(address);
    let client = Client::builder(network, 5, &lock);
    let client = client.timeout(Duration::from_secs(5)).join().unwrap();
    for key in [10, 30] {
        assert_eq!(client.insert(key, Value::from(1)), Ok(Outcome::Applied));
    }
    let rows = client.read(0..20).unwrap();
    frozen.store(true, Ordering::Release);
    client.set_timeout(2 * LATE);
    thread::scope(|scope| {
        let written = scope.spawn(|| client.insert(50, Value::from(2)));
        thread::sleep(Duration::from_millis(100));
        let begun = Instant::now();
        for _ in 0..1000 {
            assert_eq!(client.read(0..20).as_ref(), Ok(&rows));
        }
        assert!(begun.elapsed() < LATE, "{:?}", begun.elapsed());
        client.set_timeout(Duration::from_millis(300));
        assert_eq!(client.read(40..50), Err(ErrorKind::TimedOut.into()), "the cache lacks that");
        assert_eq!(written.join().unwrap(), Err(ErrorKind::TimedOut.into()));
    });
    frozen.store(false, Ordering::Release);
    client.set_timeout(Duration::from_secs(20));
    assert_eq!(client.read(0..20).unwrap(), rows);
    client.leave().unwrap();
    server.stop().unwrap();
    std::fs::remove_file(lock).unwrap();
}
