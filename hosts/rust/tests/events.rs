//! What a server writes to a log in a short life. It is one test, since a process has one log.
#![cfg(feature = "tracing")]
use krl::operate::evict;
use krl::store::{Change, Store};
use krl::{Client, MemoryStore, Outcome, Server, Value};
use std::fmt::{Debug, Write as _};
use std::io::{Read, Write as _};
use std::net::{TcpListener, TcpStream};
use std::sync::{Arc, Mutex};
use std::time::{Duration, Instant};
use tracing::field::{Field, Visit};
use tracing::span::{Attributes, Id, Record};
use tracing::{Event, Level, Metadata, Subscriber};

/// A log that keeps each event as a line.
#[derive(Clone, Default)]
struct Lines(Arc<Mutex<Vec<String>>>);

struct Line(String);

impl Visit for Line {
    fn record_debug(&mut self, field: &Field, value: &dyn Debug) {
        write!(self.0, " {}={value:?}", field.name()).unwrap();
    }
}

impl Subscriber for Lines {
    fn enabled(&self, metadata: &Metadata<'_>) -> bool {
        *metadata.level() <= Level::INFO
    }

    fn event(&self, event: &Event<'_>) {
        let mut line = Line(event.metadata().level().to_string());
        event.record(&mut line);
        self.0.lock().unwrap().push(line.0);
    }

    fn new_span(&self, _: &Attributes<'_>) -> Id {
        Id::from_u64(1)
    }

    fn record(&self, _: &Id, _: &Record<'_>) {}

    fn record_follows_from(&self, _: &Id, _: &Id) {}

    fn enter(&self, _: &Id) {}

    fn exit(&self, _: &Id) {}
}

impl Lines {
    /// How many lines have all the words.
    fn count(&self, words: &[&str]) -> usize {
        let lines = self.0.lock().unwrap();
        lines.iter().filter(|line| words.iter().all(|word| line.contains(word))).count()
    }

    /// Waits until this many lines have all the words, for a minute at most.
    #[track_caller]
    fn expect(&self, count: usize, words: &[&str]) {
        let end = Instant::now() + Duration::from_secs(60);
        while self.count(words) != count && Instant::now() < end {
            std::thread::sleep(Duration::from_millis(10));
        }
        assert_eq!(self.count(words), count, "{words:?} in {:#?}", self.0.lock().unwrap());
    }
}

#[test]
fn a_server_reports_each_event_once() {
    let lines = Lines::default();
    tracing::subscriber::set_global_default(lines.clone()).unwrap();
    let folder = std::env::temp_dir().join(format!("krl-events-{}", std::process::id()));
    std::fs::create_dir_all(&folder).unwrap();
    // Client 9 has not left: the server recovers, and asks for its report.
    let mut store = MemoryStore::default();
    store.commit(&[Change::Registered { client: 9, incarnation: 4 }]).unwrap();
    let listener = TcpListener::bind("127.0.0.1:0").unwrap();
    let server = Server::start(listener, store).unwrap();
    lines.expect(1, &["INFO", "the server has started", "epoch=1", "rows=0", "clients=1"]);
    lines.expect(1, &["INFO", "the server recovers", "[9]"]);
    evict(server.address(), 9, folder.join("evict.lock")).unwrap();
    lines.expect(1, &["WARN", "a client is replaced that had not left", "client=9", "before=4"]);
    lines.expect(1, &["INFO", "a client has left", "client=9"]);
    lines.expect(1, &["INFO", "the server serves"]);
    let client = Client::join(server.address(), 3, folder.join("client.lock")).unwrap();
    lines.expect(1, &["INFO", "a client has joined", "client=3"]);
    assert_eq!(client.insert(1, Value::from(1)), Ok(Outcome::Applied));
    // A Hello of an older incarnation, again and again, and a string that is not a message.
    let mut stranger = TcpStream::connect(server.address().to_string()).unwrap();
    let host_hello = [3, 0, 0, 0, 0, 0, 0, 0, 0, 0, 4];
    stranger.write_all(&host_hello).unwrap();
    let hello = [&[18, 0, 0, 0, 0, 0, 0, 0, 1, 0, 3][..], &[0; 7], &[1], &[0; 7]].concat();
    for _ in 0..50 {
        stranger.write_all(&hello).unwrap();
    }
    lines.expect(1, &["WARN", "another incarnation", "client=3", "incarnation=1 "]);
    stranger.write_all(&[1, 0, 0, 0, 0, 0, 0, 0, 99]).unwrap();
    // It is closed, perhaps by a reset.
    let _ = stranger.read_to_end(&mut Vec::new());
    lines.expect(1, &["WARN", "not a message", "length=1"]);
    let mut old = TcpStream::connect(server.address().to_string()).unwrap();
    old.write_all(&hello).unwrap();
    let _ = old.read_to_end(&mut Vec::new());
    lines.expect(1, &["WARN", "another version of the protocol"]);
    client.leave().unwrap();
    lines.expect(1, &["INFO", "a client has left", "client=3"]);
    server.stop().unwrap();
    assert_eq!(lines.count(&["ERROR"]), 0);
    std::fs::remove_dir_all(folder).unwrap();
}
