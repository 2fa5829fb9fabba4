//! The spans in which calls wait.
use krl::{Client, MemoryStore, Mutation, Outcome, Row, Server, Value};
use std::fmt::{Debug, Write};
use std::sync::{Arc, Mutex};
use tracing::field::{Field, Visit};
use tracing::span::{Attributes, Id, Record};
use tracing::subscriber::with_default;
use tracing::{Event, Metadata, Subscriber};

/// Keeps the fields of each span.
#[derive(Clone, Default)]
struct Spans(Arc<Mutex<Vec<String>>>);

struct Fields(String);

impl Visit for Fields {
    fn record_debug(&mut self, field: &Field, value: &dyn Debug) {
        write!(self.0, "{field}={value:?} ").unwrap();
    }
}

impl Subscriber for Spans {
    fn enabled(&self, _: &Metadata<'_>) -> bool {
        true
    }

    fn new_span(&self, attributes: &Attributes<'_>) -> Id {
        let mut fields = Fields(String::new());
        attributes.record(&mut fields);
        let mut spans = self.0.lock().unwrap();
        spans.push(fields.0.trim_end().to_string());
        Id::from_u64(spans.len() as u64)
    }

    fn record(&self, _: &Id, _: &Record<'_>) {}

    fn record_follows_from(&self, _: &Id, _: &Id) {}

    fn event(&self, _: &Event<'_>) {}

    fn enter(&self, _: &Id) {}

    fn exit(&self, _: &Id) {}
}

#[test]
fn each_call_that_waits_is_in_a_span_and_a_cached_read_is_in_none() {
    let folder = std::env::temp_dir().join(format!("krl-spans-{}", std::process::id()));
    std::fs::create_dir_all(&folder).unwrap();
    let listener = std::net::TcpListener::bind("127.0.0.1:0").unwrap();
    let server = Server::start(listener, MemoryStore::default()).unwrap();
    let client = Client::join(server.address(), 3, folder.join("client-3.lock")).unwrap();
    let spans = Spans::default();
    with_default(spans.clone(), || {
        let row = Row { key: 15, value: Value::from(1) };
        assert_eq!(client.insert(row.key, row.value), Ok(Outcome::Applied));
        assert_eq!(client.read(10..20), Ok(vec![row]));
        assert_eq!(client.read(10..20), Ok(vec![row]));
        let writes = [Mutation::Delete(15), Mutation::Set(Row { key: 12, ..row })];
        assert_eq!(client.write_all(writes), Ok(vec![Outcome::Applied; 2]));
        drop(client.pin_for_read(10..14).unwrap());
        client.leave().unwrap();
    });
    let expected = [
        "call=\"insert\" client=3 lo=15 hi=16",
        "call=\"read\" client=3 lo=10 hi=20",
        "call=\"write_all\" client=3 lo=12 hi=16",
        "call=\"pin\" client=3 lo=10 hi=14",
        "call=\"leave\" client=3 lo=0 hi=9223372036854775808",
    ];
    assert_eq!(*spans.0.lock().unwrap(), expected);
    std::fs::remove_dir_all(&folder).unwrap();
}
