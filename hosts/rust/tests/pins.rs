//! Pins that come one after the other.
use krl::{Client, ErrorKind, MemoryStore, Outcome, Reader, Server, Value};
use std::net::TcpListener;
use std::path::PathBuf;
use std::sync::atomic::{AtomicBool, Ordering};
use std::thread;
use std::time::{Duration, Instant};

fn lock_file(number: u8) -> PathBuf {
    std::env::temp_dir().join(format!("krl-pins-{}-{number}.lock", std::process::id()))
}

/// Signals that the test is over, even if it fails: otherwise the writer would continue forever.
struct Over<'f>(&'f AtomicBool);

impl Drop for Over<'_> {
    fn drop(&mut self) {
        self.0.store(true, Ordering::Release);
    }
}

#[test]
fn a_writer_that_pins_again_at_once_keeps_no_reader_out() {
    const READS: u64 = 20;
    const WORK: Duration = Duration::from_millis(10);
    let listener = TcpListener::bind("127.0.0.1:0").unwrap();
    let server = Server::start(listener, MemoryStore::default()).unwrap();
    let [writer, reader] =
        [1, 2].map(|number| Client::join(server.address(), number, lock_file(number)).unwrap());
    assert_eq!(writer.insert(10, Value::from(0)), Ok(Outcome::Applied));
    let is_over = AtomicBool::new(false);
    let written = thread::scope(|scope| {
        let thread = scope.spawn(|| {
            let mut count = 0;
            while !is_over.load(Ordering::Acquire) {
                let _pin = writer.pin(5..15).unwrap();
                count += 1;
                assert_eq!(writer.put(10, Value::from(count)), Ok(Outcome::Applied));
                // Nearly each callback comes while the range is pinned.
                thread::sleep(WORK);
            }
            count
        });
        let over = Over(&is_over);
        let mut last = 0;
        for _ in 0..READS {
            thread::sleep(Duration::from_millis(5));
            let begun = Instant::now();
            let number = reader.read(0..20).unwrap()[0].value.to_u64().unwrap();
            assert!(begun.elapsed() < Duration::from_secs(5), "{:?}", begun.elapsed());
            assert!(last <= number, "{number} after {last}");
            last = number;
        }
        drop(over);
        thread.join().unwrap()
    });
    assert!(written >= READS / 2, "{written} writes with {READS} reads");
    for (client, number) in [(writer, 1), (reader, 2)] {
        client.leave().unwrap();
        std::fs::remove_file(lock_file(number)).unwrap();
    }
}

#[test]
fn nobody_reads_what_is_pinned_to_write_and_a_reader_sees_what_is_stored() {
    let listener = TcpListener::bind("127.0.0.1:0").unwrap();
    let server = Server::start(listener, MemoryStore::default()).unwrap();
    let [writer, other] =
        [3, 4].map(|number| Client::join(server.address(), number, lock_file(number)).unwrap());
    let first = |rows: Vec<krl::Row>| rows[0].value.to_u64().unwrap();
    assert_eq!(writer.insert(10, Value::from(0)), Ok(Outcome::Applied));
    // The other client finds that it does not pay to keep the row.
    for number in 1..100 {
        assert_eq!(writer.put(10, Value::from(number)), Ok(Outcome::Applied));
        assert_eq!(other.read(10..11).map(first), Ok(number));
    }
    assert_eq!(other.cached(10..11), Ok(None));
    let (_, pin) = writer.pin_for_write(10..12).unwrap();
    assert_eq!(pin.put(10, Value::from(100)), Ok(Outcome::Applied));
    other.set_timeout(Duration::from_millis(300));
    let kind = other.read(5..15).unwrap_err().kind;
    assert_eq!(kind, ErrorKind::TimedOut, "the writer has not finished");
    let mut reader = Reader::new(server.address());
    assert_eq!(reader.read(5..15).map(first), Ok(100), "it waits for nobody");
    drop(pin);
    other.set_timeout(Duration::from_secs(60));
    assert_eq!(other.read(5..15).map(first), Ok(100));
    for (client, number) in [(writer, 3), (other, 4)] {
        client.leave().unwrap();
        std::fs::remove_file(lock_file(number)).unwrap();
    }
}
