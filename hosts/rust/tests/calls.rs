//! Each call of a client, over TCP and over a Unix socket.
use krl::error::{LockFileError, Unsent};
use krl::operate::evict;
use krl::{
    Address, Client, ErrorKind, JoinErrorKind, Leases, Listener, MemoryStore, Outcome, Row, Server,
    Servers, Value,
};
use std::ops::Range;
use std::os::unix::net::UnixListener;
use std::path::{Path, PathBuf};
use std::thread;
use std::time::{Duration, Instant};

/// A folder that is gone when the test is.
struct Folder(PathBuf);

impl Folder {
    fn new(name: &str) -> Folder {
        let folder = std::env::temp_dir().join(format!("krl-calls-{}-{name}", std::process::id()));
        std::fs::create_dir_all(&folder).unwrap();
        Folder(folder)
    }

    fn lock(&self, number: u8) -> PathBuf {
        self.0.join(format!("client-{number}.lock"))
    }

    fn join(&self, server: &Server, number: u8) -> Client {
        Client::join(server.address().clone(), number, self.lock(number)).unwrap()
    }
}

impl Drop for Folder {
    fn drop(&mut self) {
        let _ = std::fs::remove_dir_all(&self.0);
    }
}

fn server(address: &str) -> Server {
    let listener = Listener::bind(&address.parse().unwrap()).unwrap();
    Server::start(listener, MemoryStore::default()).unwrap()
}

fn value(text: &str) -> Value {
    Value::try_from(text).unwrap()
}

fn row(key: u64, text: &str) -> Row {
    Row { key, value: value(text) }
}

fn each_call(server: &Server, folder: &Folder) {
    let (first, second) = (folder.join(server, 0), folder.join(server, 63));
    assert_eq!(first.cached(5..5), Ok(Some(vec![])));
    assert_eq!(first.read(5..5), Ok(vec![]));
    assert_eq!(first.forget(5..5), Ok(()));
    assert_eq!(first.cached(0..100), Ok(None));
    assert_eq!(first.read(0..100), Ok(vec![]));
    assert_eq!(first.cached(0..100), Ok(Some(vec![])));
    assert_eq!(second.insert(20, value("b")), Ok(Outcome::Applied));
    assert_eq!(second.insert(10, value("a")), Ok(Outcome::Applied));
    assert_eq!(second.insert(10, value("z")), Ok(Outcome::Exists));
    assert_eq!(first.read(0..100), Ok(vec![row(10, "a"), row(20, "b")]));
    assert_eq!(second.put(20, value("c")), Ok(Outcome::Applied));
    assert_eq!(second.put(21, value("c")), Ok(Outcome::Absent));
    assert_eq!(first.read(20..21), Ok(vec![row(20, "c")]));
    assert_eq!([first.get(20), first.get(21)], [Ok(Some(value("c"))), Ok(None)]);
    assert_eq!(first.get(krl::END), Err(ErrorKind::BadKey.into()));
    assert_eq!(first.read(..=20).unwrap().last(), Some(&row(20, "c")));
    assert_eq!(first.delete(10), Ok(Outcome::Applied));
    assert_eq!(first.delete(10), Ok(Outcome::Absent));
    assert_eq!(second.read(0..100), Ok(vec![row(20, "c")]));
    assert_eq!(second.forget(0..100), Ok(()));
    assert_eq!(second.cached(0..100), Ok(None));
    assert_eq!(first.leave(), Ok(()));
    assert_eq!(second.leave(), Ok(()));
}

#[test]
fn cached_rows_are_visited_after_the_scan() {
    let folder = Folder::new("visits");
    let server = server("127.0.0.1:0");
    let (first, second) = (folder.join(&server, 0), folder.join(&server, 1));
    for key in [10, 20, 30] {
        assert_eq!(first.insert(key, value("a")), Ok(Outcome::Applied));
    }
    let rows = first.read(0..40).unwrap();
    let mut visited = Vec::new();
    assert!(
        first
            .for_each_cached(0..40, |row| {
                if visited.is_empty() {
                    // Another client takes the range away, and this one continues with its rows.
                    assert_eq!(second.put(20, value("b")), Ok(Outcome::Applied));
                    assert_eq!(first.cached(0..40), Ok(None));
                    assert_eq!(first.cached(5..5), Ok(Some(vec![])));
                }
                visited.push(*row);
            })
            .unwrap()
    );
    assert_eq!(visited, rows);
    assert!(!first.for_each_cached(0..40, |_| panic!("it is not cached any more")).unwrap());
    let mut kept = rows;
    assert!(!first.cached_into(0..40, &mut kept).unwrap());
    assert_eq!(first.read(0..40).unwrap()[1], row(20, "b"));
    assert!(first.cached_into(..=20, &mut kept).unwrap() && kept == [row(10, "a"), row(20, "b")]);
    assert!(first.for_each_cached(7..7, |_| panic!("it has no rows")).unwrap());
}

#[test]
fn a_key_is_set_whether_or_not_it_has_a_row() {
    let (server, folder) = (server("127.0.0.1:0"), Folder::new("set"));
    let (client, other) = (folder.join(&server, 0), folder.join(&server, 1));
    for text in ["a", "b"] {
        assert_eq!(client.set(10, value(text)), Ok(Outcome::Applied));
        assert_eq!(other.read(10..11), Ok(vec![row(10, text)]));
    }
    assert_eq!(other.delete(10), Ok(Outcome::Applied));
    assert_eq!(client.read(..), Ok(vec![]), "it knows that there is no row");
    assert_eq!(client.set(10, value("c")), Ok(Outcome::Applied));
    assert_eq!(client.set(krl::END, value("c")), Err(ErrorKind::BadKey.into()));
    let (_, pin) = client.pin_for_update(10..21).unwrap();
    assert_eq!(pin.set(10, value("d")), Ok(Outcome::Applied));
    assert_eq!(pin.set(20, value("e")), Ok(Outcome::Applied));
    drop(pin);
    assert_eq!(other.read(..), Ok(vec![row(10, "d"), row(20, "e")]));
}

#[test]
fn a_full_table_takes_no_new_row_and_another_value() {
    let folder = Folder::new("full");
    let listener = Listener::bind(&"127.0.0.1:0".parse().unwrap()).unwrap();
    let builder = Server::builder(listener, MemoryStore::default());
    let server = builder.room(krl::operate::Room::of(1).unwrap()).start().unwrap();
    let client = folder.join(&server, 0);
    assert_eq!(client.set(10, value("a")), Ok(Outcome::Applied));
    assert_eq!(client.set(20, value("a")), Ok(Outcome::Full));
    assert_eq!(client.set(10, value("b")), Ok(Outcome::Applied));
}

#[test]
fn a_call_waits_for_a_time_of_its_own() {
    let (server, folder) = (server("127.0.0.1:0"), Folder::new("within"));
    let (client, other) = (folder.join(&server, 0), folder.join(&server, 1));
    assert_eq!(client.insert(10, value("a")), Ok(Outcome::Applied));
    let (_, pin) = client.pin_for_write(10..11).unwrap();
    let (begun, short) = (Instant::now(), Duration::from_millis(50));
    assert_eq!(other.within(short).timeout(), short);
    assert_eq!(other.within(short).read(10..11), Err(ErrorKind::TimedOut.into()));
    assert_eq!(
        other.within(short).set(10, value("b")),
        Err(ErrorKind::NotSent(Unsent::TimedOut).into())
    );
    assert!(other.within(short).pin_for_read(10..11).is_err());
    let own = other.pin(50..60).unwrap();
    assert_eq!(
        own.within(short).put(10, value("b")),
        Err(ErrorKind::NotSent(Unsent::TimedOut).into())
    );
    assert_eq!(
        own.within(short).set(10, value("b")),
        Err(ErrorKind::NotSent(Unsent::TimedOut).into())
    );
    drop(own);
    assert!(begun.elapsed() < other.timeout(), "it waited as its other calls do");
    drop(pin);
    assert_eq!(other.within(Duration::MAX).put(10, value("c")), Ok(Outcome::Applied));
    assert_eq!(other.within(other.timeout()).forget(..), Ok(()));
    assert_eq!(client.read(10..11), Ok(vec![row(10, "c")]));
}

#[test]
fn the_first_free_number_of_several_is_taken() {
    let folder = Folder::new("numbers");
    let listener = Listener::bind(&"127.0.0.1:0".parse().unwrap()).unwrap();
    let leases = Leases::of(Duration::from_secs(60)).unwrap();
    let server = Server::builder(listener, MemoryStore::default()).leases(leases).start().unwrap();
    let join = || Client::builder_with_numbers(server.address(), 3..=4, &folder.0).join();
    let (first, second) = (join().unwrap(), join().unwrap());
    assert_eq!((first.number(), second.number()), (3, 4));
    let refused = join().unwrap_err();
    let shown = format!(
        "the lock file {}: it is in use, by this or another process: give each client a number and \
         a lock file of its own",
        folder.lock(4).display()
    );
    assert_eq!(refused.to_string(), shown);
    assert!(matches!(refused.kind, JoinErrorKind::LockFile { error: LockFileError::Taken, .. }));
    first.leave().unwrap();
    assert_eq!(join().unwrap().number(), 3);
    // Another machine has other lock files: the server reports that the number is in use.
    let there = Folder::new("numbers-there");
    let other = Client::builder_with_numbers(server.address(), [4, 9], &there.0).join().unwrap();
    assert_eq!(other.number(), 9);
    let none = Client::builder_with_numbers(server.address(), [], &folder.0).join().unwrap_err();
    assert!(matches!(none.kind, JoinErrorKind::Incomplete("a number")), "{none}");
}

#[test]
fn calls_over_tcp() {
    let folder = Folder::new("tcp");
    let server = server("127.0.0.1:0");
    each_call(&server, &folder);
    let status = server.status();
    assert!(status.is_serving && status.refused == 0 && status.alarms.is_empty(), "{status}");
    server.stop().unwrap();
}

#[test]
fn calls_over_a_unix_socket() {
    let folder = Folder::new("unix");
    let address = format!("unix:{}", folder.0.join("socket").display());
    for _ in 0..2 {
        let server = server(&address);
        each_call(&server, &folder);
        server.stop().unwrap();
    }
}

#[test]
fn a_file_that_is_not_a_socket_stays_as_it_is() {
    let folder = Folder::new("file");
    let file = folder.0.join("file");
    std::fs::write(&file, "mine").unwrap();
    assert!(Listener::bind(&Address::Unix(file.clone())).is_err());
    assert_eq!(std::fs::read_to_string(file).unwrap(), "mine");
}

#[test]
fn what_is_refused() {
    let folder = Folder::new("refused");
    let server = server("127.0.0.1:0");
    let client = folder.join(&server, 1);
    assert_eq!(client.read(0..u64::MAX), Err(ErrorKind::BadRange.into()));
    assert_eq!(client.read(0..=1 << 63), Err(ErrorKind::BadRange.into()));
    assert_eq!(client.forget(0..=1 << 63), Err(ErrorKind::BadRange.into()));
    assert_eq!(client.cached(0..=1 << 63), Err(ErrorKind::BadRange.into()));
    assert_eq!(client.cached_into(0..=1 << 63, &mut Vec::new()), Err(ErrorKind::BadRange.into()));
    assert_eq!(
        client.for_each_cached(0..=1 << 63, |_| panic!("it is none")),
        Err(ErrorKind::BadRange.into())
    );
    assert_eq!(client.pin(5..5).err(), Some(ErrorKind::BadRange.into()));
    assert_eq!(client.insert(krl::END, Value::default()), Err(ErrorKind::BadKey.into()));
    assert_eq!(client.read(0..1 << 63), Ok(vec![]));
    let join = |number, lock: &Path| {
        let wait = Duration::from_millis(300);
        Client::builder(server.address(), number, lock)
            .timeout(wait)
            .join()
            .err()
            .map(|error| error.kind)
    };
    let taken = join(1, &folder.lock(1));
    assert!(matches!(taken, Some(JoinErrorKind::LockFile { error: LockFileError::Taken, .. })));
    let strange = join(2, &folder.0.join("none").join("lock"));
    assert!(matches!(strange, Some(JoinErrorKind::LockFile { error: LockFileError::File(_), .. })));
    assert!(matches!(join(64, &folder.lock(2)), Some(JoinErrorKind::BadNumber)));
    let pins: Vec<_> = (0..8).map(|lo| client.pin(lo..=lo).unwrap()).collect();
    assert_eq!(client.pin(0..1).err(), Some(ErrorKind::TooManyPins.into()));
    assert_eq!(client.forget(0..4), Err(ErrorKind::Pinned.into()));
    drop(pins);
    assert_eq!(client.forget(0..4), Ok(()));
    server.stop().unwrap();
    client.set_timeout(Duration::from_millis(200));
    assert_eq!(client.read(0..9), Err(ErrorKind::TimedOut.into()));
    assert_eq!(client.leave(), Err(ErrorKind::TimedOut.into()));
}

#[test]
fn a_server_that_does_not_run_answers_nobody() {
    let folder = Folder::new("nobody");
    let address: Address = "127.0.0.1:1".parse().unwrap();
    let wait = Duration::from_millis(200);
    let client = Client::builder(address, 1, folder.lock(1));
    let joined = client.timeout(wait).join();
    let error = joined.unwrap_err();
    assert!(matches!(error.kind, JoinErrorKind::NoAnswer { fault: Some(_), .. }), "{error:?}");
    let shown = error.to_string();
    assert!(shown.starts_with("the server at 127.0.0.1:1 did not answer in time: "), "{shown}");
}

#[test]
fn who_joins_where_nothing_listens_learns_it_before_the_timeout() {
    let folder = Folder::new("nothing");
    let abandoned = folder.0.join("abandoned");
    drop(UnixListener::bind(&abandoned).unwrap());
    let (abandoned, none) = (abandoned.display(), folder.0.join("none"));
    for servers in [
        "127.0.0.1:1".to_string(),
        "localhost:1".to_string(),
        format!("unix:{}", none.display()),
        format!("unix:{abandoned}"),
    ] {
        let at: Servers = servers.parse().unwrap();
        let joined = Client::builder(at, 1, folder.lock(1)).timeout(Duration::from_secs(60)).join();
        let error = joined.unwrap_err();
        assert!(matches!(error.kind, JoinErrorKind::NothingListens { .. }), "{error:?}");
        let shown = error.to_string();
        assert!(shown.starts_with(&format!("nothing listens at {servers}: ")), "{shown}");
    }
}

#[test]
fn a_pin_keeps_others_waiting() {
    let folder = Folder::new("pin");
    let server = server("127.0.0.1:0");
    let (reader, writer) = (folder.join(&server, 1), folder.join(&server, 2));
    assert_eq!(writer.insert(10, value("a")), Ok(Outcome::Applied));
    reader.read(0..11).unwrap();
    let pin = reader.pin(0..11).unwrap();
    thread::scope(|scope| {
        let put = scope.spawn(|| writer.put(10, value("b")));
        thread::sleep(Duration::from_millis(300));
        assert_eq!(reader.cached(0..11), Ok(Some(vec![row(10, "a")])));
        let waits = server.status().waits;
        assert!(waits.iter().any(|wait| wait.client == 2 && wait.waits_for == [1]), "{waits:?}");
        drop(pin);
        assert_eq!(put.join().unwrap(), Ok(Outcome::Applied));
    });
    assert_eq!(reader.read(0..11), Ok(vec![row(10, "b")]));
}

#[test]
fn a_tenure_lasts_as_long_as_the_range_stays_as_it_is() {
    let (folder, server) = (Folder::new("tenure"), server("127.0.0.1:0"));
    let (reader, writer) = (folder.join(&server, 0), folder.join(&server, 1));
    assert_eq!(reader.tenure(10..20), Ok(None));
    reader.read(10..20).unwrap();
    let first = reader.tenure(10..20).unwrap();
    assert!(first.is_some());
    reader.read(30..40).unwrap();
    assert_eq!(reader.tenure(10..20), Ok(first));
    assert_eq!(writer.insert(15, value("one")), Ok(Outcome::Applied));
    assert_eq!(reader.tenure(10..20), Ok(None));
    reader.read(10..20).unwrap();
    let next = reader.tenure(10..20).unwrap();
    assert!(next.is_some() && next != first);
    for bad in [Range { start: 20, end: 10 }, 10..10] {
        assert_eq!(reader.tenure(bad), Err(ErrorKind::BadRange.into()));
    }
    reader.leave().unwrap();
    assert_eq!(reader.tenure(10..20), Ok(None));
}

#[test]
fn what_a_client_holds_is_counted() {
    let folder = Folder::new("counted");
    let server = server("127.0.0.1:0");
    let client = folder.join(&server, 1);
    assert_eq!(client.insert(10, value("a")), Ok(Outcome::Applied));
    client.read(0..11).unwrap();
    let pin = client.pin(0..11).unwrap();
    let counted = || server.status().holdings.iter().any(|it| it.client == 1 && it.slots > 0);
    let end = Instant::now() + Duration::from_secs(20);
    while !counted() && Instant::now() < end {
        thread::sleep(Duration::from_millis(50));
    }
    assert!(counted(), "{}", server.status());
    drop(pin);
}

#[test]
fn an_evicted_client_keeps_nobody_waiting() {
    let folder = Folder::new("evict");
    let server = server("127.0.0.1:0");
    let (address, living) = (server.address().clone(), folder.join(&server, 1));
    assert_eq!(living.insert(10, value("a")), Ok(Outcome::Applied));
    assert!(evict(address.clone(), 1, folder.lock(1)).is_err(), "its process lives");
    // A client that is gone without a Bye: this one's thread continues, but nothing takes its
    // messages after the eviction.
    evict(address, 1, folder.0.join("lost.lock")).unwrap();
    let other = folder.join(&server, 2);
    assert_eq!(other.put(10, value("b")), Ok(Outcome::Applied));
}

#[test]
fn threads_share_a_client() {
    let folder = Folder::new("threads");
    let server = server("127.0.0.1:0");
    let client = folder.join(&server, 1);
    thread::scope(|scope| {
        for place in 0..4u64 {
            let client = &client;
            scope.spawn(move || {
                for turn in 0..25u64 {
                    let key = 100 * place + turn;
                    assert_eq!(client.insert(key, Value::from(turn)), Ok(Outcome::Applied));
                    let rows = client.read(100 * place..=key).unwrap();
                    assert_eq!(rows.len() as u64, turn + 1);
                }
            });
        }
    });
    assert_eq!(client.read(0..1000).unwrap().len(), 100);
}

/// How many times the thread of this name has slept, as the system counts it.
fn sleeps(thread: &str) -> u64 {
    let tasks = std::fs::read_dir("/proc/self/task").unwrap();
    let read = |task: &Path, file| std::fs::read_to_string(task.join(file)).unwrap_or_default();
    let of_thread = |task: &PathBuf| read(task, "comm").trim() == thread;
    let task = tasks.map(|task| task.unwrap().path()).find(of_thread).unwrap();
    let status = read(&task, "status");
    let count = status.lines().find_map(|line| line.strip_prefix("voluntary_ctxt_switches:"));
    count.unwrap().trim().parse().unwrap()
}

#[test]
fn the_thread_of_an_idle_client_wakes_only_to_tick() {
    let folder = Folder::new("idle");
    let server = server("127.0.0.1:0");
    let client = folder.join(&server, 41);
    assert_eq!(client.read(0..10), Ok(vec![]));
    let before = sleeps("krl-client-41");
    thread::sleep(Duration::from_secs(2));
    let slept = sleeps("krl-client-41") - before;
    // Four ticks a second, and to each an answer that comes by itself.
    assert!(slept < 40, "it slept {slept} times in two seconds");
    assert_eq!(client.read(0..20), Ok(vec![]));
}
