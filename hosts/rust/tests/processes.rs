//! Processes that end without a word: at a Unix socket the server learns it from the system.
use krl::{Address, Client, Leases, Listener, MemoryStore, Outcome, Row, Server, Value};
use std::env;
use std::io::{BufRead, BufReader, Read, Write};
use std::net::Shutdown;
use std::os::unix::net::{UnixListener, UnixStream};
use std::path::{Path, PathBuf};
use std::process::{Child, ChildStdin, Command, Stdio};
use std::thread;
use std::time::{Duration, Instant};

/// The length of leases, by default.
const LEASE: Duration = Duration::from_secs(10);

/// No write that waits for a lease of this length is done within this time, and one that does not
/// is, even on a busy machine.
const AT_ONCE: Duration = Duration::from_secs(4);

/// What a process does that a test starts, and with which files.
const ROLE: &str = "KRL_TEST_ROLE";
const SERVER: &str = "KRL_TEST_SERVER";
const FILE: &str = "KRL_TEST_FILE";

/// What it prints when it is ready.
const READY: &str = "it is ready";

/// A server at a Unix socket, with its files.
struct World {
    server: Server,
    folder: PathBuf,
}

impl World {
    fn new(name: &str, lease: Duration) -> World {
        let folder = env::temp_dir().join(format!("krl-processes-{}-{name}", std::process::id()));
        std::fs::create_dir_all(&folder).unwrap();
        let address = Address::Unix(folder.join("socket"));
        let builder = Server::builder(Listener::bind(&address).unwrap(), MemoryStore::default());
        let server = builder.leases(Leases::of(lease).unwrap()).start().unwrap();
        World { server, folder }
    }

    fn join(&self, address: &Address, number: u8) -> Client {
        let lock_file = self.folder.join(format!("{number}.lock"));
        let builder = Client::builder(address, number, lock_file);
        builder.timeout(Duration::from_secs(60)).join().unwrap()
    }

    /// A process of its own that has this role.
    fn start(&self, role: &str, file: &Path) -> Process {
        let mut command = Command::new(env::current_exe().unwrap());
        command.args(["--exact", "what_a_process_does", "--ignored", "--nocapture"]);
        command.env(ROLE, role).env(FILE, file).env(SERVER, self.server.address().to_string());
        let mut child = command.stdin(Stdio::piped()).stdout(Stdio::piped()).spawn().unwrap();
        let mut lines = BufReader::new(child.stdout.take().unwrap()).lines();
        assert!(lines.any(|line| line.unwrap().ends_with(READY)));
        Process { stdin: child.stdin.take(), child }
    }
}

impl Drop for World {
    fn drop(&mut self) {
        let _ = std::fs::remove_dir_all(&self.folder);
    }
}

/// It ends with its input, and so with this process.
struct Process {
    child: Child,
    stdin: Option<ChildStdin>,
}

impl Process {
    fn kill(&mut self) {
        self.child.kill().unwrap();
    }
}

impl Drop for Process {
    fn drop(&mut self) {
        drop(self.stdin.take());
        let _ = self.child.wait();
    }
}

#[test]
#[ignore = "the other tests start it, each in a process of its own"]
fn what_a_process_does() {
    let Ok(role) = env::var(ROLE) else { return };
    let (server, file) = (env::var(SERVER).unwrap().parse().unwrap(), env::var(FILE).unwrap());
    match role.as_str() {
        "keep" => keep(&server, &file),
        "relay" => relay(&server, &file),
        role => panic!("there is no role {role}"),
    }
}

/// A client that keeps a range.
fn keep(server: &Address, lock_file: &str) {
    let client = Client::join(server, 3, lock_file).unwrap();
    client.read(0..100).unwrap();
    println!("{READY}");
    wait_for_the_end();
    client.leave().unwrap();
}

/// What stands between a client and the server, and copies bytes.
fn relay(server: &Address, socket: &str) {
    let Address::Unix(server) = server else { panic!("the server is elsewhere") };
    let (server, listener) = (server.clone(), UnixListener::bind(socket).unwrap());
    thread::spawn(move || {
        for client in listener.incoming().map(Result::unwrap) {
            let server = UnixStream::connect(&server).unwrap();
            let (from, to) = (client.try_clone().unwrap(), server.try_clone().unwrap());
            thread::spawn(move || copy(from, to));
            thread::spawn(move || copy(server, client));
        }
    });
    println!("{READY}");
    wait_for_the_end();
}

fn copy(mut from: UnixStream, mut to: UnixStream) {
    let mut bytes = [0; 4096];
    while let Ok(count @ 1..) = from.read(&mut bytes) {
        if to.write_all(&bytes[..count]).is_err() {
            break;
        }
    }
    let _ = to.shutdown(Shutdown::Both);
}

fn wait_for_the_end() {
    let _ = std::io::stdin().read_to_end(&mut Vec::new());
}

#[test]
fn a_client_that_is_killed_delays_nobody() {
    let world = World::new("killed", LEASE);
    let writer = world.join(world.server.address(), 1);
    assert_eq!(writer.insert(10, Value::from(1)), Ok(Outcome::Applied));
    let mut keeper = world.start("keep", &world.folder.join("3.lock"));
    keeper.kill();
    let begun = Instant::now();
    assert_eq!(writer.put(10, Value::from(2)), Ok(Outcome::Applied));
    let took = begun.elapsed();
    println!("the write took {took:?}");
    assert!(took < AT_ONCE, "{took:?}");
    assert_eq!(world.server.status().evicted, 1);
    // The next process of the number is another one.
    let next = world.join(world.server.address(), 3);
    assert_eq!(next.read(0..100), Ok(vec![Row { key: 10, value: Value::from(2) }]));
    thread::sleep(Duration::from_millis(500));
    assert!(next.cached(0..100).unwrap().is_some());
    assert_eq!(world.server.status().evicted, 1);
}

#[test]
fn the_end_of_a_relay_is_not_that_of_its_client() {
    let world = World::new("relay", Duration::from_secs(3));
    let writer = world.join(world.server.address(), 1);
    assert_eq!(writer.insert(10, Value::from(1)), Ok(Outcome::Applied));
    let socket = world.folder.join("relay");
    let mut relay = world.start("relay", &socket);
    let beyond = world.join(&Address::Unix(socket), 3);
    let answers = || beyond.cached(0..100).unwrap();
    let old = Some(vec![Row { key: 10, value: Value::from(1) }]);
    assert_eq!(beyond.read(0..100).ok(), old);
    relay.kill();
    let begun = Instant::now();
    thread::scope(|scope| {
        let write = scope.spawn(|| (writer.put(10, Value::from(2)), begun.elapsed()));
        let mut last = Duration::ZERO;
        while answers() == old {
            last = begun.elapsed();
        }
        let (outcome, done) = write.join().unwrap();
        assert_eq!(outcome, Ok(Outcome::Applied));
        assert!(last < done, "the last answer after {last:?}, the write after {done:?}");
        assert!(last > Duration::from_millis(500), "it answers while its lease runs: {last:?}");
    });
}
