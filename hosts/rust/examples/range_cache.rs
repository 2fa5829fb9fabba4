//! Three processes keep ranges of one table and answer reads from their caches, while a fourth one
//! changes the table.
//!
//! ```text
//! cargo run --release --example range_cache              runs until it is stopped
//! cargo run --release --example range_cache -- for 10    runs for ten seconds, in a new folder
//! cargo run --release --example range_cache -- leased    runs with leases of two seconds
//! ```
//!
//! A server keeps a table of ten rows. Three processes, the nodes, each keep a range of it and read
//! it a thousand times a second. A fourth process, the writer, counts up the values of four rows.
//! Each second a node reports how many reads it has answered from its cache, for how many it asked
//! the server, and what it read last:
//!
//! ```text
//! node 1 (4711): 811 reads cached, 6 asked: 30=4 40=0 50=3 60=0
//! ```
//!
//! Kill any of them by its process number, `kill -9 4711`. It is started again, and joins with a
//! greater incarnation. While the server is down the nodes continue to answer from their caches,
//! and no answer is stale: the writer can't write then. While a node is dead, the writer waits for
//! it only if it held what the writer changes. With leases (`leased`, or `leased for 10`) a node
//! that is stopped, and not killed, keeps the writer waiting no longer than its lease.
use krl::ErrorKind::{LeaseEnded, NotSent, TimedOut, Unserved};
use krl::{Address, Client, Leases, Listener, Outcome, Row, Server, SqliteStore, Value};
use std::error::Error;
use std::ops::Range;
use std::path::{Path, PathBuf};
use std::process::{Child, Command, ExitCode};
use std::thread;
use std::time::{Duration, Instant};

const ADDRESS: &str = "127.0.0.1:7480";

/// The ranges that the three nodes keep. The table has the keys 10, 20 and so on.
const RANGES: [Range<u64>; 3] = [0..41, 21..61, 0..101];

/// The keys that the writer changes, one after the other.
const KEYS: [u64; 4] = [30, 50, 90, 10];

/// The client number of the writer. The nodes have the numbers 0 to 2.
const WRITER: u8 = 3;

/// How long the writer rests between two writes, and a node between two reads.
const WRITE_PAUSE: Duration = Duration::from_millis(400);
const READ_PAUSE: Duration = Duration::from_millis(1);

/// The words by which the server is started, without leases and with some.
const SERVER: &str = "server";
const LEASED_SERVER: &str = "server leased";

/// How long a node answers from its cache if it receives nothing from a server with leases.
const LEASE: Duration = Duration::from_secs(2);

type Done = Result<(), Box<dyn Error>>;

fn main() -> ExitCode {
    let words: Vec<String> = std::env::args().skip(1).collect();
    let words: Vec<&str> = words.iter().map(String::as_str).collect();
    let done = match words[..] {
        [] => watch_over(&std::env::temp_dir().join("krl_range_cache"), SERVER, None),
        ["leased"] => {
            watch_over(&std::env::temp_dir().join("krl_range_cache"), LEASED_SERVER, None)
        }
        ["for", seconds] => for_a_while(SERVER, seconds),
        ["leased", "for", seconds] => for_a_while(LEASED_SERVER, seconds),
        ["server", folder] => serve(Path::new(folder), None),
        ["server", "leased", folder] => serve(Path::new(folder), Some(LEASE)),
        ["node", number, folder] => {
            number.parse().map_err(Into::into).and_then(|n| node(n, Path::new(folder)))
        }
        ["writer", folder] => write(Path::new(folder)),
        _ => Err("usage: range_cache [leased] [for SECONDS]".into()),
    };
    match done {
        Ok(()) => ExitCode::SUCCESS,
        Err(error) => {
            eprintln!("range_cache: {error}");
            ExitCode::FAILURE
        }
    }
}

fn serve(folder: &Path, lease: Option<Duration>) -> Done {
    let store = SqliteStore::open(folder.join("table.db"))?;
    let builder = Server::builder(Listener::bind(&ADDRESS.parse()?)?, store);
    let server = match lease {
        Some(length) => builder.leases(Leases::of(length)?).start()?,
        None => builder.start()?,
    };
    server.wait()?;
    Ok(())
}

fn join(number: u8, folder: &Path) -> Result<Client, Box<dyn Error>> {
    let lock = folder.join(format!("client-{number}.lock"));
    Ok(Client::join(ADDRESS.parse::<Address>()?, number, lock)?)
}

/// Keeps a range, and answers reads of it. Each second it reports how.
fn node(number: u8, folder: &Path) -> Done {
    let keys = RANGES.get(usize::from(number)).ok_or("there is no such node")?;
    let client = join(number, folder)?;
    let (mut cached, mut fetched, mut printed) = (0, 0, Instant::now());
    loop {
        let rows = if let Some(rows) = client.cached(keys.clone())? {
            cached += 1;
            rows
        } else {
            fetched += 1;
            match client.read(keys.clone()) {
                Ok(rows) => rows,
                // The server is down, and what the node lacks can't be known just now.
                Err(krl::Error { kind: TimedOut | Unserved(_), .. }) => continue,
                Err(refused) => return Err(refused.into()),
            }
        };
        if printed.elapsed() > Duration::from_secs(1) {
            printed = Instant::now();
            let id = std::process::id();
            println!(
                "node {number} ({id}): {cached} reads cached, {fetched} asked: {}",
                shown(&rows)
            );
        }
        thread::sleep(READ_PAUSE);
    }
}

fn shown(rows: &[Row]) -> String {
    let pairs = rows.iter().map(|row| format!("{}={}", row.key, row.value.to_u64().unwrap_or(0)));
    pairs.collect::<Vec<_>>().join(" ")
}

/// Makes the table's rows, and then counts up the values of some of them.
fn write(folder: &Path) -> Done {
    let client = join(WRITER, folder)?;
    for key in (10..=100).step_by(10) {
        // A table of an earlier run has the rows already.
        if client.insert(key, Value::from(0))? == Outcome::Full {
            return Err("the table is full".into());
        }
    }
    println!("writer ({}): the table is there", std::process::id());
    for key in KEYS.into_iter().cycle() {
        match add_one(&client, key) {
            Ok(Outcome::Applied) => {}
            Ok(outcome) => println!("writer: {key} was not written: {outcome}"),
            Err(refused) => match refused.kind {
                TimedOut | Unserved(_) | NotSent(_) | LeaseEnded => {}
                _ => return Err(refused.into()),
            },
        }
        thread::sleep(WRITE_PAUSE);
    }
    Ok(())
}

fn add_one(client: &Client, key: u64) -> Result<Outcome, krl::Error> {
    let rows = client.read(key..=key)?;
    let number = rows.first().and_then(|row| row.value.to_u64()).unwrap_or(0);
    client.put(key, Value::from(number + 1))
}

/// One of the processes.
struct Part {
    words: Vec<String>,
    child: Child,
}

impl Part {
    fn start(words: Vec<String>, folder: &Path) -> Result<Part, Box<dyn Error>> {
        let child = Command::new(std::env::current_exe()?).args(&words).arg(folder).spawn()?;
        println!("{} is process {}", words.join(" "), child.id());
        Ok(Part { words, child })
    }
}

impl Drop for Part {
    fn drop(&mut self) {
        // One that has ended needs no end.
        let _ = self.child.kill();
        let _ = self.child.wait();
    }
}

fn for_a_while(server: &str, seconds: &str) -> Done {
    let time = Duration::from_secs(seconds.parse()?);
    let folder = std::env::temp_dir().join(format!("krl_range_cache_{}", std::process::id()));
    let done = watch_over(&folder, server, Some(Instant::now() + time));
    std::fs::remove_dir_all(&folder)?;
    done
}

/// Starts all processes, and starts again what ends, until it is time.
fn watch_over(folder: &PathBuf, server: &str, end: Option<Instant>) -> Done {
    std::fs::create_dir_all(folder)?;
    println!("the table and the lock files are in {}", folder.display());
    let roles = [server, "node 0", "node 1", "node 2", "writer"];
    let words = roles.iter().map(|role| role.split(' ').map(String::from).collect());
    let mut parts = words.map(|words| Part::start(words, folder)).collect::<Result<Vec<_>, _>>()?;
    while end.is_none_or(|end| Instant::now() < end) {
        for part in &mut parts {
            if let Some(status) = part.child.try_wait()? {
                println!("{} has ended ({status})", part.words.join(" "));
                *part = Part::start(part.words.clone(), folder)?;
            }
        }
        thread::sleep(Duration::from_millis(50));
    }
    Ok(())
}
