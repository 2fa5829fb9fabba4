//! What a message and its answer take, run by hand: next to an echo over the same kind of socket,
//! by turns, so that a busy machine is as busy for both.
use crate::Found;
use krl::store::{Change, Store, Write};
use krl::{Address, Client, Listener, MemoryStore, Outcome, Row, Server, Value};
use std::error::Error;
use std::fs;
use std::io::Read;
use std::net::{TcpListener, TcpStream};
use std::ops::Range;
use std::os::unix::net::{UnixListener, UnixStream};
use std::path::Path;
use std::thread;
use std::time::{Duration, Instant};

/// The rows of the table, and how far apart they are.
const ROWS: u64 = 12_000;
const STEP: u64 = 10;

/// How many rows a scan has. Its first read takes one message and its answer.
const SCAN: u64 = 100;

/// How many turns each measurement has, and how much of it is done in one.
const TURNS: u64 = 5;
const ECHOES: u64 = 500;
const TRIPS: u64 = 100;
const SCANS: u64 = 20;

/// The bytes of an echo: about those of a request.
const ECHO: usize = 40;

/// How many clients read at the same time: all that there can be.
const CROWD: u8 = 64;

/// How long the crowd reads.
const READING: Duration = Duration::from_secs(3);

/// The threads of a server, by the beginnings of their names.
const SERVER_THREADS: [&str; 3] = ["krl-server", "krl-read-", "krl-write-"];

type Done<T> = Result<T, Box<dyn Error>>;

pub fn run(folder: &Path, socket: &str) -> Found {
    fs::create_dir_all(folder)?;
    let (address, echo) = match socket {
        "tcp" => ("127.0.0.1:0".parse()?, echo_over_tcp()?),
        "unix" => (Address::Unix(folder.join("trips.socket")), echo_over_unix(folder)?),
        _ => return Err("a socket is tcp or unix".into()),
    };
    let mut store = MemoryStore::default();
    store.commit(&(1..=ROWS).map(row).collect::<Vec<_>>())?;
    let server = Server::start(Listener::bind(&address)?, store)?;
    one_client(&server, folder, echo)?;
    crowd(&server, folder)?;
    server.stop()?;
    Ok(true)
}

/// A row that is there at the start. It belongs to no client: nobody has written it.
fn row(place: u64) -> Change {
    let write = Write::Insert(Row { key: STEP * place, value: Value::from(place) });
    Change::Judged { client: 0, number: 0, write, outcome: Outcome::Applied }
}

/// A stream on which the other side sends back what it receives.
type Echo = Box<dyn FnMut() -> std::io::Result<()>>;

fn echo_over_tcp() -> Done<Echo> {
    let listener = TcpListener::bind("127.0.0.1:0")?;
    let ours = TcpStream::connect(listener.local_addr()?)?;
    let (theirs, _) = listener.accept()?;
    ours.set_nodelay(true)?;
    theirs.set_nodelay(true)?;
    Ok(echo(ours, theirs))
}

fn echo_over_unix(folder: &Path) -> Done<Echo> {
    let path = folder.join("echo.socket");
    let listener = UnixListener::bind(&path)?;
    let ours = UnixStream::connect(path)?;
    Ok(echo(ours, listener.accept()?.0))
}

fn echo<S: Read + std::io::Write + Send + 'static>(mut ours: S, mut theirs: S) -> Echo {
    thread::spawn(move || {
        let mut bytes = [0; ECHO];
        while theirs.read_exact(&mut bytes).is_ok() && theirs.write_all(&bytes).is_ok() {}
    });
    let mut bytes = [0; ECHO];
    Box::new(move || ours.write_all(&bytes).and_then(|()| ours.read_exact(&mut bytes)))
}

/// The middle time.
pub fn median(mut times: Vec<Duration>) -> Duration {
    times.sort_unstable();
    times[times.len() / 2]
}

/// How long each of these takes.
fn timed<T>(places: Range<u64>, mut what: impl FnMut(u64) -> Done<T>) -> Done<Vec<Duration>> {
    let mut times = Vec::new();
    for place in places {
        let begun = Instant::now();
        what(place)?;
        times.push(begun.elapsed());
    }
    Ok(times)
}

fn one_client(server: &Server, folder: &Path, mut echo: Echo) -> Done<()> {
    let client = Client::join(server.address(), 0, folder.join("trips-0.lock"))?;
    let (mut echoes, mut trips, mut scans) = (Vec::new(), Vec::new(), Vec::new());
    for turn in 0..TURNS {
        echoes.extend(timed(0..ECHOES, |_| Ok(echo()?))?);
        trips.extend(timed(turn * TRIPS..(turn + 1) * TRIPS, |place| read(&client, one(place)))?);
        scans.extend(timed(turn * SCANS..(turn + 1) * SCANS, |place| {
            read(&client, hundred(place))
        })?);
    }
    client.leave()?;
    let (echo, trip, scan) = (median(echoes), median(trips), median(scans));
    let times = |time: Duration, base: Duration| time.as_secs_f64() / base.as_secs_f64();
    println!("echo of {ECHO} bytes: {echo:?}");
    println!("read of one row from the server: {trip:?}, {:.2} echoes", times(trip, echo));
    println!("first scan of {SCAN} rows: {scan:?}, {:.2} echoes", times(scan, echo));
    Ok(())
}

/// Reads what is there, and what the client does not know yet.
fn read(client: &Client, keys: Range<u64>) -> Done<()> {
    let rows = (keys.end - keys.start) / STEP;
    let found = client.read(keys)?.len() as u64;
    if found == rows { Ok(()) } else { Err("a read has its rows".into()) }
}

/// The keys of one row after those of all scans.
fn one(place: u64) -> Range<u64> {
    let lo = STEP * (SCAN * SCANS * TURNS + 1 + 2 * place) + STEP;
    lo..lo + STEP
}

/// The keys of a hundred rows, not those of its neighbors.
fn hundred(place: u64) -> Range<u64> {
    let lo = STEP + STEP * SCAN * place;
    lo..lo + STEP * SCAN
}

/// Each client reads a hundred rows of its own and gives them back, again and again.
fn crowd(server: &Server, folder: &Path) -> Done<()> {
    let join = |number: u8| {
        Client::join(server.address(), number, folder.join(format!("trips-{number}.lock")))
    };
    let clients = (0..CROWD).map(join).collect::<Result<Vec<_>, _>>()?;
    thread::sleep(Duration::from_millis(100));
    let (before, busy) = (server.status(), busy_time()?);
    thread::scope(|scope| {
        for (place, client) in (0..).zip(&clients) {
            scope.spawn(move || read_again(client, &hundred(place)));
        }
    });
    thread::sleep(Duration::from_millis(100));
    let (after, busy) = (server.status(), busy_time()?.saturating_sub(busy));
    let messages = after.taken + after.sent - before.taken - before.sent;
    println!(
        "{CROWD} clients: {} messages a second, taken and sent; the server's threads are busy for \
         {} ns of each",
        messages / READING.as_secs(),
        busy.as_nanos() / u128::from(messages.max(1))
    );
    clients.iter().try_for_each(Client::leave)?;
    Ok(())
}

fn read_again(client: &Client, keys: &Range<u64>) {
    let end = Instant::now() + READING;
    while Instant::now() < end {
        // A client that is refused reads less, and the figure shows it.
        let _ = client.read(keys.clone()).and_then(|_| client.forget(keys.clone()));
    }
}

/// The processor time that the server's threads have taken in this process, user and system.
fn busy_time() -> Done<Duration> {
    let mut nanoseconds = 0;
    for task in fs::read_dir("/proc/self/task")? {
        let task = task?.path();
        let name = fs::read_to_string(task.join("comm"))?;
        if SERVER_THREADS.iter().any(|begins| name.starts_with(begins)) {
            let times = fs::read_to_string(task.join("schedstat"))?;
            nanoseconds += times.split(' ').next().unwrap_or_default().parse::<u64>()?;
        }
    }
    Ok(Duration::from_nanos(nanoseconds))
}
