//! Connections of strangers: the clients continue next to each of them.
use crate::Found;
use krl::{Address, Client, Listener, MemoryStore, Outcome, Server, Value};
use std::error::Error;
use std::io::{ErrorKind, Read, Write};
use std::net::{SocketAddr, TcpStream};
use std::time::{Duration, Instant};

/// How long a client's write and read may take next to a stranger.
const SOON: Duration = Duration::from_secs(5);

/// How much memory the strangers may cost, in bytes.
const MAX_MEMORY: u64 = 64 << 20;

/// The Hello of a client's host.
pub const HOST_HELLO: [u8; 11] = [3, 0, 0, 0, 0, 0, 0, 0, 0, 0, 4];

/// A Hello of client 50, incarnation 1, in its frame.
const HELLO: [u8; 26] =
    [18, 0, 0, 0, 0, 0, 0, 0, 1, 0, 50, 0, 0, 0, 0, 0, 0, 0, 1, 0, 0, 0, 0, 0, 0, 0];

const NO_MESSAGE: [u8; 11] = [3, 0, 0, 0, 0, 0, 0, 0, 1, 99, 0];

type Attack = fn(SocketAddr) -> Result<Vec<TcpStream>, Box<dyn Error>>;

const ATTACKS: [(&str, Attack); 9] = [
    ("one that sends nothing", |at| Ok(vec![connect(at)?])),
    ("one that sends half a length", |at| send(at, &[18, 0, 0])),
    ("one that sends half a message", |at| send(at, &HELLO[..15])),
    ("one that goes away within a message", |at| send(at, &HELLO[..15]).map(|_| Vec::new())),
    ("a length of 2^60", |at| is_shut(at, &[0, 0, 0, 0, 0, 0, 0, 16])),
    ("one that sends no Hello of its host", |at| is_shut(at, &HELLO)),
    ("a message that is none", |at| is_shut(at, &[&HOST_HELLO[..], &NO_MESSAGE].concat())),
    ("a hundred connections", |at| (0..100).map(|_| connect(at)).collect()),
    ("one that sends Hello forever and reads nothing", stall),
];

pub fn run() -> Found {
    let folder = std::env::temp_dir().join(format!("krl-strangers-{}", std::process::id()));
    std::fs::create_dir_all(&folder)?;
    let found = beside_strangers(&folder);
    std::fs::remove_dir_all(&folder)?;
    found
}

fn beside_strangers(folder: &std::path::Path) -> Found {
    let listener = Listener::bind(&"127.0.0.1:0".parse()?)?;
    let server = Server::start(listener, MemoryStore::default())?;
    let Address::Tcp(at) = *server.address() else { return Err("it listens elsewhere".into()) };
    let client = Client::join(at, 7, folder.join("client-7.lock"))?;
    let other = Client::join(at, 8, folder.join("client-8.lock"))?;
    let before = memory()?;
    let mut kept = Vec::new();
    for (key, (name, attack)) in (1..).zip(ATTACKS) {
        kept.extend(attack(at)?);
        let begun = Instant::now();
        let outcome = client.insert(key, Value::from(key))?;
        let rows = other.read(0..=key)?;
        if outcome != Outcome::Applied || rows.len() as u64 != key || begun.elapsed() > SOON {
            println!("with {name}: {outcome}, {} rows, {:?}", rows.len(), begun.elapsed());
            return Ok(false);
        }
    }
    let grown = memory()?.saturating_sub(before);
    let status = server.status();
    println!("{status}\n{} kinds of strangers cost {} kB of memory", ATTACKS.len(), grown >> 10);
    client.leave()?;
    other.leave()?;
    server.stop()?;
    // The one that is not a message, and nothing else, was a string to be judged.
    Ok(grown < MAX_MEMORY && status.refused == 1)
}

fn connect(at: SocketAddr) -> Result<TcpStream, Box<dyn Error>> {
    let stream = TcpStream::connect(at)?;
    stream.set_read_timeout(Some(SOON))?;
    stream.set_write_timeout(Some(SOON))?;
    Ok(stream)
}

fn send(at: SocketAddr, bytes: &[u8]) -> Result<Vec<TcpStream>, Box<dyn Error>> {
    let mut stream = connect(at)?;
    stream.write_all(bytes)?;
    Ok(vec![stream])
}

/// Sends it, and waits until the server ends the connection.
fn is_shut(at: SocketAddr, bytes: &[u8]) -> Result<Vec<TcpStream>, Box<dyn Error>> {
    let mut stream = connect(at)?;
    stream.write_all(bytes)?;
    match stream.read_to_end(&mut Vec::new()) {
        Ok(_) => Ok(Vec::new()),
        Err(error) if error.kind() == ErrorKind::ConnectionReset => Ok(Vec::new()),
        Err(error) => Err(format!("the server continues to hear a stranger: {error}").into()),
    }
}

/// Asks again and again, and never takes an answer, until the server stops taking them or has taken
/// many.
fn stall(at: SocketAddr) -> Result<Vec<TcpStream>, Box<dyn Error>> {
    let mut stream = connect(at)?;
    stream.write_all(&HOST_HELLO)?;
    let many = HELLO.repeat(1000);
    for _ in 0..500 {
        // The server may end it.
        if stream.write_all(&many).is_err() {
            break;
        }
    }
    Ok(vec![stream])
}

/// The memory of this process, in bytes.
pub fn memory() -> Result<u64, Box<dyn Error>> {
    let status = std::fs::read_to_string("/proc/self/status")?;
    let line = status.lines().find_map(|line| line.strip_prefix("VmRSS:")).ok_or("no VmRSS")?;
    Ok(line.trim().trim_end_matches(" kB").parse::<u64>()? << 10)
}
