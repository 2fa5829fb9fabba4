//! What leases cost: a look at the clock after each scan of the cache, and signs.
use crate::Found;
use crate::applied::applied;
use krl::{Client, Leases, Listener, MemoryStore, Row, Server, Value};
use std::error::Error;
use std::path::Path;
use std::thread::sleep;
use std::time::{Duration, Instant};

const CALLS: u32 = 200_000;
const TURNS: usize = 15;

/// How long a client is idle while its signs are counted.
const IDLE: Duration = Duration::from_secs(20);

/// Measures the same scans without a lease and with one, by turns, and counts the signs of an idle
/// client.
pub fn run(folder: &Path) -> Found {
    std::fs::create_dir_all(folder)?;
    let leases = Leases::of(Duration::from_secs(10))?;
    let servers = [start(None)?, start(Some(leases))?];
    let [without, with] = ["without", "with"].map(|name| folder.join(format!("{name}.lock")));
    let clients = [
        filled(Client::join(servers[0].address(), 0, without)?)?,
        filled(Client::join(servers[1].address(), 0, with)?)?,
    ];
    for count in [1, 10, 100] {
        let [without, with] = scans(&clients, count)?;
        println!(
            "cached_into of {count} rows: {without:?} without a lease, {with:?} with one: {:.2} times",
            with.as_secs_f64() / without.as_secs_f64()
        );
    }
    let before = servers[1].status();
    sleep(IDLE);
    let after = servers[1].status();
    println!(
        "{IDLE:?} of an idle client with a lease of 10 s: {} signs, {} messages taken, {} sent",
        after.signs - before.signs,
        after.taken - before.taken,
        after.sent - before.sent
    );
    Ok(true)
}

fn start(leases: Option<Leases>) -> Result<Server, Box<dyn Error>> {
    let builder = Server::builder(Listener::bind(&"127.0.0.1:0".parse()?)?, MemoryStore::default());
    Ok(match leases {
        Some(leases) => builder.leases(leases).start()?,
        None => builder.start()?,
    })
}

/// The client, which reads its 200 rows.
fn filled(client: Client) -> Result<Client, Box<dyn Error>> {
    for key in 0..200 {
        applied(client.insert(key, Value::from(key))?)?;
    }
    client.read(0..200)?;
    Ok(client)
}

/// The middle of the times of a scan of this many rows, for each client.
fn scans(clients: &[Client; 2], count: u64) -> Result<[Duration; 2], Box<dyn Error>> {
    let mut times = [Vec::new(), Vec::new()];
    let mut rows: Vec<Row> = Vec::new();
    for _ in 0..TURNS {
        for (client, times) in clients.iter().zip(&mut times) {
            let begun = Instant::now();
            for _ in 0..CALLS {
                if !client.cached_into(50..50 + count, &mut rows)? {
                    return Err("a scan is not cached".into());
                }
            }
            times.push(begun.elapsed() / CALLS);
        }
    }
    Ok(times.map(|mut times| {
        times.sort_unstable();
        times[TURNS / 2]
    }))
}
