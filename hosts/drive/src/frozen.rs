//! A client that only reads, and whose server is frozen: how long it takes until another server
//! answers it.
use crate::Found;
use crate::applied::applied;
use crate::clients::ENDING;
use crate::site::Site;
use crate::stand_bys::{ClientLeases, LEASE, StandBys};
use krl::{Client, Servers, Value};
use std::error::Error;
use std::ops::Range;
use std::path::Path;
use std::time::{Duration, Instant};

/// The rows of one range.
const ROWS: u64 = 10;

pub fn run(folder: &Path, rounds: u64, program: &Path, site: Site) -> Found {
    std::fs::create_dir_all(folder)?;
    // What the reader keeps has to outlive a server, and not a lease.
    let mut servers = StandBys::start(folder, (program, ClientLeases::None), site)?;
    let writer = join(&servers, 1, folder)?;
    fill(&writer, 2 * rounds)?;
    writer.leave()?;
    let reader = join(&servers, 0, folder)?;
    let mut times = Vec::new();
    for round in 0..rounds {
        times.push(freeze(&mut servers, &reader, (range(round), range(rounds + round)))?);
    }
    reader.leave()?;
    times.sort_unstable();
    println!(
        "a client that reads by itself, {rounds} times a frozen server {}: answered by another one \
         after {} ms in the middle and {} at worst; a lease is {} ms",
        servers.site,
        times[times.len() / 2].as_millis(),
        times[times.len() - 1].as_millis(),
        1000 * LEASE
    );
    Ok(true)
}

fn join(servers: &StandBys, number: u8, folder: &Path) -> Result<Client, Box<dyn Error>> {
    let (at, lock): (Servers, _) =
        (servers.addresses().parse()?, folder.join(format!("client-{number}.lock")));
    Ok(Client::builder(at, number, lock).timeout(ENDING).join()?)
}

/// The keys of one range.
fn range(place: u64) -> Range<u64> {
    1000 * place..1000 * place + 10 * ROWS
}

fn fill(client: &Client, ranges: u64) -> Result<(), Box<dyn Error>> {
    for key in (0..ranges).flat_map(|place| range(place).step_by(10)) {
        applied(client.insert(key, Value::from(key))?)?;
    }
    Ok(())
}

/// Freezes the server after a first read, and returns how long the second one takes.
fn freeze(
    servers: &mut StandBys,
    reader: &Client,
    (first, second): (Range<u64>, Range<u64>),
) -> Result<Duration, Box<dyn Error>> {
    let old = servers.wait_for(|_| true)?;
    expect(reader.read(first.clone())?.len())?;
    servers.server(old).signal("-STOP")?;
    let begun = Instant::now();
    let read = reader.read(second);
    let took = begun.elapsed();
    servers.server(old).signal("-CONT")?;
    expect(read?.len())?;
    // What it has read before it has kept.
    expect(reader.cached(first)?.map_or(0, |rows| rows.len()))?;
    Ok(took)
}

fn expect(rows: usize) -> Result<(), Box<dyn Error>> {
    if rows as u64 == ROWS { Ok(()) } else { Err(format!("a range has {rows} rows").into()) }
}
