//! What is measured of a system.
use crate::clients;
use crate::figures::{Figures, Round, What};
use crate::mix;
use crate::system::{Caching, Connection, Done, Found, System, Table};
use krl::Row;
use std::ops::Range;
use std::time::{Duration, Instant};

/// How many rows a scan has.
pub const SCAN: u64 = 100;

/// How many ranges are read for the first time, evenly over the table.
const RANGES: u64 = 100;

/// How many rows are brought into an empty cache, and scanned there.
pub const WARMED: u64 = 10_000;

/// Cached scans are timed together, so that the clock does not count, and few at a time, so that
/// other work of the machine meets few of the batches.
const BATCH: u32 = 200;

/// How many writers write at once, apart from only one.
pub const WRITERS: [u8; 3] = [4, 8, 16];

/// How long it is measured.
#[derive(Clone, Copy, Debug)]
pub struct Plan {
    pub cached_batches: u32,
    pub writing: Duration,
    pub warm_up: Duration,
    pub mixing: Duration,
}

impl Plan {
    pub const STANDARD: Plan = Plan {
        cached_batches: 100,
        writing: Duration::from_millis(700),
        warm_up: Duration::from_millis(300),
        mixing: Duration::from_secs(1),
    };

    /// The same, but the mix is measured for this many seconds.
    pub fn mixing_for(self, seconds: u32) -> Plan {
        Plan { mixing: Duration::from_secs(seconds.into()), ..self }
    }
}

/// One round of what a client reads first.
pub fn first_reads(system: &dyn System, table: Table, figures: &mut Figures) -> Done {
    figures.rounds.push(reads(system, table)?);
    Ok(())
}

fn reads(system: &dyn System, table: Table) -> Found<Round> {
    let mut connection = system.connect(0, Caching::On)?;
    let mut round: Round = [(What::FirstScan, first_scan(connection.as_mut(), table)?)].into();
    connection.close()?;
    round.extend(warming(system)?.map(|took| (What::Warming, took)));
    Ok(round)
}

/// One round of what clients write.
pub fn synced_writes(system: &dyn System, plan: &Plan, figures: &mut Figures) -> Done {
    figures.rounds.push(written(system, plan)?);
    Ok(())
}

fn written(system: &dyn System, plan: &Plan) -> Found<Round> {
    let mut times = writes(system, 1, plan.writing)?;
    let mut round: Round = [(What::Write, middle(&mut times).as_secs_f64())].into();
    for writers in WRITERS {
        let count = writes(system, writers, plan.writing)?.len() as u64;
        round.insert(What::Writes(writers), rate(count, plan.writing));
    }
    Ok(round)
}

/// One round.
pub fn of(system: &dyn System, table: Table, plan: &Plan, figures: &mut Figures) -> Done {
    let mut round = reads(system, table)?;
    let mut connection = system.connect(0, Caching::On)?;
    let scan = cached_scan(connection.as_mut(), plan.cached_batches)?;
    round.extend(scan.map(|took| (What::CachedScan, took)));
    connection.close()?;
    round.extend(written(system, plan)?);
    let mix = mix::of(system, mix::CLIENTS, Caching::On, plan)?;
    let calls = rate(mix.calls(), plan.mixing);
    let fresh_calls = if system.may_be_stale() {
        rate(mix::of(system, mix::CLIENTS, Caching::Off, plan)?.calls(), plan.mixing)
    } else {
        calls
    };
    round.extend([(What::Calls, calls), (What::FreshCalls, fresh_calls)]);
    figures.rounds.push(round);
    figures.rows += mix.rows;
    figures.stale += mix.stale;
    Ok(())
}

/// Calls a second.
pub fn rate(calls: u64, time: Duration) -> f64 {
    // A count of calls is far below 2^53.
    #[expect(clippy::cast_precision_loss)]
    let calls = calls as f64;
    calls / time.as_secs_f64()
}

fn middle(times: &mut [Duration]) -> Duration {
    times.sort_unstable();
    times.get(times.len() / 2).copied().unwrap_or_default()
}

/// In seconds.
fn first_scan(connection: &mut dyn Connection, table: Table) -> Found<f64> {
    // 37 and 100 have no common factor: each range comes once, and no two neighbors in a row.
    let starts = (0..RANGES).map(|turn| turn * 37 % RANGES * (table.rows / RANGES));
    let mut rows = Vec::new();
    let times: Found<Vec<Duration>> =
        starts.map(|lo| timed_read(connection, lo..lo + SCAN, &mut rows)).collect();
    Ok(middle(&mut times?).as_secs_f64())
}

/// The seconds until a new client has these rows in its cache; `None` if it has none.
fn warming(system: &dyn System) -> Found<Option<f64>> {
    let mut connection = system.connect(0, Caching::On)?;
    let begun = Instant::now();
    connection.fill(0..WARMED)?;
    let (took, mut rows) = (begun.elapsed(), Vec::new());
    let is_cached = connection.cached(0..WARMED, &mut rows);
    connection.close()?;
    if !is_cached {
        return Ok(None);
    }
    expect_rows(&(0..WARMED), &rows)?;
    Ok(Some(took.as_secs_f64()))
}

fn timed_read(
    connection: &mut dyn Connection,
    keys: Range<u64>,
    rows: &mut Vec<Row>,
) -> Found<Duration> {
    let begun = Instant::now();
    connection.read(keys.clone(), rows)?;
    let took = begun.elapsed();
    expect_rows(&keys, rows)?;
    Ok(took)
}

fn expect_rows(keys: &Range<u64>, rows: &[Row]) -> Done {
    if rows.iter().map(|row| row.key).eq(keys.clone()) {
        return Ok(());
    }
    Err(format!("a read of the keys {keys:?} has {} rows, not these", rows.len()).into())
}

/// The seconds of a scan, of the middle one of this many batches; `None` if there is no cache.
fn cached_scan(connection: &mut dyn Connection, batches: u32) -> Found<Option<f64>> {
    connection.fill(0..WARMED)?;
    let mut rows = Vec::new();
    if !connection.cached(0..SCAN, &mut rows) {
        return Ok(None);
    }
    let mut random = mix::Random::of(1);
    let times: Found<Vec<Duration>> =
        (0..batches).map(|_| timed_batch(connection, &mut random, &mut rows)).collect();
    Ok(Some((middle(&mut times?) / BATCH).as_secs_f64()))
}

/// Scans at places that no processor can guess.
fn timed_batch(
    connection: &mut dyn Connection,
    random: &mut mix::Random,
    rows: &mut Vec<Row>,
) -> Found<Duration> {
    let mut found = 0;
    let begun = Instant::now();
    for _ in 0..BATCH {
        let lo = random.below(WARMED - SCAN);
        connection.cached(lo..lo + SCAN, rows);
        found += rows.len() as u64;
    }
    let took = begun.elapsed();
    if found == u64::from(BATCH) * SCAN { Ok(took) } else { Err("a cached scan lacks rows".into()) }
}

/// The time of each write of so many writers, each of rows of its own.
fn writes(system: &dyn System, writers: u8, time: Duration) -> Found<Vec<Duration>> {
    let mut connections = clients::connect(system, writers, Caching::On)?;
    let end = Instant::now() + time;
    let times = clients::at_once(&mut connections, |number, it| write(it, number, end))?;
    clients::close(connections)?;
    Ok(times.concat())
}

/// The first keys of two writers are so far apart.
const WRITTEN: u64 = 500;

fn write(connection: &mut dyn Connection, writer: u64, end: Instant) -> Found<Vec<Duration>> {
    let mut times = Vec::new();
    let mut begun = Instant::now();
    while begun < end {
        let place = times.len() as u64;
        connection.write(WRITTEN * (1 + writer) + place % 10, place)?;
        let ended = Instant::now();
        times.push(ended - begun);
        begun = ended;
    }
    Ok(times)
}

#[cfg(test)]
mod tests {
    use super::*;

    #[test]
    fn the_middle_time() {
        let mut times = [5, 1, 9, 3, 7].map(Duration::from_micros);
        assert_eq!(middle(&mut times), Duration::from_micros(5));
        assert_eq!(middle(&mut []), Duration::ZERO);
    }
}
