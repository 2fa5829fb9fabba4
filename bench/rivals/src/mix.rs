//! Clients that read ranges and write to them at the same time: 95 percent of the calls read.
//!
//! Each key is written by only one client, by ascending values. So a row is stale that shows a
//! value older than the last one that was acknowledged before the read began.
use crate::clients;
use crate::measures::Plan;
use crate::system::{Caching, Connection, Done, Found, System, number_of};
use krl::Row;
use std::ops::Range;
use std::sync::atomic::{AtomicU64, Ordering};
use std::time::{Duration, Instant};

pub const CLIENTS: u8 = 4;
pub const READS_PERCENT: u64 = 95;
pub const KEYS: u64 = 1000;
pub const ROWS_OF_A_READ: u64 = 10;

/// What was counted after the warm-up.
#[derive(Clone, Debug, Default)]
pub struct Mix {
    pub reads: Calls,
    pub writes: Calls,
    /// Rows that were read.
    pub rows: u64,
    /// Those of them that were stale.
    pub stale: u64,
}

/// Calls of one kind, by how long they took.
#[derive(Clone, Debug)]
pub struct Calls {
    pub count: u64,
    /// How many took less than 2^(n / 8) nanoseconds and not less than the one before.
    by_time: [u64; Calls::STEPS],
}

impl Default for Calls {
    fn default() -> Calls {
        Calls { count: 0, by_time: [0; Calls::STEPS] }
    }
}

impl Calls {
    const STEPS_PER_DOUBLING: f64 = 8.0;
    const STEPS: usize = 8 * 36;

    fn take(&mut self, took: Duration) {
        let step = (took.as_secs_f64() * 1e9).max(1.0).log2() * Calls::STEPS_PER_DOUBLING;
        // The logarithm of a time is small, and not below 0.
        #[expect(clippy::cast_possible_truncation, clippy::cast_sign_loss)]
        let step = (step.ceil() as usize).min(Calls::STEPS - 1);
        self.by_time[step] += 1;
        self.count += 1;
    }

    fn add(&mut self, other: &Calls) {
        self.count += other.count;
        self.by_time.iter_mut().zip(&other.by_time).for_each(|(sum, more)| *sum += more);
    }

    /// This percentage of the calls took at most this long, to a tenth of it.
    pub fn percentile(&self, percent: u64) -> Duration {
        let (mut seen, enough) = (0, self.count * percent / 100);
        let step = self.by_time.iter().position(|count| {
            seen += count;
            seen > enough
        });
        let step = step.and_then(|step| u32::try_from(step).ok()).map_or(0.0, f64::from);
        Duration::from_secs_f64((step / Calls::STEPS_PER_DOUBLING).exp2() / 1e9)
    }
}

impl Mix {
    pub fn calls(&self) -> u64 {
        self.reads.count + self.writes.count
    }

    pub fn add(&mut self, other: &Mix) {
        self.reads.add(&other.reads);
        self.writes.add(&other.writes);
        self.rows += other.rows;
        self.stale += other.stale;
    }
}

/// The value of each key that was last acknowledged.
#[derive(Debug, Default)]
struct Acknowledged(Vec<AtomicU64>);

impl Acknowledged {
    fn read_by(connection: &mut dyn Connection) -> Found<Acknowledged> {
        let (mut all, mut rows) = (Vec::new(), Vec::new());
        for lo in (0..KEYS).step_by(100) {
            connection.read(lo..lo + 100, &mut rows)?;
            all.extend(rows.iter().map(|row| AtomicU64::new(number_of(row))));
        }
        if all.len() as u64 == KEYS {
            Ok(Acknowledged(all))
        } else {
            Err("rows are missing".into())
        }
    }

    fn of(&self, key: u64) -> Found<&AtomicU64> {
        Ok(self.0.get(usize::try_from(key)?).ok_or("there is no such key")?)
    }

    fn note_all(&self, keys: Range<u64>, into: &mut Vec<u64>) -> Done {
        into.clear();
        for key in keys {
            into.push(self.of(key)?.load(Ordering::Acquire));
        }
        Ok(())
    }
}

/// A round of this many clients.
pub fn of(system: &dyn System, clients: u8, caching: Caching, plan: &Plan) -> Found<Mix> {
    let mut connections = clients::connect(system, clients, caching)?;
    let first = connections.first_mut().ok_or("there is no client")?;
    let acknowledged = Acknowledged::read_by(first.as_mut())?;
    connections.iter_mut().try_for_each(|connection| connection.fill(0..KEYS))?;
    let measured_from = Instant::now() + plan.warm_up;
    let all = clients::at_once(&mut connections, |number, connection| {
        let mut client = Client::new(number, clients, connection, &acknowledged);
        client.run(measured_from, measured_from + plan.mixing)
    })?;
    clients::close(connections)?;
    let mut mix = Mix::default();
    for one in &all {
        mix.add(one);
    }
    Ok(mix)
}

struct Client<'a> {
    number: u64,
    clients: u64,
    connection: &'a mut dyn Connection,
    acknowledged: &'a Acknowledged,
    random: Random,
    rows: Vec<Row>,
    /// The least value that each row of a read may have.
    least: Vec<u64>,
}

impl<'a> Client<'a> {
    fn new(
        number: u64,
        clients: u8,
        connection: &'a mut dyn Connection,
        acknowledged: &'a Acknowledged,
    ) -> Client<'a> {
        let (rows, least, random) = (Vec::new(), Vec::new(), Random::of(number));
        Client { number, clients: clients.into(), connection, acknowledged, random, rows, least }
    }

    fn run(&mut self, measured_from: Instant, end: Instant) -> Found<Mix> {
        let mut mix = Mix::default();
        let mut now = Instant::now();
        while now < end {
            let is_measured = now >= measured_from;
            let is_read = self.random.below(100) < READS_PERCENT;
            let stale = if is_read { self.read()? } else { self.write_any().map(|()| 0)? };
            let ended = Instant::now();
            if is_measured {
                let calls = if is_read { &mut mix.reads } else { &mut mix.writes };
                calls.take(ended - now);
                mix.rows += if is_read { self.rows.len() as u64 } else { 0 };
                mix.stale += stale;
            }
            now = ended;
        }
        Ok(mix)
    }

    /// Writes one of its own keys.
    fn write_any(&mut self) -> Done {
        let place = self.random.below(KEYS / self.clients);
        self.write(place * self.clients + self.number)
    }

    /// Reads rows, and returns how many of them are stale.
    fn read(&mut self) -> Found<u64> {
        let lo = self.random.below(KEYS - ROWS_OF_A_READ);
        let keys = lo..lo + ROWS_OF_A_READ;
        self.acknowledged.note_all(keys.clone(), &mut self.least)?;
        if !self.connection.cached(keys.clone(), &mut self.rows) {
            self.connection.read(keys, &mut self.rows)?;
        }
        let rows = self.rows.iter().zip(&self.least);
        Ok(rows.filter(|(row, least)| number_of(row) < **least).count() as u64)
    }

    /// Nobody else writes this key.
    fn write(&mut self, key: u64) -> Done {
        let last = self.acknowledged.of(key)?;
        let next = last.load(Ordering::Acquire) + 1;
        self.connection.write(key, next)?;
        last.store(next, Ordering::Release);
        Ok(())
    }
}

/// Numbers that no processor guesses, the same for each system (SplitMix64).
#[derive(Clone, Copy, Debug)]
pub struct Random(u64);

impl Random {
    pub fn of(seed: u64) -> Random {
        Random(seed)
    }

    /// A number below a bound, which is far below 2^32.
    pub fn below(&mut self, bound: u64) -> u64 {
        self.0 = self.0.wrapping_add(0x9e37_79b9_7f4a_7c15);
        let mixed = (self.0 ^ (self.0 >> 30)).wrapping_mul(0xbf58_476d_1ce4_e5b9);
        let mixed = (mixed ^ (mixed >> 27)).wrapping_mul(0x94d0_49bb_1331_11eb);
        ((mixed >> 32) * bound) >> 32
    }
}

#[cfg(test)]
mod tests {
    use super::*;
    use krl::Value;

    /// A cache that continues to show what it has read first.
    struct Stuck(Vec<u64>);

    impl Connection for Stuck {
        fn fill(&mut self, _: Range<u64>) -> Done {
            Ok(())
        }

        fn cached(&mut self, keys: Range<u64>, rows: &mut Vec<Row>) -> bool {
            *rows = keys.map(|key| Row { key, value: Value::from(0) }).collect();
            true
        }

        fn read(&mut self, _: Range<u64>, _: &mut Vec<Row>) -> Done {
            Err("a cache that has all asks nobody".into())
        }

        fn write(&mut self, key: u64, _: u64) -> Done {
            self.0.push(key);
            Ok(())
        }
    }

    #[test]
    fn a_stale_row_is_noticed_and_each_key_has_one_writer() {
        let acknowledged = Acknowledged((0..KEYS).map(|_| AtomicU64::new(0)).collect());
        let mut stuck = Stuck(Vec::new());
        let mut client = Client::new(3, CLIENTS, &mut stuck, &acknowledged);
        assert_eq!(client.read().unwrap(), 0);
        acknowledged.0.iter().for_each(|it| it.store(1, Ordering::Release));
        assert_eq!(client.read().unwrap(), ROWS_OF_A_READ);
        for _ in 0..1000 {
            client.write_any().unwrap();
        }
        let is_own = |key: &u64| key % u64::from(CLIENTS) == 3;
        assert!(!stuck.0.is_empty() && stuck.0.iter().all(is_own));
    }

    #[test]
    fn a_percentile_is_right_to_a_tenth() {
        let mut calls = Calls::default();
        assert_eq!(calls.percentile(50), Duration::from_nanos(1));
        (1..=1000).for_each(|micros| calls.take(Duration::from_micros(micros)));
        for (percent, micros) in [(50, 500.0), (99, 990.0)] {
            let ratio = calls.percentile(percent).as_secs_f64() * 1e6 / micros;
            assert!((1.0..1.1).contains(&ratio), "{percent}: {ratio}");
        }
    }

    #[test]
    fn numbers_are_below_their_bound_and_reach_it() {
        let mut random = Random::of(7);
        let mut seen = [0; 10];
        (0..10_000).for_each(|_| seen[usize::try_from(random.below(10)).unwrap()] += 1);
        assert!(seen.iter().all(|count| (800..1200).contains(count)), "{seen:?}");
    }
}
