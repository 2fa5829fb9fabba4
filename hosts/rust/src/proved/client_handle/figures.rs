//! How many scans of one client many threads make, compared with a mutex. `bench/readers/run.sh`
//! runs it.
use super::world::{ROWS, STEP, Scanned, World, are_rows};
use super::{ClientHandle, Scan};
use crate::lease::boot_clock::Moment;
use crate::lease::clocks::Now;
use crate::model::row::Row;
use std::ops::Range;
use std::sync::atomic::{AtomicU32, Ordering};
use std::sync::{Arc, Barrier, Mutex, OnceLock};
use std::time::{Duration, Instant};

/// How long one round takes.
const ROUND: Duration = Duration::from_millis(4);

/// The writer makes callbacks at this rate. A round in which it makes fewer than this does not
/// count.
const PACE: Duration = Duration::from_micros(100);
const LEAST_CALLBACKS: f64 = 8_000.0;

type Scans<'s> = &'s (dyn Fn(&Range<u64>, &mut Vec<Row>) -> bool + Sync);

/// What one round has.
#[derive(Clone, Copy)]
struct Load {
    rows: u64,
    threads: usize,
    writes: bool,
}

/// In one round: scans of all threads, and callbacks, each in a second.
#[derive(Clone, Copy, Default)]
struct Figures {
    scans: f64,
    callbacks: f64,
}

impl Load {
    fn counts(self, figures: Figures) -> bool {
        !self.writes || figures.callbacks >= LEAST_CALLBACKS
    }

    /// Scans at places that no processor can guess until the end, and returns how many.
    fn scan_until(self, end: Instant, seed: u64, scan: Scans) -> u32 {
        const AT_ONCE: u32 = 16;
        let mut rows = Vec::with_capacity(usize::try_from(self.rows).unwrap());
        let (mut drawn, mut count) = (0x0139_408d_cbbf_7a44 ^ (seed + 1), 0);
        while Instant::now() < end {
            for _ in 0..AT_ONCE {
                drawn ^= drawn << 13;
                drawn ^= drawn >> 7;
                drawn ^= drawn << 17;
                let lo = STEP * (drawn % (ROWS - self.rows - 1));
                let keys = lo..lo + STEP * self.rows;
                assert!(scan(&keys, &mut rows) && are_rows(&rows, &keys));
            }
            count += AT_ONCE;
        }
        count
    }

    fn round<S: Scanned>(self, world: &mut World<S>, scan: Scans) -> Figures {
        const SOON: Duration = Duration::from_micros(100);
        let (scans, ready) = (AtomicU32::new(0), Barrier::new(self.threads + 1));
        let (begin, mut callbacks) = (OnceLock::new(), 0);
        std::thread::scope(|scope| {
            for seed in 0..self.threads as u64 {
                let (scans, ready, begin) = (&scans, &ready, &begin);
                scope.spawn(move || {
                    ready.wait();
                    let count = self.scan_until(await_begin(begin) + ROUND, seed, scan);
                    scans.fetch_add(count, Ordering::Relaxed);
                });
            }
            ready.wait();
            begin.get_or_init(|| Instant::now() + SOON);
            let end = await_begin(&begin) + ROUND;
            if self.writes {
                callbacks = call_back_until(end, world);
            }
        });
        let in_a_second = |count: u32| f64::from(count) / ROUND.as_secs_f64();
        Figures { scans: in_a_second(scans.into_inner()), callbacks: in_a_second(callbacks) }
    }
}

/// Waits until all begin: a thread that comes too late for it counts the less.
fn await_begin(begin: &OnceLock<Instant>) -> Instant {
    while begin.get().is_none_or(|begin| Instant::now() < *begin) {
        std::hint::spin_loop();
    }
    *begin.wait()
}

fn call_back_until<S: Scanned>(end: Instant, world: &mut World<S>) -> u32 {
    let (mut next, mut count) = (Instant::now(), 0);
    while Instant::now() < end {
        world.take_last();
        world.give_last_back();
        count += 1;
        next += PACE;
        if Instant::now() > next + 10 * PACE {
            // What is that late is not made up for.
            next = Instant::now();
        }
        while Instant::now() < next {
            std::hint::spin_loop();
        }
    }
    count
}

fn loads() -> impl Iterator<Item = Load> {
    let writers = |rows| [false, true].map(move |writes| (rows, writes));
    let threads = |(rows, writes)| [1, 2, 4].map(move |threads| Load { rows, threads, writes });
    [1, 100].into_iter().flat_map(writers).flat_map(threads)
}

/// `KRL_ROUNDS` is the number of rounds.
#[test]
#[ignore = "it takes a minute, and measures"]
fn many_readers() {
    let rounds = std::env::var("KRL_ROUNDS").map_or(100, |rounds| rounds.parse().unwrap());
    let mut gated = World::new(|client| client);
    let cache = gated.scanned.cache();
    let by_gate = |keys: &Range<u64>, rows: &mut Vec<Row>| {
        cache.scan(keys, rows, Moment::now) == Ok(Scan::Rows)
    };
    let mut locked = World::new(|client: ClientHandle| Arc::new(Mutex::new(client)));
    let (client, now) = (Arc::clone(&locked.scanned), Now::read());
    let by_mutex = |keys: &Range<u64>, rows: &mut Vec<Row>| {
        client.lock().unwrap().scan(keys, rows, now) == Ok(Scan::Rows)
    };
    println!(
        "| rows | callbacks | threads | mutex, k/s | gate, k/s | gate / mutex | gate / its 1 |"
    );
    println!("| --- | --- | --- | --- | --- | --- | --- |");
    let mut alone = 0.0;
    for load in loads() {
        let mut best = [Figures::default(); 2];
        for _ in 0..rounds {
            let made = [load.round(&mut locked, &by_mutex), load.round(&mut gated, &by_gate)];
            for (best, made) in best.iter_mut().zip(made) {
                if load.counts(made) && made.scans > best.scans {
                    *best = made;
                }
            }
        }
        let [mutex, gate] = best;
        if load.threads == 1 {
            alone = gate.scans;
        }
        println!(
            "| {} | {} | {} | {:.0} | {:.0} | {:.2} | {:.2} |",
            load.rows,
            if load.writes { "10,000/s" } else { "none" },
            load.threads,
            mutex.scans / 1e3,
            gate.scans / 1e3,
            gate.scans / mutex.scans,
            gate.scans / alone,
        );
    }
}
