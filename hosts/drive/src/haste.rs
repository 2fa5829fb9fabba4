//! How long a patient client waits next to a hasty one, which always has a lock request on its way,
//! over a network that loses nothing.
use crate::Found;
use crate::delayed;
use krl::{Address, Client, Listener, MemoryStore, Outcome, Row, Server, Value};
use std::error::Error;
use std::ops::Range;
use std::path::Path;
use std::sync::atomic::{AtomicBool, AtomicU64, Ordering};
use std::thread;
use std::time::{Duration, Instant};

/// Each message takes this long.
const DELAY: Duration = Duration::from_millis(1);

/// A range with one row or none, and the key of its row.
const FEW_ROWS: Range<u64> = 0..100;
const NO_ROWS: Range<u64> = 1000..1100;
const KEY: u64 = 50;

/// Ranges of as many rows as one grant takes.
const MANY_ROWS: Range<u64> = 2000..2128;
const OTHER_ROWS: Range<u64> = 3000..3128;

/// A run ends when the hasty client has been granted this much, or after this time.
const GRANTS: u64 = 10_000;
const LONGEST: Duration = Duration::from_secs(6);

/// How long the patient one rests between two writes, and how long the hasty one between two looks
/// at what it has in its cache.
const REST: Duration = Duration::from_millis(5);
const CACHE_CHECK_INTERVAL: Duration = Duration::from_micros(50);

/// How long a call waits.
const TIMEOUT: Duration = Duration::from_secs(10);

/// How often the smallest answer time is taken.
const TRIPS: u64 = 100;

/// The patient client waits for no more round trips than this, each as much longer as a thread of
/// this machine was kept from running.
const MAX_TRIPS: u32 = 10;

/// What the hasty client does with the range that the patient one wants. It gives the other one
/// back as soon as it has it.
#[derive(Clone, Copy, Debug)]
enum Habit {
    /// It gives that back too.
    GivesBack,
    /// It keeps that until it is called back, and asks for it again then.
    Keeps,
    /// It gives that back too, and takes 128 slots by each grant.
    TakesMany,
}

impl Habit {
    /// What the hasty client reads, each range in a thread of its own. The patient one writes into
    /// the first of them.
    fn ranges(self) -> [Range<u64>; 2] {
        match self {
            Habit::GivesBack | Habit::Keeps => [FEW_ROWS, NO_ROWS],
            Habit::TakesMany => [MANY_ROWS, OTHER_ROWS],
        }
    }

    /// The row that the patient client writes.
    fn key(self) -> u64 {
        match self {
            Habit::GivesBack | Habit::Keeps => KEY,
            Habit::TakesMany => u64::midpoint(MANY_ROWS.start, MANY_ROWS.end),
        }
    }
}

/// What both clients share while they run.
#[derive(Debug)]
struct Run {
    begun: Instant,
    granted: AtomicU64,
    is_over: AtomicBool,
}

impl Run {
    fn is_over(&self) -> bool {
        self.is_over.load(Ordering::Relaxed)
            || self.granted.load(Ordering::Relaxed) >= GRANTS
            || self.begun.elapsed() > LONGEST
    }

    /// The hasty client reads a range again and again, and does this after each read.
    fn read_again(
        &self,
        client: &Client,
        range: Range<u64>,
        then: impl Fn(Range<u64>) -> Result<(), krl::Error>,
    ) -> Result<(), String> {
        while !self.is_over() {
            client.read(range.clone()).map_err(|refused| refused.to_string())?;
            self.granted.fetch_add(1, Ordering::Relaxed);
            then(range.clone()).map_err(|refused| refused.to_string())?;
        }
        Ok(())
    }

    /// How much longer than it asked for a thread has slept at most.
    fn longest_stall(&self) -> Duration {
        let mut longest = Duration::ZERO;
        while !self.is_over() {
            let begun = Instant::now();
            thread::sleep(CACHE_CHECK_INTERVAL);
            longest = longest.max(begun.elapsed().saturating_sub(CACHE_CHECK_INTERVAL));
        }
        longest
    }

    /// Waits until a range is called back.
    fn keep(&self, client: &Client, range: &Range<u64>) {
        while !self.is_over() && matches!(client.cached(range.clone()), Ok(Some(_))) {
            thread::sleep(CACHE_CHECK_INTERVAL);
        }
    }

    /// The patient client writes now and then. Returns how long each write took.
    fn write_at_times(&self, client: &Client, key: u64) -> Result<Vec<Duration>, Box<dyn Error>> {
        let mut waits = Vec::new();
        while !self.is_over() {
            thread::sleep(REST);
            let asked = Instant::now();
            let outcome = client.put(key, Value::from(waits.len() as u64))?;
            waits.push(asked.elapsed());
            if outcome != Outcome::Applied {
                return Err("the row of the patient client is gone".into());
            }
        }
        Ok(waits)
    }
}

/// What a run has measured.
#[derive(Debug)]
struct Measured {
    granted: u64,
    /// In ascending order.
    waits: Vec<Duration>,
    stall: Duration,
}

/// A habit is measured this many times at most: what other programs of the machine do is not a
/// fault.
const ATTEMPTS: u32 = 3;

/// Measures each habit. The patient client may not wait for many round trips, at least in one of a
/// few attempts.
pub fn run(folder: &Path) -> Found {
    std::fs::create_dir_all(folder)?;
    let listener = Listener::bind(&"127.0.0.1:0".parse()?)?;
    let keys = MANY_ROWS.chain(OTHER_ROWS).chain([KEY]);
    let store: MemoryStore = keys.map(|key| Row { key, value: Value::from(key) }).collect();
    let server = Server::start(listener, store)?;
    let Address::Tcp(at) = *server.address() else { return Err("it listens elsewhere".into()) };
    let at = delayed::start(at, DELAY)?;
    let join = |number: u8| Client::join(at, number, folder.join(format!("client-{number}.lock")));
    let (hasty, patient) = (join(0)?, join(1)?);
    let trip = smallest_trip(&hasty)?;
    patient.set_timeout(TIMEOUT);
    let is_bounded = |habit: Habit| -> Found {
        let taken = server.status().taken;
        let measured = measure(&hasty, &patient, habit)?;
        Ok(is_bounded(habit, &measured, server.status().taken - taken, trip))
    };
    for habit in [Habit::GivesBack, Habit::Keeps, Habit::TakesMany] {
        let mut attempts = 1;
        while !is_bounded(habit)? {
            if attempts == ATTEMPTS {
                return Ok(false);
            }
            attempts += 1;
        }
    }
    Ok(true)
}

/// Prints what was measured, and returns whether the patient client waited for few round trips.
fn is_bounded(habit: Habit, measured: &Measured, messages: u64, trip: Duration) -> bool {
    let Measured { granted, waits, stall } = measured;
    let in_trips = |wait: Duration| wait.as_secs_f64() / trip.as_secs_f64();
    let middle = waits.get(waits.len() / 2).copied().unwrap_or(TIMEOUT);
    let longest = waits.last().copied().unwrap_or(TIMEOUT);
    let long = waits.iter().filter(|wait| **wait > MAX_TRIPS * trip).count();
    let bound = MAX_TRIPS * (trip + *stall);
    println!(
        "{habit:?}: {granted} grants, {messages} messages to the server; a patient client wrote \
         {} times, and waited {:.1} round trips of {trip:.1?} at the middle and {:.1} at the \
         longest, of {:.1} that it may on this machine; {long} waits took more than {MAX_TRIPS}",
        waits.len(),
        in_trips(middle),
        in_trips(longest),
        in_trips(bound)
    );
    longest <= bound
}

/// How much the hasty client was granted, how long the patient one waited each time, and how long a
/// thread that wanted to run had to wait.
fn measure(hasty: &Client, patient: &Client, habit: Habit) -> Result<Measured, Box<dyn Error>> {
    let run =
        Run { begun: Instant::now(), granted: AtomicU64::new(0), is_over: AtomicBool::new(false) };
    let [wanted, other] = habit.ranges();
    let (mut waits, stall) = thread::scope(|scope| {
        let stall = scope.spawn(|| run.longest_stall());
        let wanted = scope.spawn(|| match habit {
            Habit::GivesBack | Habit::TakesMany => {
                run.read_again(hasty, wanted, |range| hasty.forget(range))
            }
            Habit::Keeps => run.read_again(hasty, wanted, |range| {
                run.keep(hasty, &range);
                Ok(())
            }),
        });
        let other = scope.spawn(|| run.read_again(hasty, other, |range| hasty.forget(range)));
        let waits = run.write_at_times(patient, habit.key());
        run.is_over.store(true, Ordering::Relaxed);
        for reader in [wanted, other] {
            reader.join().map_err(|_| "a reader panicked")??;
        }
        let stall = stall.join().map_err(|_| "the thread that sleeps panicked")?;
        waits.map(|waits| (waits, stall))
    })?;
    waits.sort_unstable();
    Ok(Measured { granted: run.granted.into_inner(), waits, stall })
}

/// The smallest time of a request and its answer.
fn smallest_trip(client: &Client) -> Result<Duration, Box<dyn Error>> {
    let mut smallest = TIMEOUT;
    for _ in 0..TRIPS {
        let begun = Instant::now();
        client.read(NO_ROWS)?;
        smallest = smallest.min(begun.elapsed());
        client.forget(NO_ROWS)?;
    }
    Ok(smallest)
}
