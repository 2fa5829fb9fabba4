//! What a thread of a benchmark does.
use crate::arguments::{BenchWords, Mix, Skew};
use crate::bench::histogram::Histogram;
use crate::failure::Failure;
use crate::signals::Taken;
use krl::{Client, MAX_VALUE_BYTES, Outcome, Reader, Row, Value};
use rand::Rng;
use rand::SeedableRng;
use rand::distributions::{Distribution, WeightedIndex};
use rand::rngs::StdRng;
use std::ops::Range;
use std::sync::Arc;
use std::thread;
use std::time::{Duration, Instant};

/// What was measured.
#[derive(Clone, Debug, Default)]
pub struct Measured {
    /// Reads that the cache answered.
    pub cached: Histogram,
    /// Reads that asked the server.
    pub asked: Histogram,
    /// Writes that were applied.
    pub writes: Histogram,
    /// Reads of readers.
    pub by_readers: Histogram,
    /// How many of them the reader made that made the fewest.
    pub fewest_of_a_reader: Option<u64>,
    /// Calls that got no answer, also those of the warm-up.
    pub failed: u64,
}

/// When the calls are measured, and when they end.
#[derive(Clone, Copy, Debug)]
pub struct Span {
    /// The warm-up is over.
    pub measured_from: Instant,
    pub end: Instant,
}

impl Span {
    /// A warm-up from this moment on, and then what is measured, both in seconds.
    pub fn from(begin: Instant, warm_up: u64, seconds: u64) -> Span {
        let measured_from = begin + Duration::from_secs(warm_up);
        Span { measured_from, end: measured_from + Duration::from_secs(seconds) }
    }

    /// Calls of the warm-up are made and not counted.
    pub fn counts(&self, call_begun: Instant) -> bool {
        call_begun >= self.measured_from
    }
}

/// A value of this many bytes, 32 at most.
pub fn random_value(random: &mut impl Rng, size: u8) -> Value {
    let bytes: [u8; MAX_VALUE_BYTES] = random.r#gen();
    Value::try_from(&bytes[..MAX_VALUE_BYTES.min(size.into())]).unwrap_or_default()
}

impl Measured {
    /// Counts all that the other one has counted.
    pub fn add(&mut self, other: &Measured) {
        self.cached.add(&other.cached);
        self.asked.add(&other.asked);
        self.writes.add(&other.writes);
        self.by_readers.add(&other.by_readers);
        let fewest = self.fewest_of_a_reader.into_iter().chain(other.fewest_of_a_reader);
        self.fewest_of_a_reader = fewest.min();
        self.failed += other.failed;
    }
}

/// Which key comes next, as its place among the keys.
#[derive(Clone, Debug)]
enum Places {
    Uniform(u64),
    Weighted(WeightedIndex<f64>),
}

impl Places {
    fn of(skew: Skew, count: u64) -> Result<Places, Failure> {
        let Skew::Zipf(exponent) = skew else { return Ok(Places::Uniform(count)) };
        // A rank is at most 65,536, which a float has exactly.
        #[expect(clippy::cast_precision_loss)]
        let weights = (1..=count).map(|rank| (rank as f64).powf(-exponent));
        let weighted = WeightedIndex::new(weights)
            .map_err(|error| Failure::Usage(format!("no such skew: {error}")))?;
        Ok(Places::Weighted(weighted))
    }

    fn next(&self, random: &mut impl Rng) -> u64 {
        match self {
            Places::Uniform(count) => random.gen_range(0..*count),
            Places::Weighted(weighted) => weighted.sample(random) as u64,
        }
    }
}

/// How often a thread that waits for its next call looks whether it is to end.
const END_CHECK_INTERVAL: Duration = Duration::from_millis(50);

/// When a thread that keeps to a rate makes its next call.
#[derive(Clone, Copy, Debug)]
struct Pace {
    every: Duration,
    next: Instant,
}

impl Pace {
    /// The pace of one of `threads` threads that together make `rate` calls a second. It begins at
    /// a random moment, so that they do not call all at once.
    fn of(rate: u32, threads: u32, random: &mut impl Rng) -> Pace {
        let every = Duration::from_secs(threads.into()) / rate;
        Pace { every, next: Instant::now() + every.mul_f64(random.r#gen()) }
    }

    /// How long to wait until the next call, which is due then.
    fn wait(&mut self, now: Instant) -> Option<Duration> {
        if now < self.next {
            return Some(self.next - now);
        }
        self.next = now + self.every;
        None
    }
}

/// A thread that only reads, without a client.
pub struct ReadingWorker {
    reader: Reader,
    keys: Range<u64>,
    places: Places,
    /// Rows of each read.
    rows: u64,
    random: StdRng,
}

impl ReadingWorker {
    pub fn new(
        reader: Reader,
        keys: &Range<u64>,
        words: &BenchWords,
    ) -> Result<ReadingWorker, Failure> {
        let places = Places::of(words.skew, words.keys)?;
        let (keys, random) = (keys.clone(), StdRng::from_entropy());
        Ok(ReadingWorker { reader, keys, places, rows: words.rows, random })
    }

    /// Reads until the time, or until a signal.
    pub fn run(&mut self, span: Span, signals: &Taken<'_>) -> Measured {
        let mut measured = Measured::default();
        loop {
            let begun = Instant::now();
            if begun >= span.end || signals.is_ended() {
                measured.fewest_of_a_reader = Some(measured.by_readers.count());
                return measured;
            }
            let place = self.places.next(&mut self.random);
            match self.reader.read(keys_from(&self.keys, place, self.rows)) {
                Ok(_) => measured.by_readers.record_if(span.counts(begun), begun.elapsed()),
                Err(_) => measured.failed += 1,
            }
        }
    }
}

/// This many keys from this place on, or the last ones.
fn keys_from(keys: &Range<u64>, place: u64, rows: u64) -> Range<u64> {
    let lo = (keys.start + place).min(keys.end - rows);
    lo..lo + rows
}

/// A thread of a client.
pub struct Worker {
    client: Arc<Client>,
    pace: Option<Pace>,
    keys: Range<u64>,
    places: Places,
    mix: Mix,
    /// Rows of each read.
    rows: u64,
    /// Bytes of each value.
    value_size: u8,
    random: StdRng,
    room: Vec<Row>,
    measured: Measured,
}

impl Worker {
    pub fn new(
        client: Arc<Client>,
        keys: &Range<u64>,
        words: &BenchWords,
    ) -> Result<Worker, Failure> {
        let mut random = StdRng::from_entropy();
        let threads = u32::from(words.clients) * u32::from(words.threads);
        Ok(Worker {
            client,
            pace: words.rate.map(|rate| Pace::of(rate, threads, &mut random)),
            keys: keys.clone(),
            places: Places::of(words.skew, words.keys)?,
            mix: words.mix,
            rows: words.rows,
            value_size: words.value_size,
            random,
            room: Vec::new(),
            measured: Measured::default(),
        })
    }

    /// Reads and writes until the time, or until a signal.
    pub fn run(&mut self, span: Span, signals: &Taken<'_>) -> Measured {
        loop {
            let now = Instant::now();
            if now >= span.end || signals.is_ended() {
                return std::mem::take(&mut self.measured);
            }
            if let Some(wait) = self.pace.as_mut().and_then(|pace| pace.wait(now)) {
                thread::sleep(wait.min(END_CHECK_INTERVAL));
                continue;
            }
            let counted = span.counts(now);
            let place = self.places.next(&mut self.random);
            if self.random.gen_range(0..100) < self.mix.reads {
                self.read(place, counted);
            } else {
                self.write(place, counted);
            }
        }
    }

    /// Reads rows from this place on, as many as are asked for.
    fn read(&mut self, place: u64, counted: bool) {
        let keys = keys_from(&self.keys, place, self.rows);
        let begun = Instant::now();
        if self.client.cached_into(keys.clone(), &mut self.room).is_ok_and(|is_cached| is_cached) {
            self.measured.cached.record_if(counted, begun.elapsed());
            return;
        }
        match self.client.read(keys) {
            Ok(_) => self.measured.asked.record_if(counted, begun.elapsed()),
            Err(_) => self.measured.failed += 1,
        }
    }

    fn write(&mut self, place: u64, counted: bool) {
        let value = random_value(&mut self.random, self.value_size);
        let begun = Instant::now();
        match self.client.put(self.keys.start + place, value) {
            Ok(Outcome::Applied) => self.measured.writes.record_if(counted, begun.elapsed()),
            _ => self.measured.failed += 1,
        }
    }
}

#[cfg(test)]
mod tests {
    use super::*;

    fn counts(skew: Skew, count: u64, draws: u64) -> Vec<u64> {
        let places = Places::of(skew, count).unwrap();
        let mut random = StdRng::seed_from_u64(1);
        let mut counts = vec![0; usize::try_from(count).unwrap()];
        for _ in 0..draws {
            counts[usize::try_from(places.next(&mut random)).unwrap()] += 1;
        }
        counts
    }

    #[test]
    fn a_pace_is_kept_and_what_was_missed_is_not_made_up_for() {
        let mut pace = Pace::of(50, 100, &mut StdRng::seed_from_u64(1));
        assert_eq!(pace.every, Duration::from_secs(2));
        let late = pace.next + Duration::from_secs(9);
        assert_eq!(pace.wait(late), None);
        assert_eq!(pace.wait(late), Some(pace.every));
        assert_eq!(pace.wait(late + pace.every), None);
    }

    #[test]
    fn uniform_places_are_equally_frequent() {
        let counts = counts(Skew::Uniform, 10, 100_000);
        assert!(counts.iter().all(|count| (9_000..11_000).contains(count)), "{counts:?}");
    }

    /// The weight of the ranks from 1 to the count, each a share of them all.
    fn shares(exponent: f64, count: u32) -> Vec<f64> {
        let weights = (1..=count).map(|rank| f64::from(rank).powf(-exponent));
        let sum: f64 = weights.clone().sum();
        weights.map(|weight| weight / sum).collect()
    }

    #[test]
    fn places_are_drawn_as_often_as_their_ranks_weigh() {
        const DRAWS: u32 = 400_000;
        for exponent in [0.0, 0.5, 1.0, 1.5] {
            let counts = counts(Skew::Zipf(exponent), 50, DRAWS.into());
            for (count, share) in counts.into_iter().zip(shares(exponent, 50)) {
                let expected = share * f64::from(DRAWS);
                let found = f64::from(u32::try_from(count).unwrap());
                // Five standard deviations of a count that is drawn so.
                let spread = 5.0 * expected.sqrt();
                assert!((found - expected).abs() < spread, "{exponent}: {found} for {expected}");
            }
        }
    }

    #[test]
    fn every_place_is_drawn_and_none_besides() {
        for skew in [Skew::Uniform, Skew::Zipf(1.0)] {
            assert_eq!(counts(skew, 1, 100), [100]);
            assert!(counts(skew, 100, 100_000).iter().all(|count| *count > 0));
        }
    }

    #[test]
    fn calls_of_the_warm_up_are_not_counted() {
        let begin = Instant::now();
        let span = Span::from(begin, 2, 3);
        let counts = [0, 1999, 2000, 4999].map(|it| span.counts(begin + Duration::from_millis(it)));
        assert_eq!(counts, [false, false, true, true]);
        assert_eq!(span.end - begin, Duration::from_secs(5));
        assert!(Span::from(begin, 0, 1).counts(begin));
    }

    #[test]
    fn values_have_their_size() {
        let mut random = StdRng::seed_from_u64(1);
        for size in [0, 1, 8, 32] {
            assert_eq!(random_value(&mut random, size).as_bytes().len(), usize::from(size));
        }
        let [one, other] = [(); 2].map(|()| random_value(&mut random, 32));
        assert_ne!(one, other);
    }
}
