//! The twin of main.rt.txt: a cache in two ordered maps of Rust's std, written by hand and proved by nobody.
//! It makes the same calls, and prints the same lines.
mod cache;
#[path = "../../clock.rs"]
mod clock;

use cache::{Cache, Part};
use clock::{next, now};

const ROWS: u64 = 100;

#[derive(Clone, Copy)]
struct Value {
    len: u8,
    bytes: [u8; 32],
}

fn value(i: u64) -> Value {
    let mut bytes = [0; 32];
    bytes[..8].copy_from_slice(&i.to_be_bytes());
    Value { len: 8, bytes }
}

fn adopt(cache: &mut Cache<Value>, i: u64, part: Part) -> u64 {
    cache.adopt(10 * i, 10 * i + 10, part, value(i))
}

fn fill(cache: &mut Cache<Value>, slots: u64, by_turns: bool) -> u64 {
    (0..slots).map(|i| adopt(cache, i, if by_turns && i % 2 == 0 { Part::X } else { Part::S })).sum()
}

fn pick(word: u64, slots: u64) -> u64 {
    (word >> 33) % (slots - ROWS)
}

// Sums what the calls answer, each with another word.
fn sum(rounds: u64, mut call: impl FnMut(u64) -> u64) -> u64 {
    let mut word = 1;
    let mut sum = 0;
    for _ in 0..rounds {
        word = next(word);
        sum += call(word);
    }
    sum
}

fn report(call: &str, slots: u64, rounds: u64, start: u128, sum: u64) {
    println!("{call} rust {slots} {} {rounds} {sum}", now() - start);
}

fn scans(cache: &Cache<Value>, slots: u64, rounds: u64) -> u64 {
    sum(rounds, |word| {
        let i = pick(word, slots);
        cache.scan(10 * i, 10 * (i + ROWS)).map_or(0, |rows| std::hint::black_box(rows).len() as u64)
    })
}

fn times(slots: u64, rounds: u64) {
    let mut cache = Cache::new();
    for (call, by_turns) in [("scan-one-piece", false), ("scan-100-pieces", true)] {
        let filled = fill(&mut cache, slots, by_turns);
        let start = now();
        let found = scans(&cache, slots, rounds);
        report(call, slots, rounds, start, found + filled);
    }
    let start = now();
    let done = sum(rounds, |word| {
        let i = pick(word, slots);
        cache.lower(10 * i, 10 * (i + ROWS), Part::X)
    });
    report("lower-100-slots", slots, rounds, start, done);
    let start = now();
    let done = sum(rounds, |word| adopt(&mut cache, pick(word, slots), if word & 1 == 0 { Part::X } else { Part::S }));
    report("adopt-one-slot", slots, rounds, start, done);
    let start = now();
    let done = sum(rounds, |word| {
        let i = pick(word, slots);
        let part = if word & 1 == 0 { Part::X } else { Part::S };
        let slots = (i..i + 8).map(|slot| (10 * slot, 10 * slot + 10, part, value(slot)));
        cache.adopt_all(10 * i, 10 * i + 80, part, slots)
    });
    report("adopt-8-slots", slots, rounds, start, done);
    std::hint::black_box(value(cache.len() as u64).len + value(1).bytes[0]);
}

fn main() {
    times(1024, 100000);
    times(65536, 100000);
}
