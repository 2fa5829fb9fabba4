// The twin in Rust of main.rt.txt: the same calls of a table over the maps of Rust's library, and
// the same lines.
#[path = "../../clock.rs"]
mod clock;

use clock::{next, now};
use std::collections::BTreeMap;
use std::hint::black_box;

const SCAN: u64 = 101;
const RANGES: u64 = 1000;
const STARTS: u64 = 100;
const PLACES: u64 = 64;
const END: u64 = u64::MAX - 1;
const N: Mode = Mode { range: 0, key: 0 };

// A range part of N, S, I, X, and a key part of N, S, X: 0 is N, and each fits next to those whose
// bits it has.
#[derive(Clone, Copy, PartialEq, Eq)]
struct Mode {
    range: u8,
    key: u8,
}

const RANGE_FITS: [u8; 4] = [0b1111, 0b0011, 0b0101, 0b0001];
const RANGE_JOIN: [[u8; 4]; 4] = [[0, 1, 2, 3], [1, 1, 3, 3], [2, 3, 2, 3], [3, 3, 3, 3]];
const KEY_FITS: [u8; 3] = [0b111, 0b011, 0b001];

impl Mode {
    fn fits(self, other: Mode) -> bool {
        RANGE_FITS[self.range as usize] >> other.range & 1 == 1 && KEY_FITS[self.key as usize] >> other.key & 1 == 1
    }

    fn join(self, other: Mode) -> Mode {
        Mode { range: RANGE_JOIN[self.range as usize][other.range as usize], key: self.key.max(other.key) }
    }
}

struct Row {
    modes: [Mode; 64],
    queue: Vec<u64>,
}

impl Row {
    fn blank() -> Row {
        Row { modes: [N; 64], queue: Vec::new() }
    }

    fn fits(&self, client: usize, mode: Mode) -> bool {
        (0..64).all(|other| other == client || mode.fits(self.modes[other]))
    }

    fn is_blank(&self) -> bool {
        self.queue.is_empty() && self.modes.iter().all(|mode| *mode == N)
    }
}

struct Bench {
    index: BTreeMap<u64, [u8; 32]>,
    rows: BTreeMap<u64, Row>,
}

impl Bench {
    fn open(entries: u64) -> Bench {
        Bench { index: (0..entries).map(|i| (10 * i + 9, [0; 32])).collect(), rows: BTreeMap::new() }
    }

    fn slot_of(&self, at: u64) -> u64 {
        self.index.range(at..).next().map_or(END, |(key, _)| *key)
    }

    fn low_of(&self, slot: u64) -> u64 {
        self.index.range(..slot).next_back().map_or(0, |(key, _)| key + 1)
    }

    fn lock(&mut self, client: usize, at: u64, mode: Mode, at_once: bool) -> u64 {
        let slot = self.slot_of(at);
        let row = self.rows.entry(slot).or_insert_with(Row::blank);
        let wanted = row.modes[client].join(mode);
        if !at_once {
            row.queue.push(client as u64);
            black_box(&row.queue);
            row.queue.remove(0);
        }
        if !row.queue.is_empty() || !row.fits(client, wanted) {
            return 0;
        }
        row.modes[client] = wanted;
        1
    }

    fn release(&mut self, client: usize, lo: u64, hi: u64) {
        let first = self.slot_of(lo);
        let from = if self.low_of(first) < lo { first + 1 } else { first };
        let mut blank = Vec::new();
        for (slot, row) in self.rows.range_mut(from..hi) {
            row.modes[client] = N;
            if row.is_blank() {
                blank.push(*slot);
            }
        }
        for slot in blank {
            self.rows.remove(&slot);
        }
    }

    fn clear(&mut self, client: usize) {
        self.rows.retain(|_, row| {
            row.modes[client] = N;
            !row.is_blank()
        });
    }

    fn adopt(&mut self, client: usize, pieces: &[(u64, u64, u8)]) -> u64 {
        let mut sorted = pieces.to_vec();
        sorted.sort_unstable();
        for turn in 0..2 {
            for (lo, hi, part) in &sorted {
                let mode = Mode { range: *part, key: 0 };
                let mut slot = self.slot_of(*lo);
                while slot < *hi {
                    if turn == 0 {
                        if self.rows.get(&slot).is_some_and(|row| !row.fits(client, mode)) {
                            return 0;
                        }
                    } else {
                        self.rows.entry(slot).or_insert_with(Row::blank).modes[client] = mode;
                    }
                    slot = self.slot_of(slot + 1);
                }
            }
        }
        1
    }

    fn delete(&mut self, key: u64) -> bool {
        let next = self.slot_of(key + 1);
        let may = |slot| self.rows.get(&slot).is_some_and(|row: &Row| row.modes[0].range == 3);
        if !may(key) || !may(next) {
            return false;
        }
        let queue = self.rows.remove(&key).map_or_else(Vec::new, |row| row.queue);
        self.rows.entry(next).or_insert_with(Row::blank).queue.splice(0..0, queue);
        self.index.remove(&key).is_some()
    }

    fn insert(&mut self, key: u64) -> bool {
        let slot = self.slot_of(key);
        let Some(row) = self.rows.get(&slot) else { return false };
        if row.modes[0].range != 3 {
            return false;
        }
        let mut new = Row::blank();
        new.modes[0] = Mode { range: 3, key: 2 };
        self.rows.insert(key, new);
        self.index.insert(key, [0; 32]).is_none()
    }
}

fn pick(word: u64, entries: u64) -> u64 {
    (word >> 33) % (entries - SCAN)
}

fn place(word: u64, n: u64, entries: u64) -> u64 {
    let apart = entries / PLACES;
    (37 * n % PLACES * apart + (word >> 33) % apart) % (entries - 1)
}

fn print(kind: &str, entries: u64, nanos: u128, calls: u64, sum: u64) {
    println!("{kind} {} {nanos} {calls} {sum}", entries + 1);
}

fn scan(bench: &mut Bench, i: u64) -> u64 {
    (0..SCAN).map(|n| bench.lock(0, 10 * (i + n) + 3, Mode { range: 1, key: 1 }, true)).sum()
}

fn scans(bench: &mut Bench, entries: u64) {
    let (mut locked, mut released, mut sum, mut word) = (0, 0, 0, 1);
    for _ in 0..1000 {
        word = next(word);
        let i = pick(word, entries);
        let start = now();
        sum += scan(bench, i);
        let middle = now();
        bench.release(0, 10 * i, 10 * (i + SCAN));
        locked += middle - start;
        released += now() - middle;
    }
    print("grant", entries, locked, 1000 * SCAN, sum);
    print("lower", entries, released, 1000 * SCAN, 1000);
}

fn locks(bench: &mut Bench, entries: u64) {
    for (kind, at_once) in [("at-once", true), ("by-queue", false)] {
        let (mut word, mut sum) = (1, 0);
        let start = now();
        for _ in 0..100000 {
            word = next(word);
            let i = pick(word, entries);
            sum += bench.lock(0, 10 * i + 3, Mode { range: 3, key: 2 }, at_once);
            bench.release(0, 10 * i, 10 * i + 10);
        }
        print(kind, entries, now() - start, 100000, sum);
    }
}

fn hellos(bench: &mut Bench, entries: u64) {
    for (kind, holds) in [("hello-of-none", false), ("hello-of-101", true)] {
        let (mut cleared, mut sum, mut word) = (0, 0, 1);
        for _ in 0..1000 {
            word = next(word);
            if holds {
                sum += scan(bench, pick(word, entries));
            }
            let start = now();
            bench.clear(0);
            cleared += now() - start;
        }
        print(kind, entries, cleared, 1000, sum);
    }
}

fn starts(entries: u64) {
    let mut made = 0;
    for _ in 0..STARTS {
        let start = now();
        black_box(BTreeMap::<u64, Row>::new());
        made += now() - start;
    }
    print("start", entries, made, STARTS, STARTS);
}

fn reports(bench: &mut Bench, entries: u64) {
    for (kind, in_order) in [("report-of-1000", true), ("unordered-of-1000", false)] {
        let apart = entries / RANGES;
        let pieces: Vec<_> = (0..RANGES)
            .map(|n| 10 * apart * if in_order { n } else { 377 * n % RANGES })
            .map(|at| (at, at + 10, 1))
            .collect();
        let (mut reported, mut sum) = (0, 0);
        for _ in 0..20 {
            let start = now();
            sum += bench.adopt(1, &pieces);
            reported += now() - start;
            bench.clear(1);
        }
        print(kind, entries, reported, 20, sum);
    }
}

fn changes(bench: &mut Bench, entries: u64) {
    for slot in (0..entries).map(|i| 10 * i + 9).chain([END]) {
        bench.rows.entry(slot).or_insert_with(Row::blank).modes[0] = Mode { range: 3, key: 2 };
    }
    let (mut deleted, mut inserted, mut gone, mut come, mut word) = (0, 0, 0, 0, 1);
    for _ in 0..50 {
        word = next(word);
        let start = now();
        gone += (0..PLACES).filter(|n| bench.delete(10 * place(word, *n, entries) + 9)).count() as u64;
        let middle = now();
        come += (0..PLACES).filter(|n| bench.insert(10 * place(word, *n, entries) + 9)).count() as u64;
        deleted += middle - start;
        inserted += now() - middle;
    }
    print("delete", entries, deleted, 50 * PLACES, gone);
    print("insert", entries, inserted, 50 * PLACES, come);
}

fn times(entries: u64) {
    let mut bench = Bench::open(entries);
    scans(&mut bench, entries);
    locks(&mut bench, entries);
    hellos(&mut bench, entries);
    starts(entries);
    reports(&mut bench, entries);
    changes(&mut bench, entries);
}

fn main() {
    times(1023);
    times(65535);
}
