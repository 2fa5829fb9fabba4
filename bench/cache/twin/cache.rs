// A cache in two ordered maps of Rust's std.
use std::collections::BTreeMap;

#[derive(Clone, Copy, PartialEq)]
pub enum Part {
    N,
    S,
    X,
}

#[derive(Clone, Copy)]
struct Entry<V> {
    part: Part,
    value: Option<V>,
}

pub struct Cache<V> {
    starts: BTreeMap<u64, Part>,
    entries: BTreeMap<u64, Entry<V>>,
}

fn meet(a: Part, b: Part) -> Part {
    match (a, b) {
        (Part::N, _) | (_, Part::N) => Part::N,
        (Part::X, other) | (other, Part::X) => other,
        (Part::S, Part::S) => Part::S,
    }
}

impl<V: Copy> Cache<V> {
    pub fn new() -> Cache<V> {
        Cache { starts: BTreeMap::new(), entries: BTreeMap::new() }
    }

    pub fn len(&self) -> usize {
        self.entries.len()
    }

    fn part_at(&self, p: u64) -> Part {
        self.starts.range(..=p).next_back().map_or(Part::N, |(_, part)| *part)
    }

    pub fn adopt(&mut self, lo: u64, hi: u64, part: Part, value: V) -> u64 {
        self.adopt_part(lo, hi, part);
        self.adopt_entry(lo, hi, part, value);
        1
    }

    // Slots side by side from lo on: the part once, and each entry.
    pub fn adopt_all(&mut self, lo: u64, hi: u64, part: Part, slots: impl Iterator<Item = (u64, u64, Part, V)>) -> u64 {
        self.adopt_part(lo, hi, part);
        for (lo, hi, part, value) in slots {
            self.adopt_entry(lo, hi, part, value);
        }
        1
    }

    fn adopt_entry(&mut self, lo: u64, hi: u64, part: Part, value: V) {
        let some = self.entries.range(lo..).next().is_some_and(|(key, _)| *key < hi - 1);
        if some {
            self.entries.extract_if(lo..hi - 1, |_, _| true).for_each(drop);
        }
        self.entries.insert(hi - 1, Entry { part, value: Some(value) });
    }

    // One look at the starts, and then what differs.
    fn adopt_part(&mut self, lo: u64, hi: u64, part: Part) {
        let mut back = self.starts.range(..=hi);
        let mut last = back.next_back();
        let after = last.map_or(Part::N, |(_, part)| *part);
        let high = last.is_some_and(|(key, _)| *key == hi);
        if high {
            last = back.next_back();
        }
        let mut within = false;
        while last.is_some_and(|(key, _)| *key > lo) {
            within = true;
            last = back.next_back();
        }
        let low = match last {
            Some((key, part)) if *key == lo => {
                let part = *part;
                last = back.next_back();
                Some(part)
            }
            _ => None,
        };
        let before = last.map_or(Part::N, |(_, part)| *part);
        if within {
            self.starts.extract_if(lo + 1..hi, |_, _| true).for_each(drop);
        }
        if before == part {
            if low.is_some() {
                self.starts.remove(&lo);
            }
        } else if low != Some(part) {
            self.starts.insert(lo, part);
        }
        if after == part {
            if high {
                self.starts.remove(&hi);
            }
        } else if !high {
            self.starts.insert(hi, after);
        }
    }

    // One walk over the starts, and one over the entries.
    pub fn lower(&mut self, lo: u64, hi: u64, keep: Part) -> u64 {
        if !self.starts.contains_key(&hi) {
            let part = self.part_at(hi);
            self.starts.insert(hi, part);
        }
        if !self.starts.contains_key(&lo) {
            let part = self.part_at(lo);
            self.starts.insert(lo, part);
        }
        let mut before = if lo > 0 { self.part_at(lo - 1) } else { Part::N };
        self.starts
            .extract_if(lo..=hi, |key, part| {
                if *key < hi {
                    *part = meet(*part, keep);
                }
                let same = *part == before;
                before = *part;
                same
            })
            .for_each(drop);
        self.entries
            .extract_if(lo..hi, |_, entry| {
                entry.part = meet(entry.part, keep);
                entry.part == Part::N
            })
            .for_each(drop);
        1
    }

    // The rows of a span whose points are all known.
    pub fn scan(&self, lo: u64, hi: u64) -> Option<Vec<(u64, V)>> {
        let mut left = self.entries.range(lo..hi).peekable();
        let mut p = lo;
        let mut part = self.part_at(lo);
        let mut starts = self.starts.range(lo + 1..hi);
        loop {
            let next = starts.next();
            let end = next.map_or(hi, |(start, _)| *start);
            while let Some((key, entry)) = left.peek() {
                if **key >= end {
                    break;
                }
                if part == Part::N && (p != **key || entry.part == Part::N) {
                    return None;
                }
                p = **key + 1;
                left.next();
            }
            if part == Part::N && p < end {
                return None;
            }
            match next {
                None => break,
                Some((start, next)) => {
                    p = *start;
                    part = *next;
                }
            }
        }
        Some(self.entries.range(lo..hi).filter_map(|(key, entry)| entry.value.map(|value| (*key, value))).collect())
    }
}
