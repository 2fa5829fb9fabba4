//! Compares what was read with what was written.
//!
//! Each key is written by one client number, one write after the other. So a read of a key has to
//! show the last write that was answered before the read began, or a later one that was begun
//! before the read ended. A write that is never answered, since its client was killed, may have
//! changed the table or not.
use crate::log::Note;
use krl::Value;
use krl::store::Snapshot;
use std::collections::HashMap;
use std::fmt;

#[derive(Clone, Copy, Debug)]
struct Written {
    begun: u64,
    answered: Option<u64>,
    value: Option<u64>,
}

/// The writes of each key, in the order in which they were begun. Those that changed nothing are
/// left out.
#[derive(Default)]
pub struct History {
    writes: HashMap<u64, Vec<Written>>,
}

/// What a comparison came to.
#[derive(Clone, Copy, Debug, Default, PartialEq, Eq)]
pub struct Tally {
    /// The ranges that were read.
    pub reads: u64,
    /// Those that an asker read, if there was one.
    pub asked: Option<u64>,
    /// The points of them that were compared: keys of the writers, with an entry or without one.
    pub points: u64,
    /// Those that were read while no server ran, if it is known when that was.
    pub while_down: Option<u64>,
    /// The writes that were applied and answered.
    pub answered: u64,
    /// What is wrong.
    pub wrong: u64,
}

impl fmt::Display for Tally {
    fn fmt(&self, f: &mut fmt::Formatter<'_>) -> fmt::Result {
        write!(f, "{} ranges read", self.reads)?;
        if let Some(asked) = self.asked {
            write!(f, ", {asked} of them without a number")?;
        }
        write!(f, ", {} keys in them compared", self.points)?;
        if let Some(while_down) = self.while_down {
            write!(f, ", {while_down} of them while no server ran")?;
        }
        write!(f, "; {} writes answered; {} wrong", self.answered, self.wrong)
    }
}

impl History {
    /// Adds what one client number wrote.
    pub fn add(&mut self, notes: &[Note]) {
        for note in notes {
            match *note {
                Note::Begun { at, key, value } => {
                    let written = Written { begun: at, answered: None, value };
                    self.writes.entry(key).or_default().push(written);
                }
                Note::Answered { at, key, applied } => self.answer(at, key, applied),
                Note::Read { .. } => {}
            }
        }
    }

    fn answer(&mut self, at: u64, key: u64, applied: bool) {
        let writes = self.writes.entry(key).or_default();
        match (writes.last_mut(), applied) {
            (Some(last), true) => last.answered = Some(at),
            (Some(_), false) => drop(writes.pop()),
            (None, _) => {}
        }
    }

    /// How many writes were applied and answered.
    pub fn answered(&self) -> u64 {
        self.writes.values().flatten().filter(|write| write.answered.is_some()).count() as u64
    }

    /// Whether the key can have had this value, or no entry, at a moment between the two times.
    fn allows(&self, key: u64, value: Option<u64>, from: u64, to: u64) -> bool {
        let Some(writes) = self.writes.get(&key) else { return value.is_none() };
        let end = writes.partition_point(|write| write.begun < to);
        for write in writes[..end].iter().rev() {
            if write.value == value {
                return true;
            }
            if write.answered.is_some_and(|at| at < from) {
                return false;
            }
        }
        // Before the first write there was no entry.
        value.is_none()
    }

    /// Compares one client's reads with the writes. `down` has the times in which no server ran, if they
    /// are known.
    pub fn compare(&self, notes: &[Note], down: Option<&[(u64, u64)]>, tally: &mut Tally) {
        for note in notes {
            let Note::Read { from, to, lo, hi, rows } = note else { continue };
            tally.reads += 1;
            let is_down = |down: &[(u64, u64)]| down.iter().any(|it| it.0 < *from && *to < it.1);
            let is_down = down.map(is_down);
            let found: HashMap<u64, u64> = rows.iter().copied().collect();
            for key in self.writes.keys().filter(|key| (lo..hi).contains(key)) {
                tally.points += 1;
                if let Some(is_down) = is_down {
                    *tally.while_down.get_or_insert(0) += u64::from(is_down);
                }
                let value = found.get(key).copied();
                if !self.allows(*key, value, *from, *to) {
                    tally.wrong += 1;
                    eprintln!("WRONG: {key} was read as {value:?} between {from} and {to}");
                }
            }
            // A row of a key that no client ever wrote, or outside the range.
            let strange = found
                .keys()
                .filter(|key| !(lo..hi).contains(key) || !self.writes.contains_key(key));
            for key in strange {
                tally.wrong += 1;
                eprintln!("WRONG: {key} was read in {lo}..{hi} and never written");
            }
        }
    }

    /// Compares the store with the writes, in the end.
    pub fn compare_store(&self, snapshot: &Snapshot, tally: &mut Tally) {
        for key in self.writes.keys() {
            let value = snapshot.rows.get(key).and_then(Value::to_u64);
            if !self.allows(*key, value, u64::MAX, u64::MAX) {
                tally.wrong += 1;
                eprintln!(
                    "LOST: {key} is {value:?} in the store, and an answered write contradicts that"
                );
            }
        }
        for key in snapshot.rows.keys().filter(|key| !self.writes.contains_key(key)) {
            tally.wrong += 1;
            eprintln!("WRONG: {key} is in the store and was never written");
        }
    }
}

#[cfg(test)]
mod tests {
    use super::*;

    fn begun(at: u64, value: Option<u64>) -> Note {
        Note::Begun { at, key: 7, value }
    }

    fn answered(at: u64, applied: bool) -> Note {
        Note::Answered { at, key: 7, applied }
    }

    fn wrong(rows: &[(u64, u64)], from: u64, to: u64) -> u64 {
        let mut history = History::default();
        // 5 from 10 or 12 on; then a write that is never answered; then a delete; then one that
        // changed nothing.
        history.add(&[begun(10, Some(5)), answered(12, true), begun(20, Some(6))]);
        history.add(&[
            begun(30, None),
            answered(32, true),
            begun(40, Some(9)),
            answered(42, false),
        ]);
        let read = Note::Read { from, to, lo: 0, hi: 10, rows: rows.to_vec() };
        let mut tally = Tally::default();
        history.compare(&[read], None, &mut tally);
        assert_eq!((tally.reads, tally.points, history.answered()), (1, 1, 2));
        tally.wrong
    }

    #[test]
    fn reads_are_judged() {
        assert_eq!(wrong(&[], 1, 9), 0);
        assert_eq!(wrong(&[(7, 5)], 1, 9), 1, "not begun yet");
        assert_eq!(wrong(&[(7, 5)], 1, 11), 0);
        assert_eq!(wrong(&[], 11, 12), 0);
        assert_eq!(wrong(&[], 13, 14), 1, "answered already");
        assert_eq!(wrong(&[(7, 5)], 13, 19), 0);
        assert_eq!(wrong(&[(7, 6)], 13, 19), 1);
        assert_eq!(wrong(&[(7, 6)], 22, 24), 0);
        assert_eq!(wrong(&[(7, 5)], 22, 24), 0);
        assert_eq!(wrong(&[(7, 6)], 33, 34), 1, "deleted");
        assert_eq!(wrong(&[], 33, 34), 0);
        assert_eq!(wrong(&[(7, 9)], 41, 44), 1, "it changed nothing");
        assert_eq!(wrong(&[(8, 1)], 1, 9), 1, "never written");
    }

    #[test]
    fn stores_are_judged() {
        let mut history = History::default();
        history.add(&[
            begun(10, Some(5)),
            answered(12, true),
            begun(20, Some(6)),
            answered(22, true),
        ]);
        let wrong = |rows: &[(u64, u64)]| {
            let rows = rows.iter().map(|(key, value)| (*key, Value::from(*value))).collect();
            let mut tally = Tally::default();
            history.compare_store(&Snapshot { rows, ..Snapshot::default() }, &mut tally);
            tally.wrong
        };
        assert_eq!(wrong(&[(7, 6)]), 0);
        assert_eq!(wrong(&[(7, 5)]), 1);
        assert_eq!(wrong(&[]), 1);
        assert_eq!(wrong(&[(7, 6), (9, 1)]), 1);
    }
}
