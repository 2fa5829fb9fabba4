//! Compares what clients were answered with what was committed.
//!
//! A read has to show the table of one moment between its call and its answer; one that the cache
//! answers, and one of a range that is pinned, show the table of that very moment. A write is made
//! once at most, and if its answer states that it was, between its call and its answer.
use krl::store::{Change, Write};
use krl::{Outcome, Row, Value};
use std::collections::{BTreeMap, BTreeSet};
use std::ops::Range;
use std::rc::Rc;

/// The value of each key, as its number; 0 stands for no row.
type Table = Vec<u64>;

/// The number of a table in the order of their moments.
pub type Version = usize;

/// One change of the table.
#[derive(Debug)]
enum Step {
    Write {
        key: usize,
        before: u64,
        after: u64,
    },
    /// A copy was put in the place of this table.
    PutBack {
        before: Table,
    },
}

/// When something was true.
#[derive(Clone, Debug)]
pub struct Window {
    /// From this version until now.
    pub since: Version,
    /// Or in this table, just before the store went back: the client has not learned of that.
    pub or_before: Option<Left>,
}

/// The table just before the store went back.
#[derive(Clone, Debug)]
pub struct Left(Rc<Table>);

/// What a write that is bound to a pin rests on.
#[derive(Clone, Debug)]
struct Bond {
    keys: Range<u64>,
    rows: Vec<Row>,
}

/// All tables that were committed, and what was answered of them.
#[derive(Debug)]
pub struct Judge {
    table: Table,
    steps: Vec<Step>,
    went_back: bool,
    /// Which values were written.
    made: BTreeSet<u64>,
    /// Which values must not be written: their clients have learned that they are not.
    never: BTreeSet<u64>,
    bonds: BTreeMap<u64, Bond>,
    /// For how many rows the server has room.
    room: usize,
    /// For how many the servers before it had, until these versions.
    rooms: Vec<(Version, usize)>,
    copy: Option<(Table, BTreeSet<u64>)>,
    /// What is wrong, as a sentence each.
    pub wrong: Vec<String>,
}

impl Judge {
    /// An empty table of keys below this one.
    #[must_use]
    pub fn new(keys: u64) -> Judge {
        Judge {
            table: vec![0; place(keys)],
            steps: Vec::new(),
            went_back: false,
            made: BTreeSet::new(),
            never: BTreeSet::new(),
            bonds: BTreeMap::new(),
            room: usize::MAX,
            rooms: Vec::new(),
            copy: None,
            wrong: Vec::new(),
        }
    }

    /// /// The current version.
    #[must_use]
    pub fn version(&self) -> Version {
        self.steps.len()
    }

    /// From now on a server serves that has room for this many rows.
    pub fn has_room(&mut self, rows: usize) {
        self.rooms.push((self.version(), self.room));
        self.room = rows;
    }

    /// The least room that a server of the window had: a write that was judged before a start is
    /// answered after it.
    fn least_room(&self, when: &Window) -> usize {
        let before = self.rooms.iter().filter(|(until, _)| *until >= when.since);
        before.map(|(_, room)| *room).fold(self.room, usize::min)
    }

    /// Something is wrong.
    pub fn find(&mut self, what: String) {
        self.wrong.push(what);
    }

    /// These changes are kept.
    pub fn kept(&mut self, changes: &[Change]) {
        for change in changes {
            if let Change::Judged { write, outcome: Outcome::Applied, .. } = change {
                self.apply(*write);
            }
        }
    }

    fn apply(&mut self, write: Write) {
        let (key, after) = (place(write.key()), value_of(write));
        if after != 0 {
            if !self.made.insert(after) {
                self.find(format!("{write:?} was made twice"));
            }
            if self.never.contains(&after) {
                self.find(format!("{write:?} was made after its client knew that it was not"));
            }
            if let Some(bond) = self.bonds.remove(&after)
                && !shows(&self.table, &bond.keys, &bond.rows)
            {
                let Bond { keys, rows } = bond;
                self.find(format!(
                    "{write:?} was made under a pin of {keys:?}, which were {rows:?} no more"
                ));
            }
        }
        let before = std::mem::replace(&mut self.table[key], after);
        self.steps.push(Step::Write { key, before, after });
        let rows = self.rows();
        if before == 0 && after != 0 && rows > self.room {
            self.find(format!("{rows} rows are in a table with room for {}", self.room));
        }
    }

    fn rows(&self) -> usize {
        rows(&self.table)
    }

    /// A client wants a write only while it has these rows pinned.
    pub fn bind(&mut self, write: Write, keys: Range<u64>, rows: Vec<Row>) {
        self.bonds.insert(value_of(write), Bond { keys, rows });
    }

    /// A client has learned that its write is not made.
    pub fn is_not_made(&mut self, who: &str, write: Write, why: &str) {
        let value = value_of(write);
        if value != 0 && self.made.contains(&value) {
            self.find(format!("{who} learned that {write:?} was not made, and it was: {why}"));
        }
        self.never.insert(value);
    }

    /// A client was answered that has to know whether its write is made: from now on it is not.
    pub fn is_decided(&mut self, write: Write) {
        let value = value_of(write);
        if !self.made.contains(&value) {
            self.never.insert(value);
        }
    }

    /// Whether the current table has these rows of the range, or that of the window has.
    #[must_use]
    pub fn has(&self, keys: &Range<u64>, answer: &[Row], when: &Window) -> bool {
        self.any(when, |table| shows(table, keys, answer))
    }

    /// A client has read these rows of the range.
    pub fn read(&mut self, who: &str, keys: &Range<u64>, answer: &[Row], when: &Window) {
        if !self.has(keys, answer, when) {
            let now = spelled(&self.table, keys);
            let answer: Vec<_> = answer.iter().map(|row| (row.key, row.value.to_u64())).collect();
            let since = when.since;
            self.find(format!(
                "{who} read {answer:?} of {keys:?} since {since}: now it is {now:?}"
            ));
        }
    }

    /// A client has learned how its write was judged.
    pub fn write(&mut self, who: &str, write: Write, answer: Outcome, when: &Window) {
        let key = place(write.key());
        let is_so = match answer {
            Outcome::Applied => self.is_made(write, when),
            Outcome::Exists => self.any(when, |table| table[key] != 0),
            Outcome::Absent => self.any(when, |table| table[key] == 0),
            Outcome::Full => {
                let room = self.least_room(when);
                self.any(when, |table| rows(table) >= room)
            }
            Outcome::NotHeld => false,
        };
        if !is_so {
            let since = when.since;
            self.find(format!("{who} learned that {write:?} is {answer:?} since {since}"));
        }
    }

    /// Whether this is true of a table of the window.
    fn any(&self, when: &Window, is_so: impl Fn(&Table) -> bool) -> bool {
        if is_so(&self.table) {
            return true;
        }
        if when.or_before.as_ref().is_some_and(|left| is_so(&left.0)) {
            return true;
        }
        if when.since == self.version() {
            return false;
        }
        let mut table = self.table.clone();
        self.steps[when.since..].iter().rev().any(|step| {
            match step {
                Step::Write { key, before, .. } => table[*key] = *before,
                Step::PutBack { before } => table.clone_from(before),
            }
            is_so(&table)
        })
    }

    fn is_made(&self, write: Write, when: &Window) -> bool {
        let (key, value) = (place(write.key()), value_of(write));
        self.steps[when.since..].iter().any(|step| match step {
            Step::Write { key: at, before, after } => {
                *at == key && *after == value && (value != 0 || *before != 0)
            }
            Step::PutBack { .. } => false,
        })
    }

    /// The store is copied.
    pub fn copy(&mut self) {
        self.copy = Some((self.table.clone(), self.made.clone()));
    }

    /// The copy is put in the place of the store. Returns what the table was.
    pub fn put_back(&mut self) -> Option<Left> {
        let (table, made) = self.copy.clone()?;
        let before = std::mem::replace(&mut self.table, table);
        let left = Left(Rc::new(before.clone()));
        self.went_back = true;
        self.made = made;
        // What was answered from the store before does not hold of this one.
        self.never.clear();
        self.bonds.clear();
        self.steps.push(Step::PutBack { before });
        Some(left)
    }

    /// Whether the store ever went back.
    #[must_use]
    pub fn went_back(&self) -> bool {
        self.went_back
    }
}

fn place(key: u64) -> usize {
    usize::try_from(key).unwrap_or(usize::MAX)
}

/// The number of the value that a write leaves.
fn value_of(write: Write) -> u64 {
    match write {
        Write::Insert(row) | Write::Put(row) => number(row.value),
        Write::Delete(_) => 0,
    }
}

/// No value of a simulation is the greatest number.
fn number(value: Value) -> u64 {
    value.to_u64().unwrap_or(u64::MAX)
}

fn rows(table: &Table) -> usize {
    table.iter().filter(|value| **value != 0).count()
}

/// Whether the table has just these rows of the range.
fn shows(table: &Table, keys: &Range<u64>, answer: &[Row]) -> bool {
    let mut answer = answer.iter();
    let here = &table[place(keys.start)..place(keys.end)];
    let mut rows = (keys.start..).zip(here).filter(|(_, value)| **value != 0);
    loop {
        match (rows.next(), answer.next()) {
            (None, None) => return true,
            (Some((key, value)), Some(row)) if row.key == key && number(row.value) == *value => {}
            _ => return false,
        }
    }
}

/// The rows of a range, with the numbers of their values.
fn spelled(table: &Table, keys: &Range<u64>) -> Vec<(u64, u64)> {
    let here = &table[place(keys.start)..place(keys.end)];
    let rows = (keys.start..).zip(here).filter(|(_, value)| **value != 0);
    rows.map(|(key, value)| (key, *value)).collect()
}
