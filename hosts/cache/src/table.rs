//! The calls by which a table is read.
use crate::definition::{Definition, Holding, Wanted, not_cached};
use crate::error::ReadError;
use crate::fault_note::FaultNote;
use crate::held::{self, Few, Held, Missing};
use crate::key::Key;
use crate::row::Row;
use crate::rows::{Loaded, Rows};
use crate::shared::Shared;
use crate::sql::{KeyType, Selection};
use crate::statistics::{Counters, Statistics};
use std::fmt;
use std::ops::{Bound, RangeBounds, RangeInclusive};
use std::slice;
use std::sync::mpsc::SyncSender;
use std::sync::{Arc, Mutex, MutexGuard, PoisonError, RwLock};
use std::time::Instant;

/// A range of more keys is always read from the database.
const MOST_KEYS: usize = 4096;

/// A table that is read from memory. Its clones share the memory, and threads share them.
#[derive(Clone)]
pub struct Table {
    inner: Arc<Inner>,
    errands: SyncSender<Errand>,
}

pub(crate) struct Inner {
    /// With its schema.
    name: String,
    pub shared: Arc<Shared>,
    definition: RwLock<Arc<Definition>>,
    pub counters: Counters,
    /// Why the rows of this table are not kept.
    pub fault: FaultNote,
    next_look: Mutex<Instant>,
}

/// What the loader is to do.
pub(crate) enum Errand {
    /// Hold the stripes of these keys, and keep their rows.
    Load { table: Arc<Inner>, keys: Vec<Key> },
    /// Give back everything, and end.
    Leave,
}

/// Rows in memory, and what they were held by when they were loaded.
type Found = Option<(Held, Rows)>;

impl Table {
    pub(crate) fn open(
        shared: Arc<Shared>,
        errands: SyncSender<Errand>,
        name: &str,
    ) -> Result<Table, ReadError> {
        let found = shared.ask(|session| {
            let name = session.full_name(name)?;
            let number = shared.next_definition();
            let definition = Definition::find(session, &name, number, shared.memory, None)?;
            Ok((name, definition))
        });
        let (name, definition) = found?;
        let (counters, fault) = (Counters::default(), FaultNote::default());
        if !definition.is_cached {
            fault.set(Some(not_cached(&name)));
        }
        let (definition, next_look) =
            (RwLock::new(Arc::new(definition)), Mutex::new(Instant::now()));
        let inner = Inner { name, shared, definition, counters, fault, next_look };
        Ok(Table { inner: Arc::new(inner), errands })
    }

    /// The row of a key, if there is one.
    ///
    /// # Errors
    ///
    /// [`ReadError::Key`] if it is not a key of this table; [`ReadError::SeveralRows`];
    /// [`ReadError::Database`].
    pub fn get(&self, key: impl Into<Key>) -> Result<Option<Row>, ReadError> {
        let key = key.into();
        one_of(&key, &self.read(slice::from_ref(&key), None)?)
    }

    /// The row of each key, if there is one, in the order of the keys. They are the rows of one
    /// moment of the call.
    ///
    /// # Errors
    ///
    /// Those of [`Table::get`].
    pub fn get_many<K: Into<Key>>(
        &self,
        keys: impl IntoIterator<Item = K>,
    ) -> Result<Vec<Option<Row>>, ReadError> {
        let keys: Few<Key> = keys.into_iter().map(Into::into).collect();
        one_of_each(&keys, &self.read(&keys, None)?)
    }

    /// The same from memory only: `None` if not all of them are there. It sends nothing and waits
    /// for no answer, and nothing is loaded for it. A row that is returned is that of the database
    /// at one moment of the call, as with [`Table::get_many`].
    ///
    /// # Errors
    ///
    /// [`ReadError::Key`], [`ReadError::SeveralRows`].
    pub fn cached<K: Into<Key>>(
        &self,
        keys: impl IntoIterator<Item = K>,
    ) -> Result<Option<Vec<Option<Row>>>, ReadError> {
        let keys: Few<Key> = keys.into_iter().map(Into::into).collect();
        let found = self.read_memory(&keys)?;
        found.map(|found| one_of_each(&keys, &found)).transpose()
    }

    /// All rows of a key, for a table whose key columns are not unique, in no particular order.
    ///
    /// # Errors
    ///
    /// [`ReadError::Key`], [`ReadError::Database`].
    pub fn rows(&self, key: impl Into<Key>) -> Result<Vec<Row>, ReadError> {
        Ok(flat(&self.read(&[key.into()], None)?))
    }

    /// The rows of a range of keys, in the order of the keys, of a table whose key is one integer.
    /// They are the rows of one moment of the call. A range of more than 4,096 keys is always read
    /// from the database.
    ///
    /// # Errors
    ///
    /// [`ReadError::Key`] if the key of the table is not one integer; [`ReadError::Database`].
    pub fn range(&self, keys: impl RangeBounds<i64>) -> Result<Vec<Row>, ReadError> {
        let Some(range) = self.inclusive(&keys)? else { return Ok(Vec::new()) };
        if let Some(keys) = keys_of(&range) {
            return Ok(flat(&self.read(&keys, Some(&range))?));
        }
        let selection = Selection::Range(range);
        let ask = |definition: &Definition| self.inner.select(definition, &selection);
        let rows = self.inner.with_definition(ask)?;
        self.inner.counters.misses.add(rows.len());
        Ok(rows.into_iter().map(|(_, row)| row).collect())
    }

    /// The same from memory only, as [`Table::cached`].
    ///
    /// # Errors
    ///
    /// [`ReadError::Key`] if the key of the table is not one integer.
    pub fn cached_range(&self, keys: impl RangeBounds<i64>) -> Result<Option<Vec<Row>>, ReadError> {
        let Some(range) = self.inclusive(&keys)? else { return Ok(Some(Vec::new())) };
        let Some(keys) = keys_of(&range) else { return Ok(None) };
        Ok(self.read_memory(&keys)?.map(|rows| flat(&rows)))
    }

    /// The first key of a range and the last one, if it has any, of a table whose key is one
    /// integer.
    fn inclusive(
        &self,
        keys: &impl RangeBounds<i64>,
    ) -> Result<Option<RangeInclusive<i64>>, ReadError> {
        let definition = self.inner.definition();
        if definition.sql.key == [KeyType::Integer] {
            return Ok(inclusive(keys));
        }
        let table = &definition.sql.table;
        Err(ReadError::Key(format!("the key of {table} is not one integer")))
    }

    /// What was done since the table was opened.
    #[must_use]
    pub fn statistics(&self) -> Statistics {
        let (counters, definition) = (&self.inner.counters, self.inner.definition());
        Statistics {
            hits: counters.hits.get(),
            misses: counters.misses.get(),
            loads: counters.loads.get(),
            kept: counters.kept.get(),
            unkept: counters.unkept.get(),
            away: counters.away.get(),
            evictions: counters.evictions.get() + definition.memory.evictions.get(),
            keys: definition.memory.keys() as u64,
            bytes: definition.memory.bytes() as u64,
        }
    }

    /// Why the last rows of this table that should be kept were not, as a sentence: that krl or the
    /// extension is away, as [`Cache::fault`](crate::Cache::fault) reports it, or what is so of this
    /// table, such as a missing right, or that it is not cached. Meanwhile the database answers the
    /// reads. Each new reason is an event of `tracing` too.
    #[must_use]
    pub fn fault(&self) -> Option<String> {
        self.inner.fault()
    }

    /// The rows of these keys, which are those of the range if it is given. All of them are of one
    /// moment.
    fn read(
        &self,
        keys: &[Key],
        range: Option<&RangeInclusive<i64>>,
    ) -> Result<Few<Rows>, ReadError> {
        self.inner.with_definition(|definition| Read::new(self, definition, keys, range)?.rows())
    }

    /// The rows of these keys, if all of them are in memory.
    fn read_memory(&self, keys: &[Key]) -> Result<Option<Few<Rows>>, ReadError> {
        let definition = self.inner.definition();
        let read = Read::new(self, &definition, keys, None)?;
        let (found, missing) = read.find();
        Ok(missing.places.is_empty().then(|| read.hits(found)))
    }
}

/// A read of some keys.
struct Read<'r> {
    table: &'r Table,
    definition: &'r Definition,
    wanted: Few<Wanted<'r>>,
    range: Option<&'r RangeInclusive<i64>>,
}

impl<'r> Read<'r> {
    fn new(
        table: &'r Table,
        definition: &'r Definition,
        keys: &'r [Key],
        range: Option<&'r RangeInclusive<i64>>,
    ) -> Result<Read<'r>, ReadError> {
        let mut wanted = Few::with_capacity(keys.len());
        for key in keys {
            wanted.push(definition.locate(key)?);
        }
        Ok(Read { table, definition, wanted, range })
    }

    /// What is in memory, and which rows are missing or may not be returned.
    fn find(&self) -> (Few<Found>, Missing) {
        let find = |wanted: &Wanted<'_>| self.definition.memory.find(wanted.stripe, wanted.key);
        held::find(|| self.wanted.iter().map(find).collect(), |found| self.held(found))
    }

    /// From memory, if it has all rows. Otherwise the database selects those that are missing, if
    /// all of them are held, or all rows.
    fn rows(&self) -> Result<Few<Rows>, ReadError> {
        let (found, missing) = self.find();
        if missing.places.is_empty() {
            return Ok(self.hits(found));
        }
        if missing.places.iter().any(|place| missing.held[*place].is_none()) {
            self.report(&missing);
        } else if let Some(rows) = self.load(found, &missing)? {
            return Ok(rows);
        }
        let selection = self.selection();
        let inner = &self.table.inner;
        let rows = inner.select(self.definition, &selection)?;
        inner.counters.misses.add(self.wanted.len());
        if inner.fault().is_some() {
            inner.counters.away.add(self.wanted.len());
        }
        Ok(selection.by_key(rows))
    }

    /// Loads the rows that are missing and held. Returns all rows, if they are of one moment then.
    fn load(
        &self,
        mut found: Few<Found>,
        missing: &Missing,
    ) -> Result<Option<Few<Rows>>, ReadError> {
        let (inner, places) = (&self.table.inner, &missing.places);
        let part: Vec<Wanted<'_>> = places.iter().map(|place| self.wanted[*place]).collect();
        let is_all = part.len() == self.wanted.len();
        let selection = if is_all { self.selection() } else { of_keys(&part) };
        let ask = |session: &mut _| self.definition.load(session, &part, &selection);
        let (loaded, fault) = inner.shared.ask(ask)?;
        inner.note_load(&loaded, fault.as_ref());
        if is_all {
            inner.counters.misses.add(part.len());
            return Ok(Some(loaded.into_iter().map(|(rows, _)| rows).collect()));
        }
        for (place, (rows, held)) in places.iter().zip(loaded) {
            found[*place] = held.map(|held| (held, rows));
        }
        let (found, missing) = held::find(|| found, |found| self.held(found));
        if !missing.places.is_empty() {
            return Ok(None);
        }
        inner.counters.misses.add(part.len());
        inner.counters.hits.add(found.len() - part.len());
        Ok(Some(found.into_iter().flatten().map(|(_, rows)| rows).collect()))
    }

    /// All rows, which are read from memory.
    fn hits(&self, found: Few<Found>) -> Few<Rows> {
        self.table.inner.counters.hits.add(found.len());
        let mut hits = Few::with_capacity(found.len());
        for (_, rows) in found.into_iter().flatten() {
            rows.mark().set();
            hits.push(rows);
        }
        hits
    }

    /// By what each key is held now.
    fn held(&self, found: &[Found]) -> Few<Option<Held>> {
        let then = |found: &Found| found.as_ref().map(|(then, _)| *then);
        self.definition.held(&self.wanted, found.iter().map(then))
    }

    /// Reports to the loader what is to be loaded from now on. It learns nothing if it is late.
    fn report(&self, missing: &Missing) {
        let keys = missing.places.iter().flat_map(|&place| {
            let Wanted { key, stripe } = self.wanted[place];
            self.definition.memory.note_miss(stripe, missing.held[place], key)
        });
        let keys: Vec<Key> = keys.collect();
        if !keys.is_empty() {
            let table = Arc::clone(&self.table.inner);
            let _ = self.table.errands.try_send(Errand::Load { table, keys });
        }
    }

    /// All rows.
    fn selection(&self) -> Selection<'_> {
        match self.range {
            Some(range) => Selection::Range(range.clone()),
            None => of_keys(&self.wanted),
        }
    }
}

impl Inner {
    /// Notes a question for rows that are to be kept, and why the extension has not answered it, if
    /// it has not.
    pub fn note_load(&self, loaded: &[Loaded], fault: Option<&ReadError>) {
        self.counters.note_load(loaded);
        self.fault.set(fault.map(ToString::to_string));
        if loaded.iter().any(|(_, held)| held.is_some()) {
            self.shared.fault.set(None);
        }
    }

    /// When the loader looks again whether the table is cached.
    pub fn next_look(&self) -> MutexGuard<'_, Instant> {
        self.next_look.lock().unwrap_or_else(PoisonError::into_inner)
    }

    fn fault(&self) -> Option<String> {
        self.shared.fault.get().or_else(|| self.fault.get())
    }

    pub fn definition(&self) -> Arc<Definition> {
        Arc::clone(&self.definition.read().unwrap_or_else(PoisonError::into_inner))
    }

    /// Finds the definition again. `hold` returns what rows are kept by, which is held before that.
    pub fn find(&self, hold: impl Fn() -> Option<Holding>) -> Result<Definition, ReadError> {
        let shared = &self.shared;
        shared.ask(|session| {
            let (number, holding) = (shared.next_definition(), hold());
            Definition::find(session, &self.name, number, shared.memory, holding)
        })
    }

    /// From now on the table is read by this definition.
    pub fn set(&self, found: Definition) -> Arc<Definition> {
        let found = Arc::new(found);
        let mut definition = self.definition.write().unwrap_or_else(PoisonError::into_inner);
        let evictions = definition.memory.evictions.get();
        self.counters.evictions.add(usize::try_from(evictions).unwrap_or(usize::MAX));
        *definition = Arc::clone(&found);
        found
    }

    /// Asks by the definition, and once again if it is another one by now. Only what the database
    /// reports of names and types may come from another definition.
    fn with_definition<T>(
        &self,
        ask: impl Fn(&Definition) -> Result<T, ReadError>,
    ) -> Result<T, ReadError> {
        let definition = self.definition();
        let failed = match ask(&definition) {
            Err(failed) if failed.is_of_names() => failed,
            asked => return asked,
        };
        match self.find(|| None) {
            Ok(found) if found.sql != definition.sql => ask(&self.set(found)),
            _ => Err(failed),
        }
    }

    fn select(
        &self,
        definition: &Definition,
        selection: &Selection<'_>,
    ) -> Result<Vec<(i64, Row)>, ReadError> {
        self.shared.ask(|session| session.select(&definition.sql, selection))
    }
}

fn of_keys<'k>(wanted: &[Wanted<'k>]) -> Selection<'k> {
    Selection::Keys(wanted.iter().map(|wanted| wanted.key).collect())
}

/// The keys of a range, unless they are too many.
fn keys_of(range: &RangeInclusive<i64>) -> Option<Vec<Key>> {
    let keys: Vec<Key> = range.clone().take(MOST_KEYS + 1).map(Key::from).collect();
    (keys.len() <= MOST_KEYS).then_some(keys)
}

/// The row of each key, if there is one.
fn one_of_each(keys: &[Key], found: &[Rows]) -> Result<Vec<Option<Row>>, ReadError> {
    keys.iter().zip(found).map(|(key, rows)| one_of(key, slice::from_ref(rows))).collect()
}

/// The row of the key, if there is one among these.
fn one_of(key: &Key, found: &[Rows]) -> Result<Option<Row>, ReadError> {
    let mut rows = found.iter().flat_map(Rows::as_slice);
    match (rows.next(), rows.next()) {
        (row, None) => Ok(row.cloned()),
        (_, Some(_)) => Err(ReadError::SeveralRows(key.clone())),
    }
}

fn flat(found: &[Rows]) -> Vec<Row> {
    let mut rows = Vec::with_capacity(found.len());
    for of_key in found {
        rows.extend_from_slice(of_key.as_slice());
    }
    rows
}

/// The first key of a range and the last one, if it has any.
fn inclusive(keys: &impl RangeBounds<i64>) -> Option<RangeInclusive<i64>> {
    let first = match keys.start_bound() {
        Bound::Included(key) => *key,
        Bound::Excluded(key) => key.checked_add(1)?,
        Bound::Unbounded => i64::MIN,
    };
    let last = match keys.end_bound() {
        Bound::Included(key) => *key,
        Bound::Excluded(key) => key.checked_sub(1)?,
        Bound::Unbounded => i64::MAX,
    };
    (first <= last).then_some(first..=last)
}

impl fmt::Debug for Table {
    fn fmt(&self, f: &mut fmt::Formatter<'_>) -> fmt::Result {
        f.debug_struct("Table").field("name", &self.inner.name).finish_non_exhaustive()
    }
}

#[cfg(test)]
mod tests {
    use super::*;

    #[test]
    fn a_range_has_a_first_and_a_last_key() {
        assert_eq!(inclusive(&(3..5)), Some(3..=4));
        assert_eq!(inclusive(&..), Some(i64::MIN..=i64::MAX));
        assert_eq!(inclusive(&(3..=3)), Some(3..=3));
        let (greater, smaller) = (5, 4);
        assert_eq!(inclusive(&(greater..smaller)), None);
        assert_eq!(inclusive(&(3..3)), None);
        assert_eq!(inclusive(&(..i64::MIN)), None);
    }
}
