//! How a table is read: by which statements, and by which stripes.
use crate::error::ReadError;
use crate::held::{self, Few, Held, MarkTenures};
use crate::key::{Key, KeyValue, Stripe, Stripes};
use crate::locks::{CLUSTER_MARK, Locks, Marks};
use crate::memory::Memory;
use crate::rows::{Loaded, Rows};
use crate::session::{Quiet, Session};
use crate::sql::{CACHED, KeyType, QUIET_DEFINITION, Selection, TableSql};
use smallvec::smallvec;
use std::cell::LazyCell;
use std::collections::BTreeSet;
use std::num::NonZeroU32;
use std::sync::Arc;

/// The encodings in which a text has the same bytes in the database as in a program.
const ENCODINGS: [&str; 2] = ["UTF8", "SQL_ASCII"];

/// What no tenure is.
const NO_TENURE: u64 = u64::MAX;

/// A table as it was defined at a moment. It is found again if one of its marks was lost since: each
/// change of a definition takes one. The rows in memory are of one definition.
#[derive(Debug)]
pub(crate) struct Definition {
    pub number: u64,
    pub sql: TableSql,
    /// Nothing is kept of a table that is not cached.
    pub is_cached: bool,
    pub stripes: Stripes,
    pub memory: Memory,
    holding: Option<Holding>,
}

/// What a process that joined krl held when it found a definition.
#[derive(Debug)]
pub(crate) struct Holding {
    pub locks: Arc<Locks>,
    pub marks: Marks,
}

/// A key of the table.
#[derive(Clone, Copy, Debug)]
pub(crate) struct Wanted<'k> {
    pub key: &'k Key,
    pub stripe: Stripe,
}

/// A moment at which the marks have been held without a break since the definition was found.
#[derive(Clone, Copy)]
pub(crate) struct Look<'d> {
    definition: &'d Definition,
    locks: &'d Locks,
    marks: MarkTenures,
}

/// What a load returns, and why the extension has not answered, if it has not.
pub(crate) type Load = (Vec<Loaded>, Option<ReadError>);

impl Definition {
    /// Finds the definition of the table of this full name. Rows are kept by what is held, unless a
    /// transaction is about to change the definition: then it has to be found again.
    pub fn find(
        session: &mut Session,
        name: &str,
        number: u64,
        memory: usize,
        holding: Option<Holding>,
    ) -> Result<Definition, ReadError> {
        let (mut sql, mut stripes) = read(session, name)?;
        let mut held = None;
        if let (Some(holding), Some(stripes_then)) = (holding, stripes) {
            let (nonce, mark) = (holding.marks.nonce, stripes_then.mark.cast_signed());
            let asked = session.ask_extension(QUIET_DEFINITION, &[&nonce, &sql.table, &mark])?;
            // What is read after the question shows each change that was made before it.
            let sql_then = sql;
            (sql, stripes) = read(session, name)?;
            let is_quiet = asked.first().is_some_and(|row| row.try_get(0).unwrap_or(false));
            let is_same = sql == sql_then && stripes == Some(stripes_then);
            let holds_mark = holding.marks.of_table == stripes_then.mark;
            held = (is_quiet && is_same && holds_mark).then_some(holding);
        }
        let (is_cached, stripes) = (stripes.is_some(), stripes.unwrap_or(Stripes::OF_NO_CACHE));
        let memory = Memory::new(stripes.count.get(), memory);
        Ok(Definition { number, sql, is_cached, stripes, memory, holding: held })
    }

    /// The place of a key, if it is one of this table.
    pub fn locate<'k>(&self, key: &'k Key) -> Result<Wanted<'k>, ReadError> {
        let values = key.values();
        let fits = |(value, column): (&KeyValue, &KeyType)| column.fits(value);
        let types = &self.sql.key;
        if values.len() != types.len() || !values.iter().zip(types).all(fits) {
            let expected: Vec<&str> = types.iter().map(|column| column.name()).collect();
            let (table, expected) = (&self.sql.table, expected.join(", "));
            let why = format!("the key {key} is not one of {table}: expected {expected}");
            return Err(ReadError::Key(why));
        }
        Ok(Wanted { key, stripe: self.stripes.of(key) })
    }

    /// Whether it was found while these locks held the marks, and they have held them since.
    pub fn is_current(&self, locks: &Arc<Locks>) -> bool {
        let holding = self.holding.as_ref();
        holding.is_some_and(|holding| Arc::ptr_eq(&holding.locks, locks)) && self.look().is_some()
    }

    /// Whether the rows of a key are in memory, and may be returned.
    pub fn has(&self, wanted: &Wanted<'_>) -> bool {
        let found = self.memory.find(wanted.stripe, wanted.key);
        let now = self.look().and_then(|look| look.held(wanted.stripe));
        found.is_some_and(|(then, _)| held::may_return(then, now))
    }

    /// By what the stripe of each key is held now. `found` is by what it was held when its rows were
    /// loaded that are in memory.
    pub fn held(
        &self,
        wanted: &[Wanted<'_>],
        found: impl Iterator<Item = Option<Held>> + Clone,
    ) -> Few<Option<Held>> {
        let look = LazyCell::new(|| self.look());
        let mut held = self.held_still(wanted, found);
        for (held, wanted) in held.iter_mut().zip(wanted) {
            *held = held.or_else(|| look.and_then(|look| look.held(wanted.stripe)));
        }
        held
    }

    /// What was found that is held still. One question to krl's client is enough for that.
    fn held_still(
        &self,
        wanted: &[Wanted<'_>],
        found: impl Iterator<Item = Option<Held>> + Clone,
    ) -> Few<Option<Held>> {
        let Some(Holding { locks, marks }) = &self.holding else {
            return smallvec![None; wanted.len()];
        };
        let of_marks =
            [(marks.of_table.into(), marks.tenures.table), (CLUSTER_MARK, marks.tenures.cluster)];
        let of_stripe = |(wanted, found): (&Wanted<'_>, Option<Held>)| {
            let tenure = found.map_or(NO_TENURE, |then| then.stripe);
            (self.stripes.key_of_krl(wanted.stripe), tenure)
        };
        let of_stripes = wanted.iter().zip(found.clone()).map(of_stripe);
        let unbroken = locks.held_since(of_marks.into_iter().chain(of_stripes));
        let (of_marks, of_stripes) = unbroken.split_at(of_marks.len());
        let still = |(is_unbroken, then): (&bool, Option<Held>)| {
            let are_unbroken = [of_marks[0], of_marks[1], *is_unbroken];
            held::held_since(self.number, marks.tenures, then?.stripe, are_unbroken)
        };
        of_stripes.iter().zip(found).map(still).collect()
    }

    /// What is held now, if the marks have been held since the definition was found.
    pub fn look(&self) -> Option<Look<'_>> {
        let Holding { locks, marks } = self.holding.as_ref()?;
        let now = locks.tenures_of_marks(marks.of_table)?;
        (now == marks.tenures).then_some(Look { definition: self, locks, marks: now })
    }

    /// Loads rows, and keeps those that may be kept.
    pub fn load(
        &self,
        session: &mut Session,
        wanted: &[Wanted<'_>],
        selection: &Selection<'_>,
    ) -> Result<Load, ReadError> {
        let stripes: Vec<Stripe> = wanted.iter().map(|wanted| wanted.stripe).collect();
        let nonce = self.holding.as_ref().map_or(0, |holding| holding.marks.nonce);
        let held = self.look();
        let held = |stripe| held.and_then(|look| look.held(stripe));
        let ((rows, fault), kept) = held::load(&stripes, held, |asked| {
            let quiet = Quiet { nonce, mark: self.stripes.mark, stripes: asked };
            let selected = session.select_if_quiet(&self.sql, &quiet, selection);
            selected.map(|(quiet, rows)| match quiet {
                Ok(quiet) => (quiet, (rows, None)),
                Err(fault) => (BTreeSet::new(), (rows, Some(fault))),
            })
        })?;
        let loaded = selection.by_key(rows).into_iter().zip(kept).zip(wanted);
        let now = self.look();
        let keep = |((rows, held), wanted): ((Rows, _), _)| {
            let held = self.keep(wanted, &rows, held, now);
            (rows, held)
        };
        Ok((loaded.map(keep).collect(), fault))
    }

    /// Keeps rows by what they were held by, unless they were lost meanwhile.
    fn keep(
        &self,
        wanted: &Wanted<'_>,
        rows: &Rows,
        held: Option<Held>,
        now: Option<Look<'_>>,
    ) -> Option<Held> {
        let held = held?;
        let now = now.and_then(|look| look.held(wanted.stripe));
        if !held::may_return(held, now) {
            return None;
        }
        self.memory.keep(wanted.stripe, held, wanted.key, rows.clone());
        Some(held)
    }
}

impl Look<'_> {
    /// By what a stripe is held now.
    pub fn held(self, stripe: Stripe) -> Option<Held> {
        let Look { definition, locks, marks } = self;
        let stripe = locks.tenure(definition.stripes.key_of_krl(stripe))?;
        Some(Held { definition: definition.number, marks, stripe })
    }
}

/// Reads how the table of this name is selected, and by which stripes it is cached if it is.
fn read(session: &Session, name: &str) -> Result<(TableSql, Option<Stripes>), ReadError> {
    let found = session.ask_extension(CACHED, &[&name])?;
    let row = found.first().ok_or_else(|| ReadError::no_table(name))?;
    let read = || -> Result<_, tokio_postgres::Error> {
        let stripes = stripes_of(row.try_get(1)?, row.try_get(2)?, row.try_get(3)?);
        let (key, types): (Vec<String>, Vec<u32>) = (row.try_get(5)?, row.try_get(6)?);
        Ok((row.try_get(0)?, stripes, row.try_get(4)?, key, types))
    };
    let read = read().map_err(|error| ReadError::of_database(&error))?;
    let (table, stripes, encoding, key, types): (_, _, &str, _, _) = read;
    let types: Option<Vec<KeyType>> = types.into_iter().map(KeyType::of).collect();
    let types = types.filter(|types| !types.is_empty() && types.len() == key.len());
    let types = types.ok_or_else(|| ReadError::Key(without_key(name, stripes.is_some())))?;
    if types.contains(&KeyType::Text) && !ENCODINGS.contains(&encoding) {
        return Err(ReadError::Key(format!(
            "the key of {name} is a text, and the encoding of the database is {encoding}: it has \
             to be UTF8"
        )));
    }
    Ok((TableSql::new(table, &key, types), stripes))
}

/// The stripes of a table that is cached.
fn stripes_of(
    mark: Option<i32>,
    count: Option<i32>,
    by_remainder: Option<bool>,
) -> Option<Stripes> {
    let (mark, count) = (u32::try_from(mark?).ok()?, u32::try_from(count?).ok()?);
    Some(Stripes { mark, count: NonZeroU32::new(count)?, by_remainder: by_remainder? })
}

/// Why the rows of a table are not kept that is not cached.
pub(crate) fn not_cached(table: &str) -> String {
    let quoted = table.replace('\'', "''");
    format!(
        "the table {table} is not cached: call SELECT krl.cache('{quoted}') in the database, as a \
         superuser"
    )
}

fn without_key(table: &str, is_cached: bool) -> String {
    if is_cached {
        return format!(
            "the key of {table} has changed since it was cached: call krl.uncache and krl.cache"
        );
    }
    format!(
        "the table {table} is not cached, and cannot be read either: it has no primary key of \
         columns of type smallint, integer, bigint, text, varchar or uuid"
    )
}
