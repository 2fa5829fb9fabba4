//! Holds and loads what was missing, on a thread of its own: a read that misses is answered by the
//! database at once, and waits for nobody.
use crate::definition::{Definition, Holding, Wanted, not_cached};
use crate::error::ReadError;
use crate::key::Key;
use crate::locks::{IsClosed, KrlPlace, Locks, Marks};
use crate::shared::Shared;
use crate::sql::{SERVERS, Selection};
use crate::table::{Errand, Inner};
use krl::{ErrorKind, JoinError, JoinErrorKind};
use std::collections::{HashMap, HashSet, VecDeque};
use std::fmt::Display;
use std::io;
use std::iter;
use std::sync::Arc;
use std::sync::mpsc::{Receiver, RecvTimeoutError};
use std::time::{Duration, Instant};

/// The pause before another attempt to join krl, and before a table is looked at again that is not
/// cached.
const PAUSE_BETWEEN_TRIES: Duration = Duration::from_millis(500);

/// How often the database is asked whether the role may still connect, and lost connections are
/// closed.
const CHECK: Duration = Duration::from_secs(10);

/// This many rows are loaded at once. Others are, when they are missed again.
const MOST_KEYS: usize = 4096;

/// Of this many stripes that were lost rows are loaded with a miss, and this many rows.
const MOST_AHEAD: usize = 32;
const MOST_KEYS_AHEAD: usize = 256;

/// This many stripes that were called back are remembered.
const MOST_CALLED_BACK: usize = 1024;

/// Joins krl, and loads.
pub(crate) struct Loader {
    shared: Arc<Shared>,
    place: KrlPlace,
    errands: Receiver<Errand>,
    /// When krl may be joined again.
    next_join: Instant,
    /// When the database is asked whether the role may still connect.
    next_check: Instant,
    /// Keys of krl that were called back, the oldest first.
    called_back: VecDeque<u64>,
}

/// Why rows are not kept.
enum Fault {
    /// Those of no table: krl or the extension is away.
    Cache(String),
    /// Those of this table: the database refuses them, or does not answer.
    Table(String),
}

impl Fault {
    fn of_cache(why: &impl Display) -> Fault {
        Fault::Cache(why.to_string())
    }

    /// The process has not joined krl. Its user may have no right to the server's socket, or to the
    /// number.
    fn of_join(why: &JoinError) -> Fault {
        let is_refused = match &why.kind {
            JoinErrorKind::TurnedAway(_) => true,
            JoinErrorKind::NoAnswer { fault: Some(fault), .. } => {
                fault.kind() == io::ErrorKind::PermissionDenied
            }
            _ => false,
        };
        if !is_refused {
            return Fault::of_cache(why);
        }
        Fault::Cache(format!(
            "{why}. At a Unix socket, the setting krl.server_users of PostgreSQL gives a user of the \
             machine its numbers"
        ))
    }

    /// What the database has reported as it was asked for a table.
    fn of_table(why: &ReadError) -> Fault {
        match why {
            ReadError::NoExtension => Fault::of_cache(why),
            _ => Fault::Table(why.to_string()),
        }
    }
}

impl From<IsClosed> for Fault {
    fn from(_: IsClosed) -> Fault {
        Fault::of_cache(&"the cache is closed")
    }
}

impl Loader {
    pub fn new(shared: Arc<Shared>, place: KrlPlace, errands: Receiver<Errand>) -> Loader {
        let (now, called_back) = (Instant::now(), VecDeque::new());
        let (next_join, next_check) = (now, now + CHECK);
        Loader { shared, place, errands, next_join, next_check, called_back }
    }

    /// Works until it is to leave, or all tables are gone.
    pub fn run(mut self) {
        self.work();
        self.shared.locks.close();
    }

    fn work(&mut self) {
        while let Some(errands) = self.next_errands() {
            let mut missed: HashMap<*const Inner, (Arc<Inner>, HashSet<Key>)> = HashMap::new();
            for errand in errands {
                let Errand::Load { table, keys } = errand else { return };
                let (_, all) = missed.entry(Arc::as_ptr(&table)).or_insert((table, HashSet::new()));
                all.extend(keys);
            }
            for (table, keys) in missed.into_values() {
                let loaded = self.load(&table, keys);
                self.note(&table, loaded);
            }
            self.check();
            if self.shared.locks.get().is_err() {
                return;
            }
        }
    }

    /// Notes why the rows of a table are not kept, or that they are. What is refused of one table is
    /// no fault of the others.
    fn note(&self, table: &Inner, loaded: Result<(), Fault>) {
        let (of_cache, of_table) = match loaded {
            Ok(()) => (None, None),
            Err(Fault::Cache(why)) => (Some(why), None),
            Err(Fault::Table(why)) => (None, Some(why)),
        };
        self.shared.fault.set(of_cache);
        table.fault.set(of_table);
    }

    /// Waits for errands, until the next check at most. There are none any more if nobody is left who
    /// sends them.
    fn next_errands(&self) -> Option<Vec<Errand>> {
        let wait = self.next_check.saturating_duration_since(Instant::now());
        match self.errands.recv_timeout(wait) {
            Ok(first) => Some(iter::once(first).chain(self.errands.try_iter()).collect()),
            Err(RecvTimeoutError::Timeout) => Some(Vec::new()),
            Err(RecvTimeoutError::Disconnected) => None,
        }
    }

    /// **What a role has kept that may no longer connect is given back**, whether or not a session of
    /// it lives on. It is kept while the database is away.
    fn check(&mut self) {
        if Instant::now() < self.next_check {
            return;
        }
        self.shared.drop_lost();
        if matches!(self.shared.locks.get(), Ok(Some(_)))
            && let Err(why) = self.may_connect()
        {
            self.shared.fault.set(Some(why));
            self.shared.locks.leave();
        }
        self.next_check = Instant::now() + CHECK;
    }

    /// Whether the database lets the role connect, or is away.
    fn may_connect(&self) -> Result<(), String> {
        match self.shared.ask(|session| session.may_connect()) {
            Ok(false) => Err("the role may no longer connect to the database".to_string()),
            Err(error) if error.is_refused_connection() => Err(error.to_string()),
            Ok(true) | Err(_) => Ok(()),
        }
    }

    /// Holds the stripes of these keys, and of others that were lost, and loads their rows.
    fn load(&mut self, table: &Inner, mut keys: HashSet<Key>) -> Result<(), Fault> {
        let locks = self.locks()?;
        let definition = self.definition(table, &locks)?;
        keys.extend(self.lost(&locks, &definition));
        let wanted = keys.iter().filter_map(|key| definition.locate(key).ok());
        // A row that was missed twice may be here by now.
        let wanted = wanted.filter(|wanted| !definition.has(wanted)).take(MOST_KEYS);
        let wanted: Vec<Wanted<'_>> = wanted.collect();
        if wanted.is_empty() {
            return Ok(());
        }
        let stripes = wanted.iter().map(|wanted| definition.stripes.key_of_krl(wanted.stripe));
        let mut stripes: Vec<u64> = stripes.collect();
        stripes.sort_unstable();
        stripes.dedup();
        let held = locks.hold(&stripes);
        held.map_err(|error| self.refused(&locks, error))?;
        let selection = Selection::Keys(wanted.iter().map(|wanted| wanted.key).collect());
        let load = |session: &mut _| definition.load(session, &wanted, &selection);
        let loaded = self.shared.ask(load).map_err(|error| Fault::of_table(&error));
        let (loaded, fault) = loaded?;
        table.note_load(&loaded, fault.as_ref());
        fault.map_or(Ok(()), |fault| Err(Fault::of_table(&fault)))
    }

    /// krl's locks. It joins if it has not.
    fn locks(&mut self) -> Result<Arc<Locks>, Fault> {
        if let Some(locks) = self.shared.locks.get()? {
            return Ok(locks);
        }
        if Instant::now() < self.next_join {
            let why = self.shared.fault.get();
            return Err(Fault::Cache(why.unwrap_or_else(|| "krl has not been joined yet".into())));
        }
        let joined = self.join();
        self.next_join = Instant::now() + PAUSE_BETWEEN_TRIES;
        let locks = Arc::new(joined?);
        self.shared.locks.put(&locks).inspect_err(|IsClosed| locks.leave())?;
        Ok(locks)
    }

    fn join(&self) -> Result<Locks, Fault> {
        self.may_connect().map_err(Fault::Cache)?;
        let asked = self.shared.ask(|session| session.ask_extension(SERVERS, &[]));
        let asked = asked.map_err(|error| Fault::of_cache(&error))?;
        let servers = asked.first().and_then(|row| row.try_get::<_, &str>(0).ok());
        let servers = servers.ok_or_else(|| Fault::of_cache(&"krl.servers() returns nothing"))?;
        let servers = servers.parse().map_err(|error| Fault::of_cache(&error))?;
        Locks::join(servers, &self.place).map_err(|error| Fault::of_join(&error))
    }

    /// The definition of the table, which is found again if it may be another one: and once more if
    /// the table was cached meanwhile, or by another mark.
    fn definition(&mut self, table: &Inner, locks: &Arc<Locks>) -> Result<Arc<Definition>, Fault> {
        let mut definition = table.definition();
        if definition.is_current(locks) {
            return Ok(definition);
        }
        if Instant::now() < *table.next_look() {
            return Err(Fault::Table(not_cached(&definition.sql.table)));
        }
        for _ in 0..2 {
            let of_table = definition.is_cached.then_some(definition.stripes.mark);
            let marks = of_table.map(|mark| self.marks(locks, mark)).transpose()?;
            let hold = || Some(Holding { locks: Arc::clone(locks), marks: marks? });
            let found = table.find(hold).map_err(|error| Fault::of_table(&error))?;
            if !found.is_cached {
                *table.next_look() = Instant::now() + PAUSE_BETWEEN_TRIES;
                return Err(Fault::Table(not_cached(&found.sql.table)));
            }
            definition = table.set(found);
            if of_table == Some(definition.stripes.mark) {
                break;
            }
        }
        Ok(definition)
    }

    fn marks(&mut self, locks: &Locks, of_table: u32) -> Result<Marks, Fault> {
        let marks = locks.hold_marks(of_table).map_err(|error| self.refused(locks, error))?;
        marks.ok_or_else(|| Fault::of_cache(&"the extension has not set krl's mark"))
    }

    /// krl has refused a call. It is joined again if that may help: a client stays with the store
    /// that it has seen. A lock that others hold is a fault of this table only.
    fn refused(&mut self, locks: &Locks, error: krl::Error) -> Fault {
        if error.kind != ErrorKind::TimedOut {
            self.shared.locks.leave();
        } else if locks.is_connected() {
            return Fault::Table(error.to_string());
        }
        Fault::of_cache(&error)
    }

    /// Keys of the table whose rows were read before their stripes were called back.
    fn lost(&mut self, locks: &Locks, definition: &Definition) -> Vec<Key> {
        for span in locks.take_called_back() {
            // Not what was lost with a mark, or with many rows.
            self.called_back.extend(span.take(MOST_AHEAD));
        }
        let excess = self.called_back.len().saturating_sub(MOST_CALLED_BACK);
        self.called_back.drain(..excess);
        let (mut keys, mut stripes) = (Vec::new(), 0);
        let look = definition.look();
        self.called_back.retain(|key| {
            let Some(stripe) = definition.stripes.at(*key) else { return true };
            if stripes == MOST_AHEAD {
                return true;
            }
            let held = look.and_then(|look| look.held(stripe));
            let lost = definition.memory.note_loss(stripe, held);
            stripes += usize::from(!lost.is_empty());
            keys.extend(lost);
            false
        });
        keys.truncate(MOST_KEYS_AHEAD);
        keys
    }
}

#[cfg(test)]
mod tests {
    use super::*;

    #[test]
    fn who_may_not_join_learns_by_which_setting_it_may() {
        let no_answer = |kind: io::ErrorKind| JoinErrorKind::NoAnswer {
            servers: Box::new("unix:/run/krl.socket".parse().unwrap()),
            fault: Some(kind.into()),
        };
        for (kind, expected) in [
            (JoinErrorKind::TurnedAway("its user has no right".to_string()), true),
            (no_answer(io::ErrorKind::PermissionDenied), true),
            (no_answer(io::ErrorKind::ConnectionReset), false),
        ] {
            let error = JoinError::from(kind);
            let Fault::Cache(why) = Fault::of_join(&error) else { panic!() };
            assert!(why.starts_with(&error.to_string()), "{why}");
            assert_eq!(why.contains("krl.server_users"), expected, "{why}");
        }
    }
}
