//! A small world: what happens in it, the rules that it keeps, and its state.
use crate::database::{Database, Service};
use crate::krl::{Client, Worker};
use crate::reader::Reader;

pub const TRANSACTIONS: usize = 3;
pub const READERS: usize = 2;

/// Where a database is.
#[derive(Clone, Copy, Debug, Default, PartialEq, Eq, Hash, PartialOrd, Ord)]
pub enum Site {
    /// The first primary.
    #[default]
    First,
    /// The replica of it that may be promoted.
    Replica,
}

/// A key of krl. A reader holds all of them that a world has, to keep rows.
#[derive(Clone, Copy, Debug, PartialEq, Eq, Hash, PartialOrd, Ord)]
pub enum Key {
    /// The stripe of all rows.
    Stripe,
    /// The mark of the table.
    Table,
    /// The mark of the cluster.
    Cluster,
}

#[derive(Clone, Copy, Debug, Default, PartialEq, Eq, Hash, PartialOrd, Ord)]
pub struct Keys(u8);

impl Keys {
    pub fn of(keys: &[Key]) -> Keys {
        keys.iter().fold(Keys::default(), |all, key| all.with(*key))
    }

    pub fn has(self, key: Key) -> bool {
        self.0 & Keys::bit(key) != 0
    }

    pub fn has_all(self, keys: Keys) -> bool {
        self.0 & keys.0 == keys.0
    }

    pub fn is_empty(self) -> bool {
        self.0 == 0
    }

    pub fn with(self, key: Key) -> Keys {
        Keys(self.0 | Keys::bit(key))
    }

    pub fn without(self, key: Key) -> Keys {
        Keys(self.0 & !Keys::bit(key))
    }

    pub fn iter(self) -> impl Iterator<Item = Key> {
        [Key::Stripe, Key::Table, Key::Cluster].into_iter().filter(move |key| self.has(*key))
    }

    fn bit(key: Key) -> u8 {
        1 << key as u8
    }
}

/// The content of the table: which transactions have committed and are visible.
#[derive(Clone, Copy, Debug, Default, PartialEq, Eq, Hash, PartialOrd, Ord)]
pub struct Content(u8);

impl Content {
    pub fn with(self, transaction: usize) -> Content {
        Content(self.0 | 1 << transaction)
    }
}

/// The value of the cluster's mark, which no two starts share.
#[derive(Clone, Copy, Debug, PartialEq, Eq, Hash, PartialOrd, Ord)]
pub struct Nonce(u8);

/// What safety rests on. A world may leave out one of these.
#[derive(Clone, Copy, Debug, PartialEq, Eq)]
pub enum Rule {
    /// A transaction gives notice before it commits.
    GivesNotice,
    GivesNoticeBeforeTheRecall,
    /// A notice lasts until the commit is visible.
    KeepsNoticeUntilVisible,
    /// The notice of a prepared transaction outlives a crash.
    KeepsNoticeOfPrepared,
    /// A transaction has its key taken back if a reader may keep rows by it.
    Recalls,
    /// A worker asks whether its lock still holds after it has it.
    RecallsWithinItsLease,
    /// The count of a key rises after the key was taken back, and not before.
    RaisesTheCountAfterTheRecall,
    /// No transaction skips a key before the cluster's mark has the nonce of this start.
    SkipsOnlyWithTheNonce,
    /// No worker takes anything back for a transaction before the mark has that nonce.
    RecallsOnlyWithTheNonce,
    /// The nonce comes into the mark while the worker holds the mark in X.
    TakesTheMark,
    /// A reader holds its keys before it asks `krl.quiet`.
    HoldsBeforeTheQuestion,
    ReadsTheNonceAfterTheTenures,
    /// A reader keeps rows only if `krl.quiet` has returned true.
    AsksWhetherItIsQuiet,
    /// `krl.quiet` compares the reader's nonce with that of the start.
    ComparesTheNonce,
    /// `krl.quiet` counts this key as kept.
    CountsAsKept(Key),
    CountsBeforeTheLook,
    /// `krl.quiet` looks for notices of this key.
    LooksForNoticesOf(Key),
    /// `krl.quiet` compares the counts after the look with those before.
    ComparesCounts,
    /// It compares numbers, and not only whether the key still counts as kept.
    ComparesWholeCounts,
    /// The snapshot of the rows is taken after `krl.quiet`.
    SelectsAfterTheQuestion,
    /// A read compares the tenure of this key with that of the load.
    ComparesTheTenureOf(Key),
    /// The cluster is suspended when the leases of all readers have ended.
    WaitsForTheLeases,
    /// `krl.quiet` returns false while the cluster is suspended.
    ClosesWhileSuspended,
    /// After a suspension transactions wait for krl again before readers keep rows again.
    WaitsForKrlBeforeItOpens,
    /// `krl.resume` takes the cluster's mark.
    TakesTheMarkToResume,
}

/// How often things happen that need not happen.
#[derive(Clone, Copy, Debug, Default, PartialEq, Eq, Hash, PartialOrd, Ord)]
pub struct Events {
    /// Leases that end while their clients are at work.
    pub ended_leases: u8,
    pub crashes: u8,
    pub suspensions: u8,
    pub promotions: u8,
    /// Transactions that are prepared.
    pub prepares: u8,
}

#[derive(Clone, Debug, Default)]
pub struct World {
    /// The key of which each transaction gives notice. Whatever it is, the transaction changes what
    /// readers keep by all keys.
    pub transactions: Vec<Key>,
    pub readers: usize,
    /// The keys that a reader holds. No other key of krl is taken by anybody.
    pub keys: Keys,
    pub events: Events,
    pub left_out: Option<Rule>,
}

impl World {
    pub fn keeps(&self, rule: Rule) -> bool {
        self.left_out != Some(rule)
    }

    pub fn without(&self, rule: Rule) -> World {
        World { left_out: Some(rule), ..self.clone() }
    }

    /// The key of a transaction, if there is one with this number.
    pub fn key_of(&self, transaction: usize) -> Option<Key> {
        self.transactions.get(transaction).copied()
    }
}

#[derive(Clone, Copy, Debug, PartialEq, Eq, Hash)]
pub struct State {
    pub databases: [Database; 2],
    /// The database whose table is the truth.
    pub primary: Site,
    pub worker: Worker,
    pub readers: [Reader; READERS],
    /// The value of the cluster's mark in krl.
    pub mark: Nonce,
    /// The last nonce that was drawn.
    pub drawn: Nonce,
    /// What may still happen.
    pub left: Events,
}

impl State {
    /// Nobody keeps anything, and the cluster's mark has the nonce of the first database.
    pub fn first(world: &World) -> State {
        let nonce = Nonce(1);
        State {
            databases: [Database::first(world, nonce), Database::default()],
            primary: Site::First,
            worker: Worker::default(),
            readers: [Reader::default(); READERS],
            mark: nonce,
            drawn: nonce,
            left: world.events,
        }
    }

    pub fn database(&self, site: Site) -> &Database {
        &self.databases[site as usize]
    }

    pub fn database_mut(&mut self, site: Site) -> &mut Database {
        &mut self.databases[site as usize]
    }

    pub fn primary(&self) -> &Database {
        self.database(self.primary)
    }

    pub fn primary_mut(&mut self) -> &mut Database {
        self.database_mut(self.primary)
    }

    /// The databases that answer readers. A former primary answers those who still ask it.
    pub fn answering(&self) -> &'static [Site] {
        match self.primary {
            Site::First => &[Site::First],
            Site::Replica => &[Site::First, Site::Replica],
        }
    }

    pub fn draw(&mut self) -> Nonce {
        self.drawn = Nonce(self.drawn.0 + 1);
        self.drawn
    }

    /// Whether krl's server runs: it is stopped before the cluster is suspended.
    pub fn is_served(&self) -> bool {
        self.primary().service != Service::Suspending
    }

    /// The clients of krl that are readers.
    pub fn reading_clients(&self) -> impl Iterator<Item = Client> {
        self.readers.iter().map(|reader| reader.client)
    }

    /// Whether a reader would return rows from memory that are not those of the table now.
    pub fn is_stale(&self, world: &World) -> bool {
        let content = self.primary().content;
        self.readers.iter().any(|reader| reader.returned(world).is_some_and(|it| it != content))
    }
}
