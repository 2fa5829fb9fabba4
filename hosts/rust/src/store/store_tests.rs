//! Tests that every store has to pass, for the tests of its author.
//!
//! Each test is given what opens the store as a server does that starts: a new value of the store,
//! over all that was committed before. No test but those of a fence has two values at a time. A
//! test begins with an empty store, and panics if the store does something wrong.
//!
//! ```no_run
//! use krl::SqliteStore;
//! use krl::store::store_tests;
//!
//! store_tests::keeps_what_is_committed(|| SqliteStore::open("table.db").unwrap());
//! ```
use crate::model::change::{Change, Outcome, Write};
use crate::model::client_set::ClientSet;
use crate::model::history::Mark;
use crate::model::kept_shard::KeptShard;
use crate::model::lease_record::LeaseRecord;
use crate::model::room::Room;
use crate::model::row::{END, MAX_VALUE_BYTES, Row, Value};
use crate::model::shard_bounds::ShardBounds;
use crate::model::snapshot::Snapshot;
use crate::store::map_home::MapHome;
use crate::store::{Store, StoreError};
use std::num::NonZeroU64;
use std::ops::Range;
use std::thread;
use std::time::{Duration, Instant};

/// A client registers for the first time.
pub const REGISTER: Change = Change::Registered { client: 9, incarnation: 1 };

/// A row of at most 32 bytes.
///
/// # Panics
///
/// For more bytes.
#[must_use]
pub fn row(key: u64, bytes: &[u8]) -> Row {
    Row { key, value: Value::try_from(bytes).expect("at most 32 bytes") }
}

/// A write of the client of [`REGISTER`] was judged.
#[must_use]
pub fn judged(number: u64, write: Write, outcome: Outcome) -> Change {
    Change::Judged { client: 9, number, write, outcome }
}

/// The row 10 has this value from now on.
#[must_use]
pub fn put(number: u64, value: u64) -> Change {
    judged(number, Write::Put(Row { key: 10, value: value.into() }), Outcome::Applied)
}

/// Changes of each kind, with the least and greatest numbers that a server commits.
#[must_use]
pub fn changes() -> Vec<Change> {
    let leased = |longest, unleased| {
        Change::Leased(LeaseRecord { longest, unleased: ClientSet::of_bits(unleased) })
    };
    vec![
        Change::Started { epoch: 1 },
        Change::Registered { client: 9, incarnation: 5 },
        Change::Registered { client: 2, incarnation: 7 },
        judged(1, Write::Insert(row(10, b"ten")), Outcome::Applied),
        judged(2, Write::Insert(row(10, b"other")), Outcome::Exists),
        judged(3, Write::Insert(row(END - 1, &[0xff; MAX_VALUE_BYTES])), Outcome::Applied),
        judged(4, Write::Put(row(10, b"")), Outcome::Applied),
        judged(5, Write::Put(row(11, b"")), Outcome::Absent),
        judged(6, Write::Insert(row(0, b"\0")), Outcome::Applied),
        judged(7, Write::Delete(0), Outcome::NotHeld),
        judged(8, Write::Insert(row(1, b"")), Outcome::Full),
        Change::Left { client: 2 },
        judged(9, Write::Delete(10), Outcome::Applied),
        Change::Registered { client: 2, incarnation: END },
        Change::Registered { client: 9, incarnation: 6 },
        leased(10_000_000_000, 1 << 63 | 5),
        Change::Started { epoch: 2 },
        leased(u64::MAX >> 1, 0),
        Change::Room(Room::of(3).unwrap_or_default()),
        Change::Room(Room::MAX),
        shard(0..END + 1, 1, false),
        shard(10..END, 7, true),
        shard(10..END, 7, false),
    ]
}

/// The store is of this shard from now on.
fn shard(keys: Range<u64>, version: u64, is_sealed: bool) -> Change {
    let version = NonZeroU64::new(version).expect("versions begin with 1");
    let bounds = ShardBounds::new(keys, version).expect("the keys are those of a shard");
    Change::Shard(KeptShard { bounds, is_sealed })
}

/// Makes the changes in the snapshot, in their order.
pub fn apply(snapshot: &mut Snapshot, changes: &[Change]) {
    for change in changes {
        snapshot.apply(change);
    }
}

/// The snapshot without the first start, which a store with a history draws at random.
#[must_use]
pub fn without_first_start(snapshot: Snapshot) -> Snapshot {
    Snapshot { first_start: None, ..snapshot }
}

/// Whether another server has the store.
#[must_use]
pub fn is_deposed(committed: &Result<(), StoreError>) -> bool {
    matches!(committed, Err(StoreError::Deposed(_)))
}

/// A value of the store, and what it has loaded.
///
/// # Panics
///
/// If it loads nothing.
pub fn loaded<S: Store>(open: &mut impl FnMut() -> S) -> (S, Snapshot) {
    let mut store = open();
    let snapshot = store.load().expect("a store that is well is loaded");
    (store, without_first_start(snapshot))
}

/// What is loaded is what was committed, one change at a time and several at once.
///
/// # Panics
///
/// If it is not.
pub fn keeps_what_is_committed<S: Store>(mut open: impl FnMut() -> S) {
    let mut expected = Snapshot::default();
    for change in changes() {
        let (mut store, found) = loaded(&mut open);
        assert_eq!(found, expected, "before {change:?}");
        store.commit(&[change]).expect("each change is committed");
        expected.apply(&change);
        let copied = store.snapshot().map(without_first_start);
        assert_eq!(copied.expect("a store is copied"), expected, "{change:?}");
        store.commit(&[]).expect("the store is still this value's");
    }
    assert_eq!(loaded(&mut open).1, expected);
    let later = [
        judged(1, Write::Insert(row(10, b"a")), Outcome::Applied),
        judged(2, Write::Delete(10), Outcome::Applied),
        judged(3, Write::Insert(row(10, b"b")), Outcome::Applied),
        judged(4, Write::Put(row(10, b"c")), Outcome::Applied),
        judged(5, Write::Delete(END - 1), Outcome::Applied),
        judged(6, Write::Insert(row(12, b"d")), Outcome::Applied),
    ];
    let (mut store, _) = loaded(&mut open);
    store.commit(&later).expect("several changes are committed");
    drop(store);
    apply(&mut expected, &later);
    assert_eq!(loaded(&mut open).1, expected, "of several changes of a row the last one counts");
}

/// A history has each start, and counts the batches after it. For a store that has one.
///
/// # Panics
///
/// If it does not.
pub fn counts_each_start_and_each_batch<S: Store>(mut open: impl FnMut() -> S) {
    let mut marks: Vec<Mark> = Vec::new();
    for epoch in 1..4 {
        let (mut store, _) = loaded(&mut open);
        let found = store.history().expect("a history is read").and_then(|it| it.mark());
        assert_eq!(found, marks.last().copied(), "before the start {epoch}");
        for batch in [Change::Started { epoch }, REGISTER, put(epoch, epoch)] {
            store.commit(&[batch]).expect("each batch is committed");
            store.commit(&[]).expect("that counts for nothing");
            let history = store.history().expect("a history is read").expect("there is one");
            marks.extend(history.mark());
            assert!(marks.iter().all(|mark| history.has(*mark)), "{batch:?}");
        }
        let last = marks[marks.len() - 1];
        assert_eq!(last.commits, 3);
        let history = store.history().expect("a history is read").expect("there is one");
        assert!(!history.has(Mark { commits: 4, ..last }), "no such batch was committed");
        let first_start = Some(marks[0].start);
        assert_eq!(history.first_start(), first_start);
        assert_eq!(store.snapshot().expect("a store is copied").first_start, first_start);
    }
    marks.dedup_by_key(|mark| mark.start);
    assert_eq!(marks.len(), 3, "each start has bits of its own");
}

/// What a value commits rests on what it has loaded: if another value has committed something
/// since, it is deposed. For a store that several servers may open at once.
///
/// # Panics
///
/// If it commits something.
pub fn deposes_an_older_value<S: Store>(mut open: impl FnMut() -> S) {
    let insert = |number, key| judged(number, Write::Insert(row(key, b"x")), Outcome::Applied);
    let (mut old, _) = loaded(&mut open);
    old.commit(&[Change::Started { epoch: 1 }, REGISTER]).expect("the first one has the store");
    old.commit(&[]).expect("it still has the store");
    let (mut early, _) = loaded(&mut open);
    early.commit(&[]).expect("nothing has happened yet");
    old.commit(&[insert(1, 1)]).expect("nobody else has committed anything");
    let committed = early.commit(&[Change::Started { epoch: 2 }]);
    assert!(is_deposed(&committed), "it was loaded before the insert: {committed:?}");
    let (mut new, found) = loaded(&mut open);
    assert!(found.rows.contains_key(&1), "it was loaded after the insert");
    new.commit(&[]).expect("nobody else has committed anything");
    new.commit(&[Change::Started { epoch: 2 }]).expect("nobody else has committed anything");
    for batch in [&[][..], &[insert(2, 2)], &[Change::Started { epoch: 3 }], &[]] {
        let committed = old.commit(batch);
        assert!(is_deposed(&committed), "{batch:?}: {committed:?}");
    }
    new.commit(&[insert(2, 3)]).expect("the newer one has the store");
    drop((old, early, new));
    let found = loaded(&mut open).1;
    assert_eq!((found.epoch, found.rows.keys().copied().collect()), (2, vec![1, 3]));
}

/// Of two values that load at the same time and start the same epoch, one starts it. For a store
/// that several servers may open at once.
///
/// # Panics
///
/// If both do.
pub fn distinguishes_two_starts<S: Store>(mut open: impl FnMut() -> S) {
    for epoch in 1..3 {
        let ((mut one, _), (mut other, _)) = (loaded(&mut open), loaded(&mut open));
        one.commit(&[Change::Started { epoch }]).expect("nobody else has committed anything");
        assert!(is_deposed(&other.commit(&[Change::Started { epoch }])), "epoch {epoch}");
        one.commit(&[REGISTER, put(epoch, epoch)]).expect("it has the store");
    }
}

/// A store becomes only a later shard, with keys that it has: otherwise nothing changes.
///
/// # Panics
///
/// If it becomes another one, or keeps a row of another key.
pub fn becomes_only_a_later_shard<S: Store>(mut open: impl FnMut() -> S) {
    let insert = |number, key| judged(number, Write::Insert(row(key, b"x")), Outcome::Applied);
    let (mut store, _) = loaded(&mut open);
    let rows = [REGISTER, insert(1, 9), insert(2, 10), insert(3, 19), insert(4, 20)];
    store.commit(&[Change::Started { epoch: 1 }]).expect("nobody else has committed anything");
    store.commit(&rows).expect("nobody else has committed anything");
    store.commit(&[shard(10..20, 7, false)]).expect("it was of no shard");
    drop(store);
    let expected = loaded(&mut open).1;
    assert_eq!(expected.rows.keys().copied().collect::<Vec<_>>(), [10, 19]);
    for other in [
        shard(10..20, 6, false),
        shard(10..20, 7, true),
        shard(10..15, 7, false),
        shard(10..21, 8, false),
        shard(9..20, 8, false),
    ] {
        let (mut store, found) = loaded(&mut open);
        assert_eq!(found, expected, "before {other:?}");
        let committed = store.commit(&[other]);
        assert!(matches!(committed, Err(StoreError::Failed(_))), "{other:?}: {committed:?}");
    }
    let (mut store, found) = loaded(&mut open);
    assert_eq!(found, expected);
    store.commit(&[shard(10..15, 8, true)]).expect("it is a later one");
    drop(store);
    let found = loaded(&mut open).1;
    assert_eq!(found.rows.keys().copied().collect::<Vec<_>>(), [10]);
    assert_eq!(Change::Shard(found.shard.expect("it is kept")), shard(10..15, 8, true));
}

/// A copy of another store continues from what it has, and from the first start of that store. For
/// a store that can be made of a snapshot.
///
/// # Panics
///
/// If it does not.
pub fn goes_on_from_a_copy<S: Store>(
    mut create: impl FnMut(&Snapshot) -> Result<(), StoreError>,
    mut open: impl FnMut() -> S,
) {
    let first_start = 1 << 127 | 5;
    let mut copied = Snapshot { first_start: Some(first_start), ..Snapshot::default() };
    apply(&mut copied, &changes());
    copied.rows.extend((10..510).map(|key| (key, key.into())));
    create(&copied).expect("nothing is there");
    create(&copied).expect("a command that was killed is repeated");
    assert!(create(&Snapshot::default()).is_err(), "it is there already");
    let (mut store, found) = loaded(&mut open);
    assert_eq!(found, without_first_start(copied.clone()));
    store.commit(&[Change::Started { epoch: 3 }]).expect("the copy is a store");
    assert!(create(&copied).is_err(), "a server has started on it");
    let history = store.history().expect("a history is read").expect("there is one");
    assert_eq!(history.first_start(), Some(first_start));
    assert_eq!(store.snapshot().expect("a store is copied").first_start, Some(first_start));
    let later = Mark { start: first_start, commits: 1 };
    assert!(!history.has(later), "who has seen that finds an older store");
    drop(store);
    let (mut store, _) = loaded(&mut open);
    assert_eq!(store.history().expect("a history is read"), Some(history));
}

/// A store is removed only if it is sealed and of these keys. Another one is made in its place. For a
/// store that can be made of a snapshot.
///
/// # Panics
///
/// If another one is removed, or something of it is left.
pub fn removes_only_what_is_sealed<S: Store>(
    mut create: impl FnMut(&Snapshot) -> Result<(), StoreError>,
    mut remove: impl FnMut(&Range<u64>) -> Result<bool, StoreError>,
    mut open: impl FnMut() -> S,
) {
    let mut sealed = Snapshot::default();
    let leases = LeaseRecord { longest: 5, unleased: ClientSet::of_bits(1) };
    let room = Change::Room(Room::MAX);
    apply(&mut sealed, &[REGISTER, Change::Leased(leases), room, shard(10..20, 7, true)]);
    sealed.rows.extend((10..20).map(|key| (key, key.into())));
    assert!(!remove(&(10..20)).expect("nothing is there"), "before there was one");
    create(&sealed).expect("nothing is there");
    for other in [10..21, 9..20, 10..11] {
        assert!(!remove(&other).expect("it is asked"), "of {other:?}");
    }
    assert_eq!(loaded(&mut open).1, sealed);
    assert!(remove(&(10..20)).expect("it is sealed"));
    assert_eq!(loaded(&mut open).1, Snapshot::default());
    let mut opened = Snapshot { epoch: 3, ..sealed };
    apply(&mut opened, &[shard(10..20, 7, false)]);
    create(&opened).expect("the other one is removed");
    assert!(!remove(&(10..20)).expect("it is asked"), "a server may start on it");
    assert_eq!(loaded(&mut open).1, opened);
}

/// A map is replaced only by one who knows the one before. There is no map at first.
///
/// # Panics
///
/// If the home does something wrong.
pub fn replaces_only_a_known_map<H: MapHome>(mut open: impl FnMut() -> H) {
    let (mut one, mut other) = (open(), open());
    let read = |home: &mut H| home.read().expect("it is read");
    let replace = |home: &mut H, before, next| home.replace(before, next).expect("it answers");
    assert_eq!(read(&mut one), None);
    assert!(!replace(&mut one, Some("0"), "1"));
    assert!(replace(&mut one, None, "1"));
    assert!(!replace(&mut other, None, "2") && !replace(&mut other, Some("0"), "2"));
    assert!(replace(&mut other, Some("1"), "2"));
    assert!(replace(&mut other, Some("1"), "2"), "the answer to the first call may have been lost");
    assert_eq!(read(&mut one).as_deref(), Some("2"));
}

/// A change of a map is waited for, also one that came before the wait. There is no map at first.
/// Returns one that has read the map.
///
/// # Panics
///
/// If the home does something wrong.
pub fn waits_for_a_map<H: MapHome + Send>(mut open: impl FnMut() -> H) -> H {
    const LONG: Duration = Duration::from_secs(60);
    let (mut one, mut other) = (open(), open());
    let read = |home: &mut H| home.read().expect("it is read");
    let mut replace = |before, next| assert!(other.replace(before, next).expect("it answers"));
    assert_eq!(read(&mut one), None);
    replace(None, "1");
    let begun = Instant::now();
    one.wait(LONG);
    assert_eq!(read(&mut one).as_deref(), Some("1"));
    thread::scope(|scope| {
        scope.spawn(|| one.wait(LONG));
        replace(Some("1"), "2");
    });
    assert_eq!(read(&mut one).as_deref(), Some("2"));
    assert!(begun.elapsed() < LONG, "it waited for an event");
    one
}
