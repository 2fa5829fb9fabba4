//! Changes that are cut off after each of their steps, over stores in memory, with servers in between.
use super::*;
use krl::store::{History, Write};
use krl::{Outcome, Row, Value};
use std::collections::BTreeMap;
use std::sync::{Arc, Mutex, MutexGuard};

/// What is kept under a name.
#[derive(Clone, Debug, Default)]
struct Kept {
    snapshot: Snapshot,
    starts: Vec<Mark>,
}

/// The stores by their names, and how many steps the process that changes them has left.
#[derive(Debug, Default)]
struct Stores {
    kept: BTreeMap<&'static str, Kept>,
    steps_left: usize,
    starts: u128,
}

/// A store of this name.
#[derive(Clone, Debug)]
struct Named {
    name: &'static str,
    stores: Arc<Mutex<Stores>>,
}

/// An open store, which knows how far it had come.
struct OpenStore {
    of: Named,
    known: Option<Mark>,
}

impl Named {
    fn lock(&self) -> MutexGuard<'_, Stores> {
        self.stores.lock().unwrap()
    }

    /// One step, unless the process is killed before it.
    fn step(&self) -> Result<MutexGuard<'_, Stores>, StoreError> {
        let mut stores = self.lock();
        let left = stores.steps_left.checked_sub(1);
        stores.steps_left = left.ok_or_else(|| StoreError::failed("killed"))?;
        Ok(stores)
    }

    fn kept(&self) -> Option<Kept> {
        self.lock().kept.get(self.name).cloned()
    }

    fn is_open(&self) -> bool {
        self.kept().and_then(|kept| kept.snapshot.shard).is_some_and(|shard| !shard.is_sealed)
    }
}

impl fmt::Display for Named {
    fn fmt(&self, f: &mut fmt::Formatter<'_>) -> fmt::Result {
        f.write_str(self.name)
    }
}

impl Place for Named {
    fn open(&self) -> Done<Opened> {
        self.kept().ok_or("there is no such store")?;
        let store = OpenStore { of: self.clone(), known: None };
        Ok(Opened::new(store, None))
    }

    fn create(&self, snapshot: &Snapshot) -> Done {
        let starts = snapshot.first_start.map(|start| Mark { start, commits: 0 });
        let kept = Kept { snapshot: snapshot.clone(), starts: starts.into_iter().collect() };
        let before = self.step()?.kept.insert(self.name, kept);
        before.map_or(Ok(()), |_| Err("there is a store".into()))
    }

    fn clear(&self, unused: &ShardBounds) -> Done {
        let kept = self.kept().and_then(|kept| kept.snapshot.shard);
        if kept == Some(KeptShard::sealed(*unused)) {
            self.step()?.kept.remove(self.name);
        }
        Ok(())
    }
}

impl Store for OpenStore {
    fn load(&mut self) -> Result<Snapshot, StoreError> {
        let kept = self.of.kept().unwrap();
        self.known = kept.starts.last().copied();
        Ok(kept.snapshot)
    }

    fn commit(&mut self, changes: &[Change]) -> Result<(), StoreError> {
        let mut stores = self.of.step()?;
        stores.starts += 1;
        let next = stores.starts;
        let kept = stores.kept.get_mut(self.of.name).unwrap();
        if kept.starts.last().copied() != self.known {
            return Err(StoreError::Deposed("another one has the store".into()));
        }
        Change::judge_shards(kept.snapshot.shard, changes).map_err(StoreError::failed)?;
        for change in changes {
            kept.snapshot.apply(change);
        }
        match kept.starts.last_mut() {
            Some(last) if !matches!(changes[0], Change::Started { .. }) => last.commits += 1,
            _ => kept.starts.push(Mark { start: next, commits: 1 }),
        }
        self.known = kept.starts.last().copied();
        Ok(())
    }

    fn snapshot(&mut self) -> Result<Snapshot, StoreError> {
        Ok(self.of.kept().unwrap().snapshot)
    }

    fn history(&mut self) -> Result<Option<History>, StoreError> {
        Ok(History::new(self.of.kept().unwrap().starts))
    }
}

/// A table of two shards, in `a` and `b`, of which each key but 2, 12 and 22 has a row.
#[derive(Clone)]
struct World(Arc<Mutex<Stores>>);

const FREE: [u64; 3] = [2, 12, 22];

fn bounds(text: &str) -> ShardBounds {
    text.parse().unwrap()
}

impl World {
    fn new() -> World {
        let mut stores = Stores { starts: 100, ..Stores::default() };
        for (name, keys, start) in [("a", 0..10, 1), ("b", 10..30, 2)] {
            let shard = format!("{}..{}@1", keys.start, keys.end).parse().ok();
            let keys = keys.filter(|key| !FREE.contains(key));
            let rows = keys.map(|key| (key, Value::from(key))).collect();
            let snapshot = Snapshot { epoch: 1, rows, shard, ..Snapshot::default() };
            let starts = vec![Mark { start, commits: 1 }];
            stores.kept.insert(name, Kept { snapshot, starts });
        }
        World(Arc::new(Mutex::new(stores)))
    }

    fn named(&self, name: &'static str) -> Named {
        Named { name, stores: Arc::clone(&self.0) }
    }

    /// Gives the next change so many steps.
    fn allow(&self, steps: usize) {
        self.0.lock().unwrap().steps_left = steps;
    }

    /// A server on each store on which one may start. A client inserts what it has not.
    fn serve(&self) {
        self.allow(usize::MAX);
        for name in ["a", "b", "c", "d"].map(|name| self.named(name)) {
            if name.is_open() {
                serve(&name);
            }
        }
    }

    /// The keys of the stores on which servers may start. No two of these have a key in common.
    fn keys(&self) -> Vec<u64> {
        let stores = self.0.lock().unwrap();
        let open = stores.kept.values().map(|kept| &kept.snapshot);
        let open = open.filter(|it| it.shard.is_some_and(|shard| !shard.is_sealed));
        let mut owned: Vec<_> = open.clone().map(|it| it.shard.unwrap().bounds.keys()).collect();
        owned.sort_by_key(|keys| keys.start);
        assert!(owned.windows(2).all(|pair| pair[0].end <= pair[1].start), "{owned:?}");
        let mut keys: Vec<u64> = open.flat_map(|it| it.rows.keys().copied()).collect();
        keys.sort_unstable();
        keys
    }
}

/// A server starts on the store, and a client that inserts what the store lacks, and leaves.
fn serve(store: &Named) {
    let mut opened = store.open().unwrap().store;
    let found = opened.load().unwrap();
    opened.commit(&[Change::Started { epoch: found.epoch + 1 }]).unwrap();
    opened.commit(&[Change::Registered { client: 3, incarnation: found.epoch + 1 }]).unwrap();
    let keys = found.shard.unwrap().bounds.keys();
    for (key, number) in FREE.into_iter().zip(1..).filter(|(key, _)| keys.contains(key)) {
        let write = Write::Insert(Row { key, value: Value::from(key) });
        let outcome = Outcome::Applied;
        opened.commit(&[Change::Judged { client: 3, number, write, outcome }]).unwrap();
    }
    opened.commit(&[Change::Left { client: 3 }]).unwrap();
}

/// A change of the table of a world, into the store of this name.
type Changed = fn(&World, &'static str) -> Done;

fn changed(
    world: &World,
    old: &[(&'static str, &str, &str)],
    (name, shard): (&'static str, &str),
    content: impl FnOnce(Vec<Snapshot>) -> Done<Snapshot>,
) -> Done {
    let places: Vec<Named> = old.iter().map(|(name, ..)| world.named(name)).collect();
    let old = places.iter().zip(old).map(|(place, (_, before, after))| OldStore {
        place,
        before: bounds(before),
        after: after.parse().unwrap(),
    });
    let old: Vec<_> = old.collect();
    change(&old, &NewStore { place: &world.named(name), shard: bounds(shard) }, content)
}

fn split(world: &World, new: &'static str) -> Done {
    let old = [("b", "10..30@1", "10..20@2")];
    changed(world, &old, (new, "20..30@2"), |mut old| Ok(old.remove(0).split(20).1))
}

fn merge(world: &World, new: &'static str) -> Done {
    let old = [("a", "0..10@1", "0..10@2 sealed"), ("b", "10..30@1", "10..30@2 sealed")];
    changed(world, &old, (new, "0..30@2"), |mut old| {
        let upper = old.remove(1);
        Ok(old.remove(0).merge(upper)?)
    })
}

fn move_away(world: &World, new: &'static str) -> Done {
    let old = [("b", "10..30@1", "10..30@2 sealed")];
    changed(world, &old, (new, "10..30@2"), |mut old| Ok(old.remove(0)))
}

const CHANGES: [Changed; 3] = [split, merge, move_away];

#[test]
fn a_change_that_is_cut_off_after_any_step_is_repeated() {
    for change in CHANGES {
        for is_served in [false, true] {
            for steps in 0.. {
                let world = World::new();
                world.allow(steps);
                let is_done = change(&world, "c").is_ok();
                world.keys();
                if is_served {
                    world.serve();
                }
                world.allow(usize::MAX);
                change(&world, "c").unwrap();
                change(&world, "c").unwrap();
                assert!(is_served || world.keys().len() == 27, "after {steps} steps");
                world.serve();
                assert_eq!(world.keys(), (0..30).collect::<Vec<_>>(), "after {steps} steps");
                if is_done {
                    assert!(steps > 3);
                    break;
                }
            }
        }
    }
}

#[test]
fn a_new_store_that_was_not_used_is_never_opened() {
    for change in CHANGES {
        for steps in 0.. {
            let world = World::new();
            world.allow(steps);
            let is_done = change(&world, "c").is_ok();
            world.allow(usize::MAX);
            // The new store of another name is a second one, if the first one was not used.
            let second = change(&world, "d");
            world.keys();
            let first = change(&world, "c");
            assert_ne!(first.is_ok(), second.is_ok(), "after {steps} steps");
            world.serve();
            assert_eq!(world.keys(), (0..30).collect::<Vec<_>>(), "after {steps} steps");
            if is_done {
                break;
            }
        }
    }
}

#[test]
fn a_server_that_starts_meanwhile_keeps_its_rows() {
    let world = World::new();
    world.allow(usize::MAX);
    let old = [("b", "10..30@1", "10..30@2 sealed")];
    let why = changed(&world, &old, ("c", "10..30@2"), |mut old| {
        serve(&world.named("b"));
        Ok(old.remove(0))
    });
    assert!(why.unwrap_err().is::<InUse>());
    assert!(world.named("b").is_open() && !world.named("c").is_open());
    move_away(&world, "c").unwrap();
    world.serve();
    assert_eq!(world.keys(), (0..30).collect::<Vec<_>>());
}

#[test]
fn stores_of_other_shards_and_stores_in_use_stay_as_they_are() {
    let world = World::new();
    world.allow(usize::MAX);
    let register = Change::Registered { client: 7, incarnation: 1 };
    let mut served = world.named("a").open().unwrap().store;
    served.load().unwrap();
    served.commit(&[register]).unwrap();
    let before = format!("{:?}", world.0.lock().unwrap().kept);
    let why = merge(&world, "c").unwrap_err();
    assert!(why.is::<InUse>() && why.to_string().ends_with("have not left: 7"), "{why}");
    for (before, after) in [("10..30@2", "10..30@3 sealed"), ("10..31@1", "10..31@2 sealed")] {
        let old = [("b", before, after)];
        let why = changed(&world, &old, ("c", "10..30@3"), |mut old| Ok(old.remove(0)));
        let why = why.unwrap_err().to_string();
        assert!(why.starts_with("b is of the shard 10..30@1, and by the map it is "), "{why}");
    }
    assert_eq!(format!("{:?}", world.0.lock().unwrap().kept), before);
}

#[test]
fn a_change_that_is_given_up_is_not_made_later() {
    let world = World::new();
    world.allow(usize::MAX);
    let place = world.named("b");
    let after = KeptShard::sealed(bounds("10..30@2"));
    let old = [OldStore { place: &place, before: bounds("10..30@1"), after }];
    let mut killed = Taken::open(&old[0]).unwrap();
    killed.start().unwrap();
    assert!(stay_unchanged(&old).unwrap());
    // What it has sent comes only now.
    assert!(killed.become_next().unwrap_err().is::<InUse>());
    move_away(&world, "c").unwrap();
    assert!(!stay_unchanged(&old).unwrap());
}

#[test]
fn a_change_whose_commit_is_not_answered_may_have_been_made() {
    for (steps, is_unknown) in [(0, false), (1, false), (2, true)] {
        let world = World::new();
        world.allow(steps);
        assert_eq!(move_away(&world, "c").unwrap_err().is::<Unknown>(), is_unknown, "{steps}");
    }
}
