//! A reader: what it holds, what it loads, and what it keeps.
use crate::database::Database;
use crate::krl::Client;
use crate::world::{Content, Key, Keys, Nonce, Rule, Site, State, World};

#[derive(Clone, Copy, Debug, Default, PartialEq, Eq, Hash, PartialOrd, Ord)]
pub struct Reader {
    pub client: Client,
    pub load: Load,
    /// The rows that it keeps, as long as it has the tenures with which they were loaded.
    pub kept: Option<Content>,
}

#[derive(Clone, Copy, Debug, Default, PartialEq, Eq, Hash, PartialOrd, Ord)]
pub struct Load {
    pub at: LoadAt,
    /// Where the database is that it asks.
    site: Site,
    /// The counts are those that it has found.
    are_counts_same: bool,
    /// Rows of a snapshot before the question: a wrong load.
    early: Option<Content>,
}

#[derive(Clone, Copy, Debug, Default, PartialEq, Eq, Hash, PartialOrd, Ord)]
pub enum LoadAt {
    #[default]
    Idle,
    /// Has the nonce, and no tenures: a wrong load.
    WithoutTenures(Nonce),
    /// Has the tenures of all keys.
    WithTenures,
    WithNonce(Nonce),
    /// The database has counted the keys as kept, and looks for notices of these keys.
    Looking(Keys),
    /// Nobody had given notice.
    Looked,
    /// `krl.quiet` has returned true.
    Quiet,
    Selected(Content),
}

impl Load {
    fn to(self, at: LoadAt) -> Load {
        Load { at, ..self }
    }

    /// Whether it is connected to this database.
    fn asks(self, site: Site) -> bool {
        let is_asking = match self.at {
            LoadAt::Looking(_) | LoadAt::Looked | LoadAt::Quiet | LoadAt::Selected(_) => true,
            LoadAt::Idle
            | LoadAt::WithoutTenures(_)
            | LoadAt::WithTenures
            | LoadAt::WithNonce(_) => self.early.is_some(),
        };
        is_asking && self.site == site
    }

    pub fn note_raised_count(&mut self, site: Site) {
        if self.asks(site) {
            self.are_counts_same = false;
        }
    }

    /// A load by a database that crashes has failed, unless it has the rows.
    pub fn note_crash(&mut self, site: Site) {
        if self.asks(site) && !matches!(self.at, LoadAt::Selected(_)) {
            *self = Load::default();
        }
    }
}

impl Reader {
    /// What a read returns from memory now, if anything.
    pub fn returned(&self, world: &World) -> Option<Content> {
        self.kept.filter(|_| self.client.held().has_all(world.keys))
    }

    /// Its client has lost a key: it has another tenure from now on.
    fn lose(&mut self, world: &World, key: Key) {
        if !world.keeps(Rule::ComparesTheTenureOf(key)) {
            return;
        }
        self.kept = None;
        let has_tenures = !matches!(self.load.at, LoadAt::Idle | LoadAt::WithoutTenures(_));
        if has_tenures && world.keeps(Rule::HoldsBeforeTheQuestion) {
            self.load = Load::default();
        }
    }

    fn lose_all(&mut self, world: &World) {
        for key in self.client.held().iter() {
            self.lose(world, key);
        }
    }
}

/// What a reader can do next.
pub fn next(world: &World, state: &State, number: usize, next: &mut Vec<State>) {
    let mut go = |reader: Reader| {
        let mut after = *state;
        after.readers[number] = reader;
        next.push(after);
    };
    let reader = state.readers[number];
    for key in world.keys.iter() {
        change_lock(world, state, reader, key).map(&mut go);
    }
    if reader.client.has_ended {
        go(Reader { client: Client::default(), ..reader });
    } else if !reader.client.given.is_empty() {
        end_lease(world, state, number, next);
    }
    load(world, state, number, next);
}

/// Takes a key in S; or gives it back, as a worker wants it or the reader has no room.
fn change_lock(world: &World, state: &State, mut reader: Reader, key: Key) -> Option<Reader> {
    let client = &mut reader.client;
    if client.has_ended {
        return None;
    }
    if client.given.has(key) {
        client.given = client.given.without(key);
        reader.lose(world, key);
        return Some(reader);
    }
    client.given = client.given.with(key);
    let is_free = !state.worker.client.given.has(key);
    (is_free && state.is_served()).then_some(reader)
}

/// While krl's server is stopped, leases end.
fn end_lease(world: &World, state: &State, number: usize, next: &mut Vec<State>) {
    let mut after = *state;
    if state.is_served() {
        let Some(left) = state.left.ended_leases.checked_sub(1) else { return };
        after.left.ended_leases = left;
    }
    let reader = &mut after.readers[number];
    reader.lose_all(world);
    reader.client.end();
    next.push(after);
}

fn load(world: &World, state: &State, number: usize, next: &mut Vec<State>) {
    let reader = state.readers[number];
    let mut go = |load: Load| {
        let mut after = *state;
        after.readers[number].load = load;
        next.push(after);
    };
    let load = reader.load;
    match load.at {
        LoadAt::Idle if reader.kept.is_none() => {
            begin(world, state, reader).map(go);
        }
        LoadAt::WithoutTenures(nonce) => {
            if reader.client.held().has_all(world.keys) {
                go(load.to(LoadAt::WithNonce(nonce)));
            }
        }
        LoadAt::WithTenures => go(load.to(LoadAt::WithNonce(state.mark))),
        LoadAt::WithNonce(nonce) => ask(world, state, number, nonce, next),
        LoadAt::Looking(keys) => go(look(world, state, load, keys)),
        LoadAt::Looked => compare(world, state, number, next),
        LoadAt::Quiet => {
            let content = load.early.unwrap_or(state.database(load.site).content);
            go(load.to(LoadAt::Selected(content)));
        }
        LoadAt::Selected(content) => keep(world, state, number, content, next),
        LoadAt::Idle => {}
    }
}

/// Takes the tenures.
fn begin(world: &World, state: &State, reader: Reader) -> Option<Load> {
    let holds_all = reader.client.held().has_all(world.keys);
    if !world.keeps(Rule::ReadsTheNonceAfterTheTenures) {
        let nonce = LoadAt::WithoutTenures(state.mark);
        return reader.client.holds(Key::Cluster).then(|| Load::default().to(nonce));
    }
    let may_begin = holds_all || !world.keeps(Rule::HoldsBeforeTheQuestion);
    may_begin.then(|| Load::default().to(LoadAt::WithTenures))
}

/// Asks one of the databases that answer. It counts the keys as kept.
fn ask(world: &World, state: &State, number: usize, nonce: Nonce, next: &mut Vec<State>) {
    for site in state.answering() {
        let load = Load { site: *site, ..state.readers[number].load };
        let load = asked(world, *state.database(*site), load, nonce);
        let mut after = *state;
        after.readers[number].load = load;
        if matches!(load.at, LoadAt::Looking(_)) && world.keeps(Rule::CountsBeforeTheLook) {
            count_as_kept(world, &mut after.database_mut(*site).kept);
        }
        next.push(after);
    }
}

/// What becomes of a load that asks this database.
fn asked(world: &World, database: Database, load: Load, nonce: Nonce) -> Load {
    if !world.keeps(Rule::SelectsAfterTheQuestion) && load.early.is_none() {
        return Load { early: Some(database.content), ..load };
    }
    if !world.keeps(Rule::AsksWhetherItIsQuiet) {
        return load.to(LoadAt::Quiet);
    }
    if !database.is_open(world, Some(nonce)) {
        return Load::default();
    }
    Load { are_counts_same: true, ..load.to(LoadAt::Looking(world.keys)) }
}

fn count_as_kept(world: &World, kept: &mut Keys) {
    for key in world.keys.iter().filter(|key| world.keeps(Rule::CountsAsKept(*key))) {
        *kept = kept.with(key);
    }
}

/// Looks for notices of the next key.
fn look(world: &World, state: &State, load: Load, keys: Keys) -> Load {
    let Some(key) = keys.iter().next() else { return load.to(LoadAt::Looked) };
    let looks = world.keeps(Rule::LooksForNoticesOf(key));
    if looks && state.database(load.site).has_notice(world, key) {
        return Load::default();
    }
    load.to(LoadAt::Looking(keys.without(key)))
}

/// Compares the counts with those before the look.
fn compare(world: &World, state: &State, number: usize, next: &mut Vec<State>) {
    let mut after = *state;
    let load = state.readers[number].load;
    let database = after.database_mut(load.site);
    if !world.keeps(Rule::CountsBeforeTheLook) {
        count_as_kept(world, &mut database.kept);
    }
    let are_odd = database.kept.has_all(world.keys);
    let is_whole = world.keeps(Rule::ComparesWholeCounts);
    let are_same = if is_whole { load.are_counts_same } else { are_odd };
    let is_quiet = are_same || !world.keeps(Rule::ComparesCounts);
    after.readers[number].load = if is_quiet { load.to(LoadAt::Quiet) } else { Load::default() };
    next.push(after);
}

fn keep(world: &World, state: &State, number: usize, content: Content, next: &mut Vec<State>) {
    let mut after = *state;
    let reader = &mut after.readers[number];
    let holds_all = reader.client.held().has_all(world.keys);
    reader.load = Load::default();
    if world.keeps(Rule::HoldsBeforeTheQuestion) || holds_all {
        reader.kept = Some(content);
    }
    next.push(after);
}
