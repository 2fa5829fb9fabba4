//! krl, as its theorem has it: no client has a key in X while another one has it. And the worker,
//! which takes keys back.
use crate::world::{Key, Keys, Nonce, Rule, Site, State, World};

/// A client of krl's server.
#[derive(Clone, Copy, Debug, Default, PartialEq, Eq, Hash, PartialOrd, Ord)]
pub struct Client {
    /// What it has from the server's view.
    pub given: Keys,
    /// Its lease has ended, so that it holds nothing. The server gives others what it has later.
    pub has_ended: bool,
}

impl Client {
    pub fn held(self) -> Keys {
        if self.has_ended { Keys::default() } else { self.given }
    }

    pub fn holds(self, key: Key) -> bool {
        self.held().has(key)
    }

    /// Its lease ends, or the process.
    pub fn end(&mut self) {
        self.has_ended = !self.given.is_empty();
    }
}

/// The workers of a database, as one client.
#[derive(Clone, Copy, Debug, Default, PartialEq, Eq, Hash)]
pub struct Worker {
    pub client: Client,
    /// What it takes for held although its lease has ended: a wrong worker.
    pub believed: Keys,
    /// What it has put into the cluster's mark, and not yet into the memory of its database.
    pub noted: Option<Nonce>,
    /// Where its database is.
    pub site: Site,
}

impl Worker {
    /// The worker's process ends with that of its database.
    pub fn end(&mut self) {
        self.client.end();
        self.believed = Keys::default();
        self.noted = None;
    }
}

/// Whether the primary's worker holds the key in X, for a transaction.
pub fn has_recalled(world: &World, state: &State, key: Key) -> bool {
    let worker = &state.worker;
    let is_ready = state.primary().nonce.is_some() || !world.keeps(Rule::RecallsOnlyWithTheNonce);
    let holds = worker.client.holds(key) || worker.believed.has(key);
    !world.keeps(Rule::Recalls) || is_ready && holds && worker.site == state.primary
}

/// What the worker can do next.
pub fn next(world: &World, state: &State, next: &mut Vec<State>) {
    for key in world.keys.iter() {
        next.extend(take_or_give_back(state, key));
    }
    next.extend(free(state));
    next.extend(end_lease(state));
    next.extend(end_lease_unnoticed(world, state));
    next.extend(put_nonce(world, state));
    next.extend(note_nonce(state));
    next.extend(join(state));
}

/// Takes a key in X if nobody else has it; or gives it back, as somebody else wants it.
fn take_or_give_back(state: &State, key: Key) -> Option<State> {
    let mut after = *state;
    let client = &mut after.worker.client;
    if client.has_ended {
        return None;
    }
    if client.given.has(key) {
        client.given = client.given.without(key);
        return Some(after);
    }
    client.given = client.given.with(key);
    let is_free = !state.reading_clients().any(|it| it.given.has(key));
    (is_free && state.is_served()).then_some(after)
}

/// The server gives others what a client had whose lease has ended.
fn free(state: &State) -> Option<State> {
    let mut after = *state;
    after.worker.client = Client::default();
    state.worker.client.has_ended.then_some(after)
}

fn end_lease(state: &State) -> Option<State> {
    let mut after = *state;
    after.left.ended_leases = state.left.ended_leases.checked_sub(1)?;
    after.worker.client.end();
    (!state.worker.client.held().is_empty()).then_some(after)
}

/// The same, and the server has given up what the worker still takes for held.
fn end_lease_unnoticed(world: &World, state: &State) -> Option<State> {
    let mut after = end_lease(state)?;
    after.worker.believed = state.worker.client.given;
    after.worker.client = Client::default();
    (!world.keeps(Rule::RecallsWithinItsLease)).then_some(after)
}

/// After a start the worker puts a nonce into the cluster's mark.
fn put_nonce(world: &World, state: &State) -> Option<State> {
    let mut after = *state;
    let worker = &state.worker;
    let has_nonce = state.database(worker.site).nonce.is_some() || worker.noted.is_some();
    let may_put = worker.client.holds(Key::Cluster) || !world.keeps(Rule::TakesTheMark);
    after.mark = after.draw();
    after.worker.noted = Some(after.mark);
    (!has_nonce && may_put && worker.site == state.primary && state.is_served()).then_some(after)
}

fn note_nonce(state: &State) -> Option<State> {
    let mut after = *state;
    let nonce = after.worker.noted.take()?;
    after.database_mut(state.worker.site).nonce = Some(nonce);
    Some(after)
}

/// The worker of a promoted database joins as the client of the former one, which has to be gone.
fn join(state: &State) -> Option<State> {
    let mut after = *state;
    after.worker = Worker { site: state.primary, ..Worker::default() };
    let is_gone = state.worker.client.given.is_empty();
    (is_gone && state.worker.site != state.primary).then_some(after)
}
