//! A database: its transactions, its crashes, its suspension and its promotion.
use crate::krl::{self, Worker};
use crate::world::{Content, Key, Keys, Nonce, Rule, Site, State, TRANSACTIONS, World};

#[derive(Clone, Copy, Debug, Default, PartialEq, Eq, Hash)]
pub struct Database {
    pub content: Content,
    pub transactions: [At; TRANSACTIONS],
    /// The keys whose count is odd.
    pub kept: Keys,
    /// The value of the cluster's mark since this start, if it has it.
    pub nonce: Option<Nonce>,
    pub service: Service,
}

/// How far a transaction is. Whatever it changes, it changes before it gives notice.
#[derive(Clone, Copy, Debug, Default, PartialEq, Eq, Hash, PartialOrd, Ord)]
pub enum At {
    Start,
    Noticed,
    /// Has found that readers may keep its key, and waits for a worker.
    Waiting,
    /// A worker has held its key in X.
    Recalled,
    /// May commit or be prepared.
    Ready,
    Prepared,
    /// Its commit record is on the disk.
    Flushed,
    /// Its commit is visible, and its locks have not ended.
    Visible,
    #[default]
    Ended,
    /// Prepared, and without the notice that it gave: a wrong database.
    Silent,
}

#[derive(Clone, Copy, Debug, Default, PartialEq, Eq, Hash)]
pub enum Service {
    #[default]
    Open,
    /// krl's server is stopped, and the leases of its clients are awaited.
    Suspending,
    Suspended,
    /// Transactions wait for krl again, and readers keep nothing yet.
    Resuming,
}

impl Database {
    pub fn first(world: &World, nonce: Nonce) -> Database {
        let mut transactions = [At::Ended; TRANSACTIONS];
        for (number, at) in transactions.iter_mut().enumerate() {
            if world.key_of(number).is_some() {
                *at = At::Start;
            }
        }
        Database { transactions, nonce: Some(nonce), ..Database::default() }
    }

    /// Whether transactions commit without krl.
    fn is_suspended(self, world: &World) -> bool {
        match self.service {
            Service::Open | Service::Suspending => false,
            Service::Suspended => true,
            Service::Resuming => !world.keeps(Rule::WaitsForKrlBeforeItOpens),
        }
    }

    /// Whether readers who know this nonce may keep rows.
    pub fn is_open(self, world: &World, nonce: Option<Nonce>) -> bool {
        let is_closed = match self.service {
            Service::Open => false,
            Service::Suspending => true,
            Service::Suspended => world.keeps(Rule::ClosesWhileSuspended),
            Service::Resuming => world.keeps(Rule::WaitsForKrlBeforeItOpens),
        };
        let is_known = nonce.is_some() && nonce == self.nonce;
        !is_closed && (is_known || !world.keeps(Rule::ComparesTheNonce))
    }

    /// Whether a transaction that has not ended has given notice of the key.
    pub fn has_notice(self, world: &World, key: Key) -> bool {
        let of_key = |(number, at): (usize, &At)| {
            world.key_of(number) == Some(key) && is_noticed(world, *at)
        };
        self.transactions.iter().enumerate().any(of_key)
    }

    /// Whether a transaction leaves the key to readers, as nobody keeps rows by it.
    fn skips(self, world: &World, key: Key) -> bool {
        let is_known = self.nonce.is_some() || !world.keeps(Rule::SkipsOnlyWithTheNonce);
        is_known && !self.kept.has(key)
    }

    /// What is left of it after a crash, and of a replica that is promoted.
    fn recovered(self, world: &World) -> Database {
        let mut after = Database { kept: Keys::default(), nonce: None, ..self };
        for number in 0..TRANSACTIONS {
            if self.transactions[number] == At::Flushed {
                after.content = after.content.with(number);
            }
            after.transactions[number] = recovered(world, self.transactions[number]);
        }
        after.service = match self.service {
            Service::Open | Service::Suspending => Service::Open,
            Service::Suspended | Service::Resuming => Service::Suspended,
        };
        after
    }
}

fn is_noticed(world: &World, at: At) -> bool {
    let is_early = world.keeps(Rule::GivesNoticeBeforeTheRecall);
    let first = if is_early { At::Noticed } else { At::Ready };
    let is_late = world.keeps(Rule::KeepsNoticeUntilVisible);
    let last = if is_late { At::Visible } else { At::Prepared };
    world.keeps(Rule::GivesNotice) && (first..=last).contains(&at)
}

fn recovered(world: &World, at: At) -> At {
    match at {
        At::Start => At::Start,
        At::Prepared if world.keeps(Rule::KeepsNoticeOfPrepared) => At::Prepared,
        At::Prepared | At::Silent => At::Silent,
        _ => At::Ended,
    }
}

/// What the databases and their operator can do next.
pub fn next(world: &World, state: &State, next: &mut Vec<State>) {
    for number in 0..world.transactions.len() {
        transact(world, state, number, next);
        next.extend(roll_back(state, number));
        if state.primary == Site::Replica {
            next.extend(end_at_former_primary(state, number));
        }
    }
    next.extend(crash(world, state));
    next.extend(promote(world, state));
    operate(world, state, next);
}

/// The state in which the primary's transaction is here.
fn go(state: &State, number: usize, at: At) -> State {
    let mut after = *state;
    after.primary_mut().transactions[number] = at;
    after
}

fn transact(world: &World, state: &State, number: usize, next: &mut Vec<State>) {
    let Some(key) = world.key_of(number) else { return };
    match state.primary().transactions[number] {
        At::Start => next.push(go(state, number, At::Noticed)),
        At::Noticed => next.push(look_at_count(world, state, number, key)),
        At::Waiting if krl::has_recalled(world, state, key) => {
            next.push(go(state, number, At::Recalled));
        }
        At::Recalled => {
            let mut after = go(state, number, At::Ready);
            raise_count(&mut after, key);
            next.push(after);
        }
        At::Ready => {
            next.push(go(state, number, At::Flushed));
            next.extend(prepare(state, number));
        }
        At::Prepared => next.push(go(state, number, At::Flushed)),
        At::Flushed => next.push(become_visible(state, number, At::Visible)),
        At::Silent => next.push(become_visible(state, number, At::Ended)),
        At::Visible => next.push(go(state, number, At::Ended)),
        At::Waiting | At::Ended => {}
    }
}

fn look_at_count(world: &World, state: &State, number: usize, key: Key) -> State {
    let database = state.primary();
    if database.is_suspended(world) || database.skips(world, key) {
        return go(state, number, At::Ready);
    }
    let mut after = go(state, number, At::Waiting);
    if !world.keeps(Rule::RaisesTheCountAfterTheRecall) {
        raise_count(&mut after, key);
    }
    after
}

/// The key was taken back. What a reader has counted is another number from now on.
fn raise_count(state: &mut State, key: Key) {
    let primary = state.primary;
    let database = state.primary_mut();
    database.kept = database.kept.without(key);
    for reader in &mut state.readers {
        reader.load.note_raised_count(primary);
    }
}

fn prepare(state: &State, number: usize) -> Option<State> {
    let mut after = go(state, number, At::Prepared);
    after.left.prepares = state.left.prepares.checked_sub(1)?;
    Some(after)
}

fn become_visible(state: &State, number: usize, at: At) -> State {
    let mut after = go(state, number, at);
    let database = after.primary_mut();
    database.content = database.content.with(number);
    after
}

fn roll_back(state: &State, number: usize) -> Option<State> {
    let at = state.primary().transactions[number];
    (At::Noticed..=At::Prepared).contains(&at).then(|| go(state, number, At::Ended))
}

/// The former primary no longer commits: what has not committed is rolled back, and keeps its notice
/// if it is prepared. What its replica has of it becomes visible there too.
fn end_at_former_primary(state: &State, number: usize) -> Option<State> {
    let mut after = *state;
    let former = after.database_mut(Site::First);
    former.transactions[number] = match former.transactions[number] {
        At::Flushed => {
            former.content = former.content.with(number);
            At::Visible
        }
        At::Noticed | At::Waiting | At::Recalled | At::Ready | At::Visible => At::Ended,
        At::Start | At::Prepared | At::Ended | At::Silent => return None,
    };
    Some(after)
}

/// The primary crashes, and starts again.
fn crash(world: &World, state: &State) -> Option<State> {
    let mut after = *state;
    after.left.crashes = state.left.crashes.checked_sub(1)?;
    *after.primary_mut() = state.primary().recovered(world);
    for reader in &mut after.readers {
        reader.load.note_crash(state.primary);
    }
    if state.worker.site == state.primary {
        after.worker.end();
    }
    Some(after)
}

/// A replica that has all that had committed becomes the primary. The former one answers those who
/// ask it, and commits nothing more.
fn promote(world: &World, state: &State) -> Option<State> {
    let mut after = *state;
    after.left.promotions = state.left.promotions.checked_sub(1)?;
    *after.database_mut(Site::Replica) = state.database(Site::First).recovered(world);
    for at in &mut after.database_mut(Site::First).transactions {
        if *at == At::Start {
            *at = At::Ended;
        }
    }
    after.primary = Site::Replica;
    (state.primary == Site::First && state.primary().service == Service::Open).then_some(after)
}

/// The operator suspends the cluster, and resumes it.
fn operate(world: &World, state: &State, next: &mut Vec<State>) {
    let serve = |service| {
        let mut after = *state;
        after.primary_mut().service = service;
        after
    };
    match state.primary().service {
        Service::Open => {
            let mut after = serve(Service::Suspending);
            let Some(left) = state.left.suspensions.checked_sub(1) else { return };
            after.left.suspensions = left;
            next.push(after);
        }
        Service::Suspending => {
            next.push(serve(Service::Open));
            let may_answer = state.reading_clients().any(|it| !it.held().is_empty());
            if !may_answer || !world.keeps(Rule::WaitsForTheLeases) {
                let mut after = serve(Service::Suspended);
                after.primary_mut().nonce = None;
                after.worker = Worker { site: state.primary, ..Worker::default() };
                next.push(after);
            }
        }
        Service::Suspended if state.primary().nonce.is_some() => {
            next.push(serve(Service::Resuming));
        }
        Service::Resuming => {
            let holds_mark = state.worker.client.holds(Key::Cluster);
            if holds_mark || !world.keeps(Rule::TakesTheMarkToResume) {
                next.push(serve(Service::Open));
            }
        }
        Service::Suspended => {}
    }
}
