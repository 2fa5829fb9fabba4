//! Shards that are cut, merged or moved by one command, while clients that follow the map continue.
//!
//! Each step may be cut off: the same command continues from what it finds.
//!
//! 1. The next map takes the place of this one ([`super::published_map`]). Clients that follow it leave
//!    the shards that change, and no client joins them: their servers are of shards that no later map
//!    has.
//! 2. When all have left, the servers of these shards are stopped.
//! 3. The stores change, as [`change`] describes: **no server can start on a new store while another
//!    one can start on a store that has its rows.**
//! 4. The servers of the next map's shards start.
//!
//! What fails before a store has changed is taken back, and the old servers start again.
mod change;
mod obstacles;
mod stores;
mod words;

use super::next_map;
use super::published_map::{MapFile, PublishedMap, run};
use crate::process::Done;
use crate::process::output;
use crate::settings::{BadSetting, StatusPort};
use crate::status::paths::CLIENTS;
use change::{InUse, NewStore, OldStore, Unknown};
use krl::ShardMap;
use krl::store::{KeptShard, ShardBounds, Snapshot};
use std::error::Error;
use std::num::NonZeroU64;
use std::thread;
use std::time::{Duration, Instant};
use stores::{Stores, json, served_by};
pub use words::LiveChange;
use words::LiveOptions;

/// How often the servers are asked who is left.
const POLL_PERIOD: Duration = Duration::from_millis(20);

/// How often it is reported who is left.
const REPORT_PERIOD: Duration = Duration::from_secs(5);

/// The pause after which stores are tried again that were in use: clients leave their servers meanwhile.
const IN_USE_PAUSE: Duration = Duration::from_secs(1);

/// How long a server may take to start or to end.
const START_OR_END: Duration = Duration::from_secs(60);

/// Changes the shards, or takes back what was begun.
pub fn reshard(change: &LiveChange) -> Done {
    let live = change.live();
    let file = MapFile::lock(&live.map, live.publish.as_deref(), change.words())?;
    let version = if live.undo { undo(change, file)? } else { make(change, file)? };
    let done = if live.undo { "as before the change" } else { "is served" };
    let map = live.map.display();
    Ok(output::print_done(&format!("{map}: version {version} {done}\n"))?)
}

/// Changes the shards. Returns the version of the map.
fn make(change: &LiveChange, file: MapFile) -> Done<NonZeroU64> {
    let mut map = file.change(&change.keys(), |map| change.next_of(map))?;
    let stores = change.stores(&map)?;
    stores.refuse_others()?;
    if !stores.have_begun_to_change()? {
        obstacles::refuse(change.live(), &stores.new)?;
    }
    map.begin()?;
    make_begun(change, &map, &stores)
        .map_err(|why| given_up(&change.live().start, &mut map, &stores, why.as_ref()))?;
    map.end()
}

fn make_begun(change: &LiveChange, map: &PublishedMap, stores: &Stores<'_>) -> Done {
    let version = map.publish()?;
    output::report(&format!("the map is of version {version}"));
    if stores.have_changed()? {
        // An earlier call has changed the stores, and may have been killed.
        stores.open_new(|| stop_servers(change, stores))?;
    } else {
        change_stores(change, stores)?;
    }
    start_servers(change, stores)
}

/// Takes back what can be taken back of a change that has failed. Returns why it has, and what is
/// served.
fn given_up(
    start: &str,
    map: &mut PublishedMap,
    stores: &Stores<'_>,
    why: &(dyn Error + 'static),
) -> String {
    // A database may commit what was sent before, by this command or an earlier one.
    let is_known = stores.are_files() || (map.is_new && !why.is::<Unknown>());
    let undo = "or give it up by the same command with --undo";
    let left = match stores.have_begun_to_change() {
        Ok(false) if is_known => match take_back(start, map) {
            Ok(version) => format!(
                "Nothing has changed, and the old servers serve: the map is what it was, by version \
                 {version}, with {}. Repeat the command when that is mended",
                map.change.shown_before()
            ),
            Err(not) => format!(
                "No store has changed, but not all could be taken back: {not}. Repeat the command when \
                 that is mended, {undo}"
            ),
        },
        Ok(true) => {
            start_remaining(start, stores);
            format!(
                "The stores have begun to change, so keys of {} are not served until the command is \
                 repeated and ends well",
                map.change.shown_before()
            )
        }
        _ => format!("Whether a store has changed is not known: repeat the command, {undo}"),
    };
    format!("{why}. {left}")
}

/// Puts the shards before into the map again, and starts their servers in any case. Returns its version.
fn take_back(start: &str, map: &mut PublishedMap) -> Done<NonZeroU64> {
    let (taken_back, started) = (map.take_back(), run(start));
    let version = taken_back?;
    started.map_err(|why| format!("the map is what it was, by version {version}, but {why}"))?;
    map.forget()?;
    Ok(version)
}

/// Starts the servers of the old stores, if one of them keeps a shard.
fn start_remaining(start: &str, stores: &Stores<'_>) {
    if stores.old.iter().any(|old| !old.after.is_sealed) {
        try_to_start(start);
    }
}

fn try_to_start(start: &str) {
    if let Err(why) = run(start) {
        output::report(&why.to_string());
    }
}

/// Takes back what an earlier command has begun. Returns the version of the map.
fn undo(change: &LiveChange, file: MapFile) -> Done<NonZeroU64> {
    let mut map = file.begun()?;
    let stores = change.stores(&map)?;
    if !stores.stay_unchanged(|| stop_servers(change, &stores))? {
        let why = "a store has changed already, so the change can't be taken back";
        return Err(format!("{why}: repeat the command without --undo").into());
    }
    take_back(&change.live().start, &mut map)
}

impl LiveChange {
    /// The map after this one.
    fn next_of(&self, before: &ShardMap) -> Done<ShardMap> {
        if let LiveChange::Split { servers, .. } | LiveChange::Move { servers, .. } = self {
            next_map::refuse_server_of_map(before, servers)?;
        }
        let (at, next) = match self {
            LiveChange::Split { at, servers, .. } => (*at, before.split(*at, servers.clone())),
            LiveChange::Merge { at, .. } => (*at, before.merge(*at)),
            LiveChange::Move { first, servers, .. } => {
                (*first, before.with_servers(*first, servers.clone()))
            }
        };
        next.map_err(|error| next_map::no_map(&self.live().map, at, &error))
    }

    /// The stores, and what they are before and after the change.
    fn stores(&self, map: &PublishedMap) -> Done<Stores<'_>> {
        let before = |key: u64| next_map::bounds(&map.change.before, key);
        let next = |key: u64| next_map::bounds(&map.change.next, key);
        let version = map.change.next.version().ok_or("the map has no version")?;
        let sealed = |place, before: ShardBounds| {
            let after = KeptShard::sealed(before.with_version(version));
            OldStore { place, before, after }
        };
        let (old, place, shard) = match self {
            LiveChange::Split { store, at, new_store, .. } => {
                let after = KeptShard::open(next(at - 1)?);
                let old = OldStore { place: store, before: before(*at)?, after };
                (vec![old], new_store, next(*at)?)
            }
            LiveChange::Merge { lower, upper, new_store, at, .. } => {
                let old = vec![sealed(lower, before(at - 1)?), sealed(upper, before(*at)?)];
                (old, new_store, next(*at)?)
            }
            LiveChange::Move { store, new_store, first, .. } => {
                (vec![sealed(store, before(*first)?)], new_store, next(*first)?)
            }
        };
        let LiveOptions { status, tls, .. } = self.live();
        let ports = status.iter().map(|address| tls.status_port(address));
        let ports = ports.collect::<Result<Vec<_>, _>>()?;
        if ports.len() != old.len() {
            let why = format!("{} status ports are expected, one of each old store", old.len());
            return Err(BadSetting(why).into());
        }
        Ok(Stores { old, ports, new: NewStore { place, shard } })
    }

    /// What the new store has of what the old ones have.
    fn content(&self, mut old: Vec<Snapshot>) -> Done<Snapshot> {
        let last = old.pop().ok_or("no store changes")?;
        match self {
            LiveChange::Split { store, at, allow_empty, .. } => {
                let (_, upper) = last.split(*at);
                if upper.rows.is_empty() && !allow_empty {
                    let why = format!("{store} has no row from {at} on: nothing would move");
                    return Err(format!("{why}. --allow-empty makes a store without rows").into());
                }
                Ok(upper)
            }
            LiveChange::Merge { .. } => {
                Ok(old.pop().ok_or("one store can't be merged")?.merge(last)?)
            }
            LiveChange::Move { .. } => Ok(last),
        }
    }
}

/// Changes the stores once all clients have left.
fn change_stores(change: &LiveChange, stores: &Stores<'_>) -> Done {
    let LiveOptions { start, wait, .. } = change.live();
    let end = Instant::now() + Duration::from_secs(*wait);
    loop {
        let who = match wait_until_left(stores, end) {
            Some(who) => who,
            None => match change_stopped(change, stores) {
                // One that does not follow the map has joined meanwhile.
                Err(error) if error.is::<InUse>() => start_again(start, &error.to_string()),
                ended => return ended,
            },
        };
        if Instant::now() >= end {
            return Err(format!("{who}: not left within {wait} seconds").into());
        }
        thread::sleep(IN_USE_PAUSE);
    }
}

/// Changes the stores once their servers are stopped.
fn change_stopped(change: &LiveChange, stores: &Stores<'_>) -> Done {
    stop_servers(change, stores)?;
    stores.change(|old| change.content(old))
}

/// Starts the old servers, so that the clients that have not left can. Returns which these are.
fn start_again(start: &str, who: &str) -> String {
    output::report(who);
    try_to_start(start);
    who.into()
}

/// Waits until no client is at the servers. One that does not answer has none, or is down: its store
/// shows it. Returns the clients that have not left in time, if there are any.
fn wait_until_left(stores: &Stores<'_>, end: Instant) -> Option<String> {
    let mut next_report = Instant::now() + REPORT_PERIOD;
    loop {
        let who = stores.ports.iter().find_map(clients_of)?;
        if Instant::now() >= end {
            return Some(who);
        }
        if Instant::now() >= next_report {
            output::report(&format!("waits for {who}"));
            next_report = Instant::now() + REPORT_PERIOD;
        }
        thread::sleep(POLL_PERIOD);
    }
}

/// The clients of a server, and where they are, if there are any.
fn clients_of(port: &StatusPort) -> Option<String> {
    let page = json(port, CLIENTS)?;
    let name = |client: &serde_json::Value| match client["peer"].as_str() {
        Some(peer) => format!("client {} at {peer}", client["client"]),
        None => format!("client {}, which has no connection", client["client"]),
    };
    let names: Vec<String> = page["clients"].as_array()?.iter().map(name).collect();
    (!names.is_empty()).then(|| names.join("; "))
}

/// Stops the servers of the stores that change. Those of files have ended when it returns. One that
/// still runs over a database commits nothing any more once the command has taken the store.
fn stop_servers(change: &LiveChange, stores: &Stores<'_>) -> Done {
    let served = || stores.old.iter().find_map(|old| served_by(old.place));
    if stores.are_files() && served().is_none() {
        return Ok(());
    }
    run(&change.live().stop)?;
    let (begun, mut is_reported) = (Instant::now(), false);
    while let Some(by) = served() {
        if begun.elapsed() >= START_OR_END {
            return Err(format!("--stop has ended, and {by} serves still").into());
        }
        if begun.elapsed() >= REPORT_PERIOD && !is_reported {
            output::report(&format!("waits for the end of {by}, which --stop has to stop"));
            is_reported = true;
        }
        thread::sleep(POLL_PERIOD);
    }
    Ok(())
}

/// Starts the servers of the next map that do not run. Of a merge and a move only the new one does.
fn start_servers(change: &LiveChange, stores: &Stores<'_>) -> Done {
    let LiveOptions { start, start_new, .. } = change.live();
    if served_by(stores.new.place).is_none() {
        run(start_new)?;
    }
    let serves_on =
        stores.old.iter().any(|old| !old.after.is_sealed && served_by(old.place).is_none());
    if serves_on { run(start) } else { Ok(()) }
}
