//! The map that clients follow, as a server watches it: clients that do not follow it may not hold a
//! change up for longer than their leases.
use super::map_home;
use crate::process::Done;
use crate::process::role::{Role, State};
use crate::settings::StorePlace;
use krl::ShardMap;
use krl::store::ShardBounds;
use krl_etcd::Credentials;
use std::time::{Duration, Instant};

/// How often the map is looked at.
const MAP_PERIOD: Duration = Duration::from_millis(200);

/// How long clients that follow the map have to leave a shard that changes.
const GRACE: Duration = Duration::from_secs(10);

/// A shard that the map has in place of the server's, and since when.
type Next = Option<(ShardBounds, Instant)>;

/// Watches the map from now on, while the process serves.
pub fn start(role: Role, map: &StorePlace, credentials: &Credentials) -> Done {
    let (mut home, mut next, mut given) = (map_home::open(map, credentials)?, None, None);
    Ok(role.watch("map", MAP_PERIOD, move |state| {
        let State::Serves { monitor, .. } = state else { return };
        let own = monitor.status().shard;
        let found = own.and_then(|own| {
            let map = ShardMap::from_toml(&home.read().ok()??).ok()?;
            in_place_of(own, &map)
        });
        next = since(next, found, Instant::now());
        let due = next.filter(|(_, since)| since.elapsed() >= GRACE).map(|(next, _)| next);
        if due != given && monitor.give_way(due) {
            log(due);
            given = due;
        }
    })?)
}

fn log(next: Option<ShardBounds>) {
    if let Some(next) = next {
        tracing::warn!(%next, "the map has another shard: no lease is renewed");
    } else {
        tracing::info!("the map has this shard again: leases are renewed");
    }
}

/// What the map has in place of the server's own shard, if it is a later one and lacks that.
fn in_place_of(own: ShardBounds, map: &ShardMap) -> Option<ShardBounds> {
    let is_later = map.version() > Some(own.map_version());
    let is_there = (0..map.shards().len()).any(|shard| map.bounds_of(shard) == Some(own));
    if !is_later || is_there {
        return None;
    }
    map.bounds_of(map.shard_of(own.keys().start).ok()?)
}

/// The same as before if that was found before, and otherwise what is found now.
fn since(before: Next, found: Option<ShardBounds>, now: Instant) -> Next {
    let found = found?;
    before.filter(|(next, _)| *next == found).or(Some((found, now)))
}

#[cfg(test)]
mod tests {
    use super::*;

    fn map(version: u64, since: u64) -> ShardMap {
        let shard = |first| format!("[[shard]]\nfirst = {first}\nservers = \"127.0.0.1:1\"\n");
        let text = format!("version = {version}\n{}{}", shard(0), shard(50));
        ShardMap::from_toml(&format!("{text}since = {since}\n")).unwrap()
    }

    #[test]
    fn a_server_gives_way_only_to_a_later_shard_in_place_of_its_own() {
        for (own, map, next) in [
            ("0..@1", map(2, 2), Some("0..50@2")),
            ("60..@1", map(2, 2), Some("50..@2")),
            ("50..@1", map(2, 2), Some("50..@2")),
            ("50..@1", map(2, 1), None),
            ("0..50@2", map(2, 2), None),
            ("0..@2", map(2, 2), None),
            ("0..@3", map(2, 2), None),
        ] {
            let next = next.map(|next| next.parse().unwrap());
            assert_eq!(in_place_of(own.parse().unwrap(), &map), next, "{own}");
        }
    }

    #[test]
    fn what_is_found_again_is_as_old_as_it_was() {
        let (begun, next) = (Instant::now(), "0..50@2".parse().unwrap());
        let later = begun + MAP_PERIOD;
        let found = since(None, Some(next), begun);
        assert_eq!(since(found, Some(next), later), Some((next, begun)));
        assert_eq!(since(found, None, later), None);
        let other = "0..60@3".parse().unwrap();
        assert_eq!(since(found, Some(other), later), Some((other, later)));
    }
}
