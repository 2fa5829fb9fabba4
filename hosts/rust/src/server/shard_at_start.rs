//! The shard of a server that starts, and the shard that its store keeps.
use crate::model::change::Change;
use crate::model::kept_shard::KeptShard;
use crate::model::shard_bounds::ShardBounds;
use crate::model::snapshot::Snapshot;
use crate::server::error::ServeError;

/// The shard of a server that starts over a store, and is given this one or none: it is the store's
/// own, if the store is of one. Nothing else decides whether a server of a shard may start.
///
/// # Errors
///
/// `Sealed` if no server may start on the store; `OtherStoreShard` if the store is of another shard
/// than the one that is given; `OtherKey` if it has a key that the shard does not have.
pub(crate) fn shard_at_start(
    store: &Snapshot,
    given: Option<ShardBounds>,
) -> Result<Option<ShardBounds>, ServeError> {
    let shard = match (store.shard, given) {
        (Some(kept), _) if kept.is_sealed => return Err(ServeError::Sealed(kept.bounds)),
        (Some(kept), Some(given)) if kept.bounds != given => {
            return Err(ServeError::OtherStoreShard { kept: kept.bounds, given });
        }
        (Some(kept), _) => Some(kept.bounds),
        (None, given) => given,
    };
    let stray = shard.and_then(|shard| Some((stray_key(store, shard)?, shard)));
    stray.map_or(Ok(shard), |(key, shard)| Err(ServeError::OtherKey { key, shard }))
}

/// What the start has to commit, if the store does not keep its shard yet.
pub(crate) fn shard_change(store: &Snapshot, shard: Option<ShardBounds>) -> Option<Change> {
    let next = KeptShard::open(shard?);
    (store.shard != Some(next)).then_some(Change::Shard(next))
}

/// A key of the store that the shard does not have, if there is one: nobody would find it.
fn stray_key(store: &Snapshot, shard: ShardBounds) -> Option<u64> {
    let keys = shard.keys();
    let below = store.rows.range(..keys.start).next();
    below.or_else(|| store.rows.range(keys.end..).next()).map(|(key, _)| *key)
}

#[cfg(test)]
mod tests {
    use super::*;
    use crate::model::row::Value;

    fn store(keys: &[u64], shard: &str) -> Snapshot {
        let rows = keys.iter().map(|key| (*key, Value::from(0))).collect();
        Snapshot { rows, shard: shard.parse().ok(), ..Snapshot::default() }
    }

    #[test]
    fn keys_of_another_shard_are_found() {
        let shard = "10..20@1".parse().unwrap();
        for (keys, stray) in
            [(&[][..], None), (&[10, 19], None), (&[9, 10], Some(9)), (&[15, 20], Some(20))]
        {
            assert_eq!(stray_key(&store(keys, ""), shard), stray);
        }
    }

    /// The shard of a server that is given this one over a store that keeps that one, or why it does
    /// not start.
    fn start(kept: &str, given: &str) -> Result<String, String> {
        let store = store(&[15], kept);
        let started = shard_at_start(&store, given.parse().ok());
        let shard = started.map_err(|error| error.to_string())?;
        Ok(shard.map(|shard| shard.to_string()).unwrap_or_default())
    }

    #[test]
    fn a_server_is_of_the_shard_of_its_store() {
        assert_eq!(start("", ""), Ok(String::new()));
        assert_eq!(start("", "10..20@3"), Ok("10..20@3".into()));
        assert_eq!(start("10..20@3", ""), Ok("10..20@3".into()));
        assert_eq!(start("10..20@3", "10..20@3"), Ok("10..20@3".into()));
    }

    #[test]
    fn a_store_of_another_shard_is_refused() {
        for given in ["10..20@2", "10..20@4", "10..30@3", "0..20@3", "0..@4"] {
            let refused = start("10..20@3", given).unwrap_err();
            assert!(refused.contains("the store is of the shard 10..20@3"), "{refused}");
            assert!(refused.contains(given), "{refused}");
        }
        let refused = start("", "0..10@3").unwrap_err();
        assert!(refused.contains("the store has the key 15"), "{refused}");
    }

    #[test]
    fn no_server_starts_on_a_sealed_store() {
        for given in ["", "10..20@3", "10..20@4"] {
            let refused = start("10..20@3 sealed", given).unwrap_err();
            assert!(refused.contains("the store of the shard 10..20@3 is sealed"), "{refused}");
        }
    }

    #[test]
    fn a_start_commits_the_shard_if_the_store_does_not_keep_it_yet() {
        let shard = "10..20@3".parse().unwrap();
        let expected = Change::Shard(KeptShard::open(shard));
        assert_eq!(shard_change(&store(&[], ""), Some(shard)), Some(expected));
        assert_eq!(shard_change(&store(&[], "10..20@3"), Some(shard)), None);
        assert_eq!(shard_change(&store(&[], ""), None), None);
    }
}
