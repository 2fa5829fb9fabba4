//! A new store from a backup, for a server that takes up work again.
use super::stores;
use crate::process::Done;
use crate::process::output;
use crate::settings::{BadSetting, StorePlace};
use krl::END;
use krl::store::{LeaseRecord, Snapshot};
use std::path::Path;

/// How far the epoch of a restored store lies after that of the backup: no server has started this
/// many times since the backup was made.
const FAR: u64 = 1 << 32;

/// Why the operator has to confirm that all clients are stopped.
const CLIENTS_LIVE: &str = "\
    stop every client's process first, and confirm that with --clients-are-stopped: one that still \
    runs may know of writes that the backup does not have, and would continue to answer from its \
    cache with outdated rows";

/// Writes the backup as a new store on which a server serves at once, and reports what it contains.
pub fn restore(backup: &Path, store: &StorePlace, are_stopped: bool) -> Done {
    if !are_stopped {
        return Err(BadSetting(CLIENTS_LIVE.to_string()).into());
    }
    let file = match store {
        StorePlace::File(path) => Some(path.as_path()),
        StorePlace::Etcd(_) | StorePlace::Postgres(_) => None,
    };
    for path in [Some(backup), file].into_iter().flatten() {
        stores::refuse_served(path)?;
    }
    let file = stores::read_undamaged(backup)?;
    let before = file.snapshot.epoch;
    let snapshot = restored(file.snapshot)?;
    stores::judge(store, &snapshot)?;
    stores::create(store, &snapshot)?;
    let Snapshot { epoch, rows, records, .. } = snapshot;
    let (rows, records) = (rows.len(), records.len());
    output::print_done(&format!(
        "{store}: {rows} rows, epoch {epoch} after {before}\n\
         clients that count as left: {records}\n"
    ))?;
    Ok(())
}

/// What a server may serve in place of what was kept after the snapshot, if no client lives. Its
/// epoch is one that no client has seen, and no client is waited for: every client joins again.
fn restored(mut snapshot: Snapshot) -> Result<Snapshot, String> {
    let epoch = snapshot.epoch;
    let raised = epoch.checked_add(FAR).filter(|epoch| *epoch < END);
    snapshot.epoch = raised.ok_or_else(|| {
        format!("the backup has the epoch {epoch}: less than {FAR} are left to {END}, the last one")
    })?;
    for record in &mut snapshot.records {
        record.left = true;
    }
    // A server after the backup may have granted longer leases, and none of them runs any more.
    snapshot.leases = LeaseRecord::UNKNOWN;
    Ok(snapshot)
}

#[cfg(test)]
mod tests {
    use super::*;

    #[test]
    fn no_epoch_passes_the_last_one() {
        let snapshot = |epoch| Snapshot { epoch, ..Snapshot::default() };
        let last = restored(snapshot(END - 1 - FAR)).unwrap();
        assert_eq!((last.epoch, last.judge()), (END - 1, Ok(())));
        for epoch in [END - FAR, END - 1, u64::MAX] {
            let refused = restored(snapshot(epoch)).unwrap_err();
            assert!(refused.contains(&epoch.to_string()), "{refused}");
        }
    }
}
